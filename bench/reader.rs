//! The reader beside libnice's `stun_agent_validate`, with its FINGERPRINT check and no credentials, and beside a reader written by hand.
use crate::measure;
use crate::plain::{self, Said};
use std::ffi::{c_int, c_void};
use std::hint::black_box;
use std::ptr::null_mut;

#[link(name = "cratehoist", kind = "static")]
extern "C" {
    fn cratehoist_read(d: *const u8, n: usize) -> Reading;
    fn cratehoist_crc32(s: *const u8, n: usize) -> u32;
}

/// What our reader answers (include/cratehoist.h).
#[repr(C)]
#[allow(dead_code)] // `what` and `id` are there for the layout
pub struct Reading {
    what: u8,
    pub number: u8,
    class: u16,
    method: u16,
    count: usize,
    place: usize,
    id: [u8; 12],
}

/// libnice's own structs (stun/stunagent.h, stun/stunmessage.h).
#[repr(C)]
#[derive(Clone, Copy)]
struct SavedId {
    id: [u8; 16],
    method: c_int,
    key: *mut u8,
    key_len: usize,
    long_term_key: [u8; 16],
    long_term_valid: bool,
    valid: bool,
}

#[repr(C)]
pub struct Agent {
    compatibility: c_int,
    sent_ids: [SavedId; 200],
    known_attributes: *const u16,
    usage_flags: c_int,
    software: *const u8,
    legacy: bool,
}

#[repr(C)]
pub struct Message {
    agent: *mut Agent,
    buffer: *mut u8,
    buffer_len: usize,
    key: *mut u8,
    key_len: usize,
    long_term_key: [u8; 16],
    long_term_valid: bool,
}

const RFC5389: c_int = 1;
const USE_FINGERPRINT: c_int = 1 << 2;
const IGNORE_CREDENTIALS: c_int = 1 << 4;
pub const SUCCESS: c_int = 0;
const KNOWN: [u16; 12] = [0x0001, 0x0006, 0x0008, 0x0009, 0x000A, 0x0014, 0x0015, 0x0020, 0x8022, 0x8023, 0x8028, 0];

#[link(name = "nice")]
extern "C" {
    fn stun_agent_init(agent: *mut Agent, known: *const u16, compatibility: c_int, flags: c_int);
    fn stun_agent_validate(agent: *mut Agent, m: *mut Message, b: *const u8, n: usize, validater: *const c_void, data: *mut c_void) -> c_int;
}

pub fn ours(d: &[u8]) -> Reading {
    unsafe { cratehoist_read(d.as_ptr(), d.len()) }
}

fn said(d: &[u8]) -> Said {
    let r = ours(d);
    Said { number: r.number, class: r.class, method: r.method, count: r.count, place: r.place }
}

/// An agent that waits for the answer to the request of one ID.
pub fn agent(id: &[u8]) -> Box<Agent> {
    let mut a: Box<Agent> = unsafe { Box::new(std::mem::zeroed()) };
    unsafe { stun_agent_init(&mut *a, KNOWN.as_ptr(), RFC5389, USE_FINGERPRINT | IGNORE_CREDENTIALS) };
    a.sent_ids[0].id.copy_from_slice(id);
    a.sent_ids[0].method = 1;
    a
}

pub fn message(a: &mut Agent, d: &mut [u8]) -> Message {
    Message { agent: a, buffer: d.as_mut_ptr(), buffer_len: d.len(), key: null_mut(), key_len: 0, long_term_key: [0; 16], long_term_valid: false }
}

fn libnice(a: &mut Agent, d: &[u8]) -> bool {
    // an answer that is taken is waited for no more
    a.sent_ids[0].valid = true;
    let mut m = message(a, &mut []);
    unsafe { stun_agent_validate(a, &mut m, d.as_ptr(), d.len(), std::ptr::null(), null_mut()) == SUCCESS }
}

pub fn attribute(d: &mut Vec<u8>, kind: u16, value: &[u8]) {
    d.extend(kind.to_be_bytes());
    d.extend((value.len() as u16).to_be_bytes());
    d.extend(value);
    d.resize((d.len() + 3) / 4 * 4, 0);
    let body = (d.len() - 20) as u16;
    d[2..4].copy_from_slice(&body.to_be_bytes());
}

pub fn fingerprint(d: &mut Vec<u8>) {
    attribute(d, 0x8028, &[0; 4]);
    seal(d);
}

/// Sums a message anew whose last attribute is FINGERPRINT.
pub fn seal(d: &mut [u8]) {
    let p = d.len() - 8;
    let sum = unsafe { cratehoist_crc32(d.as_ptr(), p) } ^ 0x5354_554E;
    d[p + 4..].copy_from_slice(&sum.to_be_bytes());
}

/// A header without attributes.
pub fn header(kind: u16) -> Vec<u8> {
    let mut d = kind.to_be_bytes().to_vec();
    d.extend([0, 0, 0x21, 0x12, 0xA4, 0x42]);
    d.extend(0..12);
    d
}

/// SOFTWARE and XOR-MAPPED-ADDRESS.
pub fn unsigned(d: &mut Vec<u8>) {
    attribute(d, 0x8022, b"a server of thirty bytes, 1.00");
    attribute(d, 0x0020, &[0, 1, 0xA1, 0x47, 0xE1, 0x12, 0xA6, 0x43]);
}

pub fn integrity(d: &mut Vec<u8>) {
    attribute(d, 0x0008, &[0xA5; 20]);
}

/// What a usual response holds besides its FINGERPRINT.
pub fn usual(d: &mut Vec<u8>) {
    unsigned(d);
    integrity(d);
}

/// A Binding response of 100 bytes with these and FINGERPRINT.
pub fn response() -> Vec<u8> {
    let mut d = header(0x0101);
    usual(&mut d);
    fingerprint(&mut d);
    d
}

/// A response with REALM, NONCE and ERROR-CODE, in words of several scripts.
pub fn error() -> Vec<u8> {
    let mut d = header(0x0111);
    attribute(&mut d, 0x0009, "\0\0\u{4}\u{1}Keine Befugnis für dich".as_bytes());
    attribute(&mut d, 0x0015, b"f//499k954d6OL34oL9FSTvy64sA");
    attribute(&mut d, 0x0014, "例え.example".as_bytes());
    attribute(&mut d, 0x000A, &[0, 3, 0, 0x26]);
    fingerprint(&mut d);
    d
}

/// A Binding request with USERNAME and types that are not known.
pub fn request() -> Vec<u8> {
    let mut d = header(0x0001);
    attribute(&mut d, 0x0006, b"evtj:h6vY");
    attribute(&mut d, 0x0024, &[0x6E, 0, 1, 0xFF]);
    attribute(&mut d, 0x8029, &[0x93, 0x2F, 0xFF, 0xB1, 0x51, 0x26, 0x3B, 0x36]);
    attribute(&mut d, 0x8023, &[0, 2, 0xA1, 0x47, 1, 2, 3, 4, 5, 6, 7, 8, 9, 10, 11, 12, 13, 14, 15, 16]);
    fingerprint(&mut d);
    d
}

/// A Binding request with a USERNAME of 300 bytes and no FINGERPRINT.
fn long_name() -> Vec<u8> {
    let mut d = header(0x0001);
    attribute(&mut d, 0x0006, "museum:recorder-".repeat(19)[..300].as_bytes());
    d
}

/// Every cut and every change of a byte of four messages, with the length field made right again and as it was.
fn compare() {
    for mut d in [response(), error(), request(), long_name()] {
        assert_eq!(said(&d).number, 0);
        assert_eq!(said(&d), plain::read(&d));
        for n in 0..d.len() {
            assert_eq!(said(&d[..n]), plain::read(&d[..n]));
            if n >= 20 {
                let mut e = d[..n].to_vec();
                e[2..4].copy_from_slice(&((n - 20) as u16).to_be_bytes());
                assert_eq!(said(&e), plain::read(&e));
            }
            let was = d[n];
            for b in 0..=255 {
                d[n] = b;
                assert_eq!(said(&d), plain::read(&d), "byte {n} is {b}");
            }
            d[n] = was;
        }
    }
}

pub fn run() {
    measure::compared(compare);
    let d = response();
    let mut a = agent(&d[4..20]);
    assert!(libnice(&mut a, &d));
    let mut wrong = d.clone();
    wrong[40] ^= 1;
    assert!(!libnice(&mut a, &wrong) && ours(&wrong).number == 15);
    measure::row("read", d.len(), "libnice", || _ = black_box(ours(black_box(&d))), || _ = black_box(libnice(&mut a, black_box(&d))));
    let rows = [("response", response()), ("error", error()), ("request", request()), ("long name", long_name()), ("header", header(0x0001))];
    for (name, d) in rows {
        measure::row(&format!("read, {name}"), d.len(), "Rust by hand", || _ = black_box(ours(black_box(&d))), || {
            _ = black_box(plain::read(black_box(&d)))
        });
    }
}
