//! The longest datagrams that UDP carries, each of a shape that could be slow, beside a plain one of the same size: what a usual
//! response holds, over and over. A ratio of 0.25 is a cost per byte of four times the plain one's. Then calls beside themselves where
//! what they look for stands first in the plain one, and at half the size: there a ratio of 0.5 is a cost that is linear.
use crate::measure;
use crate::reader::{self, attribute, fingerprint, header, ours, unsigned, usual};
use std::hint::black_box;

#[repr(C)]
#[allow(dead_code)] // what isn't looked at is there for the layout
struct Part {
    there: bool,
    start: usize,
    size: usize,
}

#[repr(C)]
pub struct Written {
    pub number: u8,
    pub size: usize,
}

extern "C" {
    fn cratehoist_first_value(d: *const u8, n: usize, kind: u16) -> Part;
    fn cratehoist_realm(d: *const u8, n: usize, configured: *const u8, size: usize) -> Part;
    fn cratehoist_check_integrity(d: *const u8, n: usize, key: *const u8, size: usize) -> u8;
    fn cratehoist_append_raw(b: *mut u8, n: usize, kind: u16, value: *const u8, size: usize, padding: *const u8, rest: usize) -> Written;
    fn cratehoist_append_message_integrity(b: *mut u8, n: usize, key: *const u8, size: usize) -> Written;
    fn cratehoist_append_fingerprint(b: *mut u8, n: usize) -> Written;
}

/// The greatest payload of UDP over IPv4 is 65,507 bytes, and a message's size is a multiple of four.
const SIZE: usize = 65_504;

/// Attributes, one call after the other, until `left` bytes are left; then one that no list has, so that `size` bytes are there
/// with `left` more.
fn filled(size: usize, left: usize, mut more: impl FnMut(&mut Vec<u8>)) -> Vec<u8> {
    let mut d = header(0x0101);
    loop {
        let mut e = d.clone();
        more(&mut e);
        if e.len() + left + 4 > size {
            break;
        }
        d = e;
    }
    let rest = size - left - 4 - d.len();
    attribute(&mut d, 0x7FFF, &vec![0; rest]);
    d
}

/// What a usual response holds, over and over, and a FINGERPRINT.
pub fn plain(size: usize) -> Vec<u8> {
    let mut d = filled(size, 8, usual);
    fingerprint(&mut d);
    d
}

/// As the plain one, but the only MESSAGE-INTEGRITY stands at the end.
fn signed() -> Vec<u8> {
    let mut d = filled(SIZE, 32, unsigned);
    reader::integrity(&mut d);
    fingerprint(&mut d);
    d
}

fn worst() -> [(&'static str, Vec<u8>); 4] {
    let prints = filled(SIZE, 0, fingerprint);
    let empty = filled(SIZE, 0, |d| attribute(d, 0x7FFE, &[]));
    let mut greek = filled(SIZE, 8, |d| attribute(d, 0x8022, "λ".repeat(63).as_bytes()));
    fingerprint(&mut greek);
    [("all FINGERPRINTs", prints), ("empty attributes", empty), ("two-byte characters", greek), ("MESSAGE-INTEGRITY last", signed())]
}

/// A call on a datagram, or on a buffer that starts with one, told whether it went as it must.
type Call = fn(&mut [u8]) -> bool;

fn integrity(d: &mut [u8]) -> bool {
    unsafe { cratehoist_check_integrity(d.as_ptr(), d.len(), b"key".as_ptr(), 3) != 31 }
}

fn first_value(d: &mut [u8]) -> bool {
    unsafe { cratehoist_first_value(d.as_ptr(), d.len(), 0x8028).there }
}

fn first_of_all(d: &mut [u8]) -> bool {
    unsafe { cratehoist_first_value(d.as_ptr(), d.len(), 0x8022).there }
}

fn realm(d: &mut [u8]) -> bool {
    unsafe { !cratehoist_realm(d.as_ptr(), d.len(), b"realm".as_ptr(), 5).there }
}

/// The size is the buffer's without the 64 bytes of room behind the message, whose length is put back first.
fn appended(b: &mut [u8], append: impl FnOnce(*mut u8, usize) -> Written) -> bool {
    let body = (b.len() - 64 - 20) as u16;
    b[2..4].copy_from_slice(&body.to_be_bytes());
    append(b.as_mut_ptr(), b.len()).number == 0
}

fn append_raw(b: &mut [u8]) -> bool {
    appended(b, |p, n| unsafe { cratehoist_append_raw(p, n, 0x7FFD, b"four".as_ptr(), 4, b"".as_ptr(), 0) })
}

fn append_integrity(b: &mut [u8]) -> bool {
    appended(b, |p, n| unsafe { cratehoist_append_message_integrity(p, n, b"key".as_ptr(), 3) })
}

fn append_fingerprint(b: &mut [u8]) -> bool {
    appended(b, |p, n| unsafe { cratehoist_append_fingerprint(p, n) })
}

const CALLS: [(&str, usize, Call); 6] = [
    ("first value", 0, first_value),
    ("realm", 0, realm),
    ("check integrity", 0, integrity),
    ("append raw", 64, append_raw),
    ("append MESSAGE-INTEGRITY", 64, append_integrity),
    ("append FINGERPRINT", 64, append_fingerprint),
];

pub fn run() {
    let usual = plain(SIZE);
    assert_eq!(ours(&usual).number, 0);
    for (name, d) in worst() {
        assert_eq!((d.len(), ours(&d).number), (SIZE, 0), "{name}");
        measure::row(&format!("read, {name}"), d.len(), "read, plain", || _ = black_box(ours(black_box(&d))), || {
            _ = black_box(ours(black_box(&usual)))
        });
    }
    for (name, mut d, call) in [("first value, last", plain(SIZE), first_value as Call), ("check integrity, last", signed(), integrity)] {
        assert!(call(&mut d), "{name}");
        measure::row(name, d.len(), "read, plain", || _ = black_box(call(black_box(&mut d))), || _ = black_box(ours(black_box(&usual))));
    }
    let calls = [("first value, last", plain(SIZE), first_value as Call, first_of_all as Call), ("check integrity, last", signed(), integrity, integrity)];
    for (name, mut d, call, same) in calls {
        let mut first = plain(SIZE);
        assert!(call(&mut d) && same(&mut first), "{name}");
        measure::row(name, d.len(), "first, plain", || _ = black_box(call(black_box(&mut d))), || _ = black_box(same(black_box(&mut first))));
    }
    for (name, room, call) in CALLS {
        let of = |size| {
            let mut d = plain(size);
            d.resize(size + room, 0);
            d
        };
        let (mut d, mut half) = (of(SIZE - 64), of((SIZE - 64) / 2));
        assert!(call(&mut d) && call(&mut half), "{name}");
        let size = d.len() - room;
        measure::row(name, size, "half the size", || _ = black_box(call(black_box(&mut d))), || _ = black_box(call(black_box(&mut half))));
    }
}
