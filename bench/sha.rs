//! SHA-1 and HMAC-SHA-1 beside OpenSSL's, whose processor instructions bench/run switches off.
use crate::measure;
use std::ffi::{c_int, c_uint, c_void};
use std::hint::black_box;

#[repr(C)]
pub struct Digest([u8; 20]);

#[link(name = "cratehoist", kind = "static")]
extern "C" {
    fn cratehoist_sha1(s: *const u8, n: usize) -> Digest;
    fn cratehoist_hmac(k: *const u8, size: usize, m: *const u8, n: usize) -> Digest;
    fn cratehoist_hmac_front(k: *const u8, size: usize, d: *const u8, n: usize, p: usize, length: u16) -> Digest;
}

#[link(name = "crypto")]
extern "C" {
    fn SHA1(s: *const u8, n: usize, out: *mut u8) -> *mut u8;
    fn HMAC(kind: *const c_void, k: *const u8, size: c_int, m: *const u8, n: usize, out: *mut u8, written: *mut c_uint) -> *mut u8;
    fn EVP_sha1() -> *const c_void;
}

fn hash(s: &[u8]) -> [u8; 20] {
    unsafe { cratehoist_sha1(s.as_ptr(), s.len()) }.0
}

fn hmac(k: &[u8], m: &[u8]) -> [u8; 20] {
    unsafe { cratehoist_hmac(k.as_ptr(), k.len(), m.as_ptr(), m.len()) }.0
}

fn hmac_front(k: &[u8], d: &[u8], p: usize, length: u16) -> [u8; 20] {
    unsafe { cratehoist_hmac_front(k.as_ptr(), k.len(), d.as_ptr(), d.len(), p, length) }.0
}

fn their_hash(s: &[u8]) -> [u8; 20] {
    let mut out = [0; 20];
    unsafe { SHA1(s.as_ptr(), s.len(), out.as_mut_ptr()) };
    out
}

fn their_hmac(k: &[u8], m: &[u8]) -> [u8; 20] {
    let mut out = [0; 20];
    let mut written = 0;
    unsafe { HMAC(EVP_sha1(), k.as_ptr(), k.len() as c_int, m.as_ptr(), m.len(), out.as_mut_ptr(), &mut written) };
    out
}

/// What a caller of OpenSSL does for a datagram that is lent: a copy with the other length, and its code.
fn their_front(k: &[u8], d: &[u8], p: usize, length: u16) -> [u8; 20] {
    let mut copy = d[..p.min(d.len())].to_vec();
    for (i, b) in length.to_be_bytes().into_iter().enumerate() {
        if let Some(place) = copy.get_mut(2 + i) {
            *place = b;
        }
    }
    their_hmac(k, &copy)
}

fn compare(bytes: &[u8]) {
    for n in (0..300).chain([1000, 4096, bytes.len()]) {
        let s = &bytes[..n];
        assert_eq!(hash(s), their_hash(s), "sha1 of {n} bytes");
        for size in [0, 1, 20, 63, 64, 65, 100] {
            let k = &bytes[7..7 + size];
            assert_eq!(hmac(k, s), their_hmac(k, s), "hmac of {n} bytes, key of {size}");
            assert_eq!(hmac_front(k, bytes, n, 0x1234), their_front(k, bytes, n, 0x1234), "front of {n} bytes, key of {size}");
            assert_eq!(hmac_front(k, s, n + 5, 7), their_front(k, s, n + 5, 7), "front past {n} bytes, key of {size}");
        }
    }
}

pub fn run() {
    let bytes: Vec<u8> = (0..65_000u32).map(|i| (i * 7 + i / 251) as u8).collect();
    let key = &bytes[100..120];
    measure::compared(|| compare(&bytes));
    for n in [20, 100, 1000, 65_000] {
        let s = &bytes[..n];
        measure::row("sha1::hash", n, "OpenSSL SHA1", || { black_box(hash(s)); }, || { black_box(their_hash(s)); });
    }
    for n in [20, 100, 1000, 65_000] {
        let s = &bytes[..n];
        measure::row("hmac::hmac", n, "OpenSSL HMAC", || { black_box(hmac(key, s)); }, || { black_box(their_hmac(key, s)); });
    }
    for n in [100, 1000] {
        let s = &bytes[..n];
        measure::row("hmac::hmac_front", n, "copy, HMAC", || { black_box(hmac_front(key, s, n, 80)); }, || { black_box(their_front(key, s, n, 80)); });
    }
}
