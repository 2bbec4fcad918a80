//! CRC-32 beside zlib's.
use crate::measure;
use std::hint::black_box;

#[link(name = "cratehoist", kind = "static")]
extern "C" {
    fn cratehoist_crc32(s: *const u8, n: usize) -> u32;
}

#[link(name = "z")]
extern "C" {
    #[link_name = "crc32"]
    fn zlib_crc32(crc: std::ffi::c_ulong, s: *const u8, n: std::ffi::c_uint) -> std::ffi::c_ulong;
}

fn ours(s: &[u8]) -> u32 {
    unsafe { cratehoist_crc32(s.as_ptr(), s.len()) }
}

fn theirs(s: &[u8]) -> u32 {
    unsafe { zlib_crc32(0, s.as_ptr(), s.len() as u32) as u32 }
}

/// Every size up to 2,000, at one of eight alignments, and some long ones.
fn compare(data: &[u8]) {
    for n in (0..2000).chain([4096, 30_000, 65_535]) {
        let s = &data[n % 8..n % 8 + n];
        assert_eq!(ours(s), theirs(s), "{n} bytes");
    }
}

pub fn run() {
    let mut x = 1u32;
    let data: Vec<u8> = (0..65_600)
        .map(|_| {
            x = x.wrapping_mul(1_664_525).wrapping_add(1_013_904_223);
            (x >> 24) as u8
        })
        .collect();
    measure::compared(|| compare(&data));
    for n in [2, 20, 64, 80, 100, 300, 1200, 65_000] {
        let s = &data[..n];
        let time = |sum: fn(&[u8]) -> u32| move || { black_box(sum(black_box(s))); };
        measure::row("crc32", n, "zlib", time(ours), time(theirs));
    }
}
