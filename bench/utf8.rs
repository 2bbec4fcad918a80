//! The UTF-8 check beside Rust's standard library.
use crate::measure;
use std::hint::black_box;

#[link(name = "cratehoist", kind = "static")]
extern "C" {
    fn cratehoist_is_utf8(bytes: *const u8, size: usize) -> bool;
}

fn is_utf8(s: &[u8]) -> bool {
    unsafe { cratehoist_is_utf8(s.as_ptr(), s.len()) }
}

/// Text of about `size` bytes, cut at a character.
fn text(of: &str, size: usize) -> String {
    let mut s = of.repeat(size / of.len() + 1);
    let mut end = size;
    while !s.is_char_boundary(end) {
        end -= 1;
    }
    s.truncate(end);
    s
}

const TEXTS: [(&str, &str); 6] = [
    ("ASCII", "The quick brown fox jumps over the lazy dog. "),
    ("Greek", "Όποιος ελεύθερα συλλογάται συλλογάται καλά. "),
    ("Korean", "키스의 고유조건은 입술끼리 만나야 하고. "),
    ("emoji", "😀😁😂🤣"),
    ("mixed", "aé漢😀, z"),
    ("words", "Όποιος quick ελεύθερα brown συλλογάται jumps καλά over "),
];

/// The answers agree on every text, cut at every place of its first 300 bytes and with every byte of them changed.
fn compare() {
    for (_, of) in TEXTS {
        let s = text(of, 300);
        for cut in 0..=s.len() {
            let mut b = s.as_bytes()[..cut].to_vec();
            assert_eq!(is_utf8(&b), std::str::from_utf8(&b).is_ok());
            for i in 0..cut {
                for change in [1u8, 0x10, 0x20, 0x40, 0x80, 0xFF] {
                    b[i] ^= change;
                    assert_eq!(is_utf8(&b), std::str::from_utf8(&b).is_ok());
                    b[i] ^= change;
                }
            }
        }
    }
    // every character, and every number that is none in the form that it would have
    for n in 0..0x200000u32 {
        let low = |shift: u32| 0x80 | (n >> shift & 0x3F) as u8;
        let forms: [&[u8]; 4] = [
            &[n as u8],
            &[0xC0 | (n >> 6) as u8, low(0)],
            &[0xE0 | (n >> 12) as u8, low(6), low(0)],
            &[0xF0 | (n >> 18) as u8, low(12), low(6), low(0)],
        ];
        for (form, bound) in forms.iter().zip([0x100, 0x800, 0x10000, 0x200000]) {
            if n < bound {
                assert_eq!(is_utf8(form), std::str::from_utf8(form).is_ok());
            }
        }
    }
}

pub fn run() {
    measure::compared(compare);
    for (name, of) in TEXTS {
        for size in [11, 16, 120, 300, 64 * 1024] {
            let s = text(of, size);
            let b = s.as_bytes();
            measure::row(&format!("is_utf8, {name}"), b.len(), "str::from_utf8", || _ = black_box(is_utf8(black_box(b))), || {
                _ = black_box(std::str::from_utf8(black_box(b)))
            });
        }
    }
}
