//! Messages made by the plain writer, with values at and around every limit, and damage done to them.

use crate::random::Random;
use crate::reader::*;
use crate::writer;

/// Sizes at the edges of padding and of the limits 127, 131 and 512; 763 is RFC 8489's limit for those of 127 characters.
const SIZES: [usize; 24] = [
    0, 1, 2, 3, 4, 5, 6, 7, 8, 9, 12, 126, 127, 128, 129, 130, 131, 132, 511, 512, 513, 762, 763,
    764,
];

/// First and last scalars of each width, and those beside the surrogates.
const SCALARS: [char; 12] = [
    '\0',
    'a',
    '\u{7F}',
    '\u{80}',
    'é',
    '\u{7FF}',
    '\u{800}',
    '\u{D7FF}',
    '\u{E000}',
    '\u{FFFF}',
    '\u{10000}',
    '\u{10FFFF}',
];

/// What no text holds: tails alone, overlong forms, surrogates, numbers too great, characters cut off.
const FAULTS: [&[u8]; 22] = [
    b"\x80",
    b"\xBF",
    b"\xC0\x80",
    b"\xC1\xBF",
    b"\xC2",
    b"\xC2\x7F",
    b"\xDF\xC0",
    b"\xE0\x80\x80",
    b"\xE0\x9F\xBF",
    b"\xE1\x80",
    b"\xED\xA0\x80",
    b"\xED\xBF\xBF",
    b"\xEF\xBF",
    b"\xF0\x80\x80\x80",
    b"\xF0\x8F\xBF\xBF",
    b"\xF1\x80\x80",
    b"\xF4\x90\x80\x80",
    b"\xF5\x80\x80\x80",
    b"\xF7\xBF\xBF\xBF",
    b"\xF8\x88\x80\x80\x80",
    b"\xFE",
    b"\xFF",
];

pub fn size(r: &mut Random) -> usize {
    if r.one_in(3) {
        r.pick(&SIZES)
    } else {
        r.below(24)
    }
}

/// UTF-8 of exactly so many bytes.
pub fn good_text(r: &mut Random, size: usize) -> Vec<u8> {
    let plain = r.one_in(2);
    let mut text = String::new();
    while text.len() < size {
        let c = if plain || size - text.len() < 4 {
            'x'
        } else {
            r.pick(&SCALARS)
        };
        text.push(c);
    }
    text.into_bytes()
}

/// Mostly UTF-8; else a fault somewhere in it.
pub fn text(r: &mut Random, size: usize) -> Vec<u8> {
    let mut text = good_text(r, size);
    if r.one_in(6) {
        let fault = r.pick(&FAULTS);
        if fault.len() <= size {
            let place = if r.one_in(2) {
                size - fault.len()
            } else {
                r.below(size - fault.len() + 1)
            };
            text[place..place + fault.len()].copy_from_slice(fault);
        }
    }
    text
}

fn address(r: &mut Random) -> Vec<u8> {
    let family = if r.one_in(2) { 1 } else { 2 };
    let size = if r.one_in(8) {
        r.pick(&[0, 1, 2, 4, 7, 8, 9, 12, 16, 19, 20, 21, 24])
    } else {
        family as usize * 12 - 4
    };
    let mut value = r.bytes(size);
    if size > 1 {
        value[1] = if r.one_in(8) {
            r.pick(&[0, 1, 2, 3, 255])
        } else {
            family
        };
    }
    value
}

fn error_code(r: &mut Random) -> Vec<u8> {
    if r.one_in(12) {
        let size = r.below(4);
        return r.bytes(size);
    }
    let (class, number) = if r.one_in(6) {
        (r.byte(), r.pick(&[98, 99, 100, 255]))
    } else {
        (3 + r.byte() % 4, r.byte() % 100)
    };
    let size = size(r);
    let head = reserved(r) << 11 | u32::from(class % 8) << 8 | u32::from(number);
    [head.to_be_bytes().to_vec(), text(r, size)].concat()
}

/// The 21 reserved bits of an ERROR-CODE, any of them, and often none, as RFC 5389 has it.
pub fn reserved(r: &mut Random) -> u32 {
    if r.one_in(3) {
        return 0;
    }
    u32::from(r.pair()) << 5 | u32::from(r.byte() % 32)
}

/// A value of a type: good, or wrong in one way.
pub fn value(r: &mut Random, kind: u16) -> Vec<u8> {
    match kind {
        MAPPED_ADDRESS | XOR_MAPPED_ADDRESS | ALTERNATE_SERVER => address(r),
        ERROR_CODE => error_code(r),
        USERNAME | REALM | NONCE | SOFTWARE => {
            let size = size(r);
            text(r, size)
        }
        MESSAGE_INTEGRITY => fixed(r, 20),
        FINGERPRINT => fixed(r, 4),
        UNKNOWN_ATTRIBUTES => {
            let size = size(r);
            let size = if r.one_in(8) { size } else { size & !1 };
            r.bytes(size)
        }
        _ => {
            let size = size(r);
            r.bytes(size)
        }
    }
}

/// A value without fault, for the place behind a message.
fn good_value(r: &mut Random, kind: u16, d: &[u8]) -> Vec<u8> {
    if kind == FINGERPRINT {
        return fingerprint(d, d.len()).to_vec();
    }
    loop {
        let value = value(r, kind);
        if fault(kind, &value) == 0 {
            return value;
        }
    }
}

fn fixed(r: &mut Random, size: usize) -> Vec<u8> {
    let size = if r.one_in(8) {
        r.pick(&[0, size - 1, size + 1, 2 * size])
    } else {
        size
    };
    r.bytes(size)
}

/// A type: known, beside a known one, or any.
pub fn kind(r: &mut Random) -> u16 {
    let known = r.pick(&KNOWN);
    match r.below(8) {
        0 => known.wrapping_add(r.pick(&[0xFFFF, 1, 0x8000, 0x0100])),
        1 => r.pair(),
        _ => known,
    }
}

pub fn method(r: &mut Random) -> u16 {
    if r.one_in(2) {
        1
    } else {
        r.pair() & 0x0FFF
    }
}

/// A message with no attributes.
pub fn begun(r: &mut Random) -> Vec<u8> {
    let mut d = vec![0; 20];
    let (class, method, id) = (r.pair() & 3, method(r), r.id());
    writer::begin(&mut d, class, method, &id).expect("twenty bytes");
    d
}

/// Has the plain writer append to a message, which grows by what is added.
pub fn grow(d: &mut Vec<u8>, more: usize, append: impl FnOnce(&mut [u8]) -> Result<usize, u8>) {
    let was = d.len();
    d.resize(was + more, 0);
    let now = append(d).unwrap_or(was);
    d.truncate(now);
}

fn raw(r: &mut Random, d: &mut Vec<u8>, kind: u16, value: &[u8]) {
    let pad = r.bytes(padding(value.len()));
    grow(d, value.len() + 7, |buf| {
        writer::append_raw(buf, kind, value, &pad)
    });
}

pub fn fingerprinted(d: &mut Vec<u8>) {
    grow(d, 8, writer::append_fingerprint);
}

pub fn signed(d: &mut Vec<u8>, key: &[u8]) {
    grow(d, 24, |buf| writer::append_message_integrity(buf, key));
}

/// A message of a few attributes, some right and some wrong, with sums in any place.
pub fn message(r: &mut Random, key: &[u8]) -> Vec<u8> {
    let mut d = begun(r);
    let faulty = r.one_in(2);
    for _ in 0..r.below(6) {
        match r.below(12) {
            0 | 1 => fingerprinted(&mut d),
            2 => signed(&mut d, key),
            _ => {
                let kind = kind(r);
                let v = if faulty {
                    value(r, kind)
                } else {
                    good_value(r, kind, &d)
                };
                raw(r, &mut d, kind, &v);
            }
        }
    }
    if r.one_in(3) {
        signed(&mut d, key);
    }
    if r.one_in(2) {
        fingerprinted(&mut d);
    }
    d
}

/// Puts the right number in the length field, where there is one.
pub fn relength(d: &mut [u8]) {
    if d.len() >= 20 {
        let length = (d.len() - 20) as u16;
        d[2..4].copy_from_slice(&length.to_be_bytes());
    }
}

/// Adds -4 to 4, but not 0, to the number at a place.
fn nudge(r: &mut Random, d: &mut [u8], place: usize) {
    let by = r.pick(&[1, 2, 3, 4, 0xFFFC, 0xFFFD, 0xFFFE, 0xFFFF]);
    let number = pair(d, place).wrapping_add(by);
    d[place..place + 2].copy_from_slice(&number.to_be_bytes());
}

/// One change of any kind. `d` is a message, so it has a header.
pub fn damage(r: &mut Random, d: &mut Vec<u8>) {
    let size = d.len();
    let places: Vec<usize> = attributes(d).0.iter().map(|a| a.place).collect();
    let place = if places.is_empty() {
        None
    } else {
        Some(r.pick(&places))
    };
    match (r.below(12), place) {
        (0, _) => d[r.below(size)] ^= 1 << r.below(8),
        (1, _) => {
            let start = r.below(size);
            for b in d[start..].iter_mut().take(1 + r.below(5)) {
                *b = r.byte();
            }
        }
        (2, _) => d.truncate(r.below(size)),
        (3, _) => {
            d.truncate(20 + r.below(size - 19));
            relength(d);
        }
        (4, _) => {
            let more = 1 + r.below(8);
            d.extend(r.bytes(more));
        }
        (5, _) => {
            let more = 1 + r.below(8);
            d.extend(r.bytes(more));
            relength(d);
        }
        (6, _) => nudge(r, d, 2),
        (7, Some(place)) => nudge(r, d, place + 2),
        (8, Some(place)) => {
            let kind = kind(r);
            d[place..place + 2].copy_from_slice(&kind.to_be_bytes());
        }
        (9, Some(place)) => {
            let at = r.below(size - place);
            d[place + at] = r.pick(&[0, 1, 2, 3, 0x7F, 0x80, 0xBF, 0xC0, 0xC2, 0xED, 0xF4, 0xFF]);
        }
        (10, Some(place)) => {
            // an attribute taken out, or put in twice
            let rest = d.split_off(place);
            if r.one_in(2) {
                let size = usize::from(pair(&rest, 2));
                d.extend(&rest[4 + size + padding(size)..]);
            } else {
                d.extend(&rest);
                d.extend(&rest);
            }
            relength(d);
        }
        _ => d[r.below(20)] ^= r.pick(&[0x80, 0x40, 0x01, 0xFF]),
    }
}

/// A second change, where there still is a header to change.
pub fn damage_again(r: &mut Random, d: &mut Vec<u8>) {
    if d.len() >= 20 {
        damage(r, d);
    }
}

pub fn key(r: &mut Random) -> Vec<u8> {
    let size = r.pick(&[0, 1, 16, 20, 22, 63, 64, 65, 100]);
    r.bytes(size)
}
