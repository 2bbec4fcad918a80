//! A plain reader, written from docs/SCOPE.md alone: it makes a list of the attributes and then judges it.

use crate::answers::{Id, Part, Reading, Realm, Typed, Walk};
use crate::sums::{crc32, hmac};

pub const MAPPED_ADDRESS: u16 = 0x0001;
pub const USERNAME: u16 = 0x0006;
pub const MESSAGE_INTEGRITY: u16 = 0x0008;
pub const ERROR_CODE: u16 = 0x0009;
pub const UNKNOWN_ATTRIBUTES: u16 = 0x000A;
pub const REALM: u16 = 0x0014;
pub const NONCE: u16 = 0x0015;
pub const XOR_MAPPED_ADDRESS: u16 = 0x0020;
pub const SOFTWARE: u16 = 0x8022;
pub const ALTERNATE_SERVER: u16 = 0x8023;
pub const FINGERPRINT: u16 = 0x8028;

/// Section 5, in the order of its table.
pub const KNOWN: [u16; 11] = [
    MAPPED_ADDRESS,
    USERNAME,
    MESSAGE_INTEGRITY,
    ERROR_CODE,
    UNKNOWN_ATTRIBUTES,
    REALM,
    NONCE,
    XOR_MAPPED_ADDRESS,
    SOFTWARE,
    ALTERNATE_SERVER,
    FINGERPRINT,
];

pub const COOKIE: [u8; 4] = [0x21, 0x12, 0xA4, 0x42];

pub struct Header {
    pub class: u8,
    pub method: u16,
    pub length: usize,
    pub id: Id,
}

pub struct Attribute<'a> {
    pub place: usize,
    pub kind: u16,
    pub value: &'a [u8],
    pub padding: &'a [u8],
}

pub fn pair(s: &[u8], place: usize) -> u16 {
    u16::from(s[place]) * 256 + u16::from(s[place + 1])
}

/// How many bytes of padding follow a value (section 4).
pub fn padding(size: usize) -> usize {
    (4 - size % 4) % 4
}

/// Section 3, bit by bit.
pub fn type_number(class: u8, method: u16) -> u16 {
    let mut number = u16::from(class & 1) << 4 | u16::from(class >> 1 & 1) << 8;
    for bit in 0..12 {
        let place = match bit {
            0..=3 => bit,
            4..=6 => bit + 1,
            _ => bit + 2,
        };
        number |= (method >> bit & 1) << place;
    }
    number
}

fn class_and_method(number: u16) -> (u8, u16) {
    let class = (number >> 8 & 1) * 2 + (number >> 4 & 1);
    let high = number >> 9 & 0x1F;
    let middle = number >> 5 & 0x07;
    let low = number & 0x0F;
    (class as u8, high * 128 + middle * 16 + low)
}

/// The checks 1 to 3.
pub fn front(s: &[u8]) -> Result<Header, u8> {
    if s.len() < 20 {
        return Err(1);
    }
    if s[0] >= 0x40 {
        return Err(2);
    }
    if s[4..8] != COOKIE {
        return Err(3);
    }
    let (class, method) = class_and_method(pair(s, 0));
    Ok(Header {
        class,
        method,
        length: usize::from(pair(s, 2)),
        id: s[8..20].try_into().unwrap(),
    })
}

/// The checks 1 to 4.
fn header(d: &[u8]) -> Result<Header, u8> {
    let header = front(d)?;
    if d.len() == 20 + header.length {
        Ok(header)
    } else {
        Err(4)
    }
}

/// The attribute that starts at a place from 20 on where bytes remain; none where it is cut off.
fn attribute_at(d: &[u8], place: usize) -> Option<Attribute<'_>> {
    let rest = &d[place..];
    if rest.len() < 4 {
        return None;
    }
    let size = usize::from(pair(rest, 2));
    let value = rest.get(4..4 + size)?;
    let padding = rest.get(4 + size..4 + size + padding(size))?;
    Some(Attribute {
        place,
        kind: pair(rest, 0),
        value,
        padding,
    })
}

impl Attribute<'_> {
    pub fn next(&self) -> usize {
        self.place + 4 + self.value.len() + self.padding.len()
    }
}

/// The attributes from place 20 on, and where the cut is, if there is one.
pub fn attributes(d: &[u8]) -> (Vec<Attribute<'_>>, Option<usize>) {
    let mut list = Vec::new();
    let mut place = 20;
    while place != d.len() {
        let Some(attribute) = attribute_at(d, place) else {
            return (list, Some(place));
        };
        place = attribute.next();
        list.push(attribute);
    }
    (list, None)
}

/// RFC 3629, section 3: each character is decoded, and what it says is looked at.
pub fn is_utf8(mut s: &[u8]) -> bool {
    while let [first, rest @ ..] = s {
        let (more, bits, least) = match first {
            0x00..=0x7F => (0, u32::from(*first), 0),
            0xC0..=0xDF => (1, u32::from(first & 0x1F), 0x80),
            0xE0..=0xEF => (2, u32::from(first & 0x0F), 0x800),
            0xF0..=0xF7 => (3, u32::from(first & 0x07), 0x1_0000),
            _ => return false,
        };
        if rest.len() < more {
            return false;
        }
        let mut scalar = bits;
        for byte in &rest[..more] {
            if byte & 0xC0 != 0x80 {
                return false;
            }
            scalar = scalar * 64 + u32::from(byte & 0x3F);
        }
        if scalar < least || (0xD800..=0xDFFF).contains(&scalar) || scalar > 0x10_FFFF {
            return false;
        }
        s = &rest[more..];
    }
    true
}

fn size_fits(kind: u16, size: usize) -> bool {
    match kind {
        MAPPED_ADDRESS | XOR_MAPPED_ADDRESS | ALTERNATE_SERVER => size == 8 || size == 20,
        USERNAME => size <= 512,
        MESSAGE_INTEGRITY => size == 20,
        ERROR_CODE => (4..=131).contains(&size),
        UNKNOWN_ATTRIBUTES => size % 2 == 0 && size <= 65_534,
        REALM | NONCE | SOFTWARE => size <= 127,
        FINGERPRINT => size == 4,
        _ => true,
    }
}

/// What is wrong with a value: 11 to 14, or 0.
pub fn fault(kind: u16, value: &[u8]) -> u8 {
    if !size_fits(kind, value.len()) {
        return 11;
    }
    match kind {
        MAPPED_ADDRESS | XOR_MAPPED_ADDRESS | ALTERNATE_SERVER => match (value[1], value.len()) {
            (1, 8) | (2, 20) => 0,
            _ => 12,
        },
        ERROR_CODE => {
            let (class, number) = (value[2] % 8, value[3]);
            if class < 3 || class > 6 || number > 99 {
                13
            } else if !is_utf8(&value[4..]) {
                14
            } else {
                0
            }
        }
        USERNAME | REALM | NONCE | SOFTWARE if !is_utf8(value) => 14,
        _ => 0,
    }
}

/// The bytes before a place, with another number in the length field.
pub fn bytes_before(d: &[u8], place: usize, length: usize) -> Vec<u8> {
    let mut bytes = d[..place].to_vec();
    bytes[2] = (length / 256) as u8;
    bytes[3] = (length % 256) as u8;
    bytes
}

/// Section 9.
pub fn fingerprint(d: &[u8], place: usize) -> [u8; 4] {
    (crc32(&bytes_before(d, place, place - 20 + 8)) ^ 0x5354_554E).to_be_bytes()
}

/// Section 10.
pub fn integrity(d: &[u8], place: usize, key: &[u8]) -> [u8; 20] {
    hmac(key, &bytes_before(d, place, place - 20 + 24))
}

/// Section 11.
pub fn read(d: &[u8]) -> Reading {
    let Header {
        class, method, id, ..
    } = match header(d) {
        Ok(header) => header,
        Err(number) => return Reading::Refused { number },
    };
    let broken = |reason, place| Reading::Broken {
        class,
        method,
        id,
        reason,
        place,
    };
    let (list, cut) = attributes(d);
    for a in &list {
        let reason = fault(a.kind, a.value);
        if reason != 0 {
            return broken(reason, a.place);
        }
    }
    if let Some(place) = cut {
        return broken(10, place);
    }
    for a in list.iter().filter(|a| a.kind == FINGERPRINT) {
        if a.value != fingerprint(d, a.place) {
            return broken(15, a.place);
        }
    }
    Reading::Whole {
        class,
        method,
        id,
        count: list.len(),
    }
}

/// Section 12.
pub fn walk(d: &[u8], place: usize) -> Walk {
    if header(d).is_err() || place < 20 || place > d.len() {
        return Walk::Cut { place };
    }
    if place == d.len() {
        return Walk::End { place };
    }
    match attribute_at(d, place) {
        None => Walk::Cut { place },
        Some(a) => Walk::Attribute {
            place,
            kind: a.kind,
            value: Part {
                start: place + 4,
                size: a.value.len(),
            },
            next: a.next(),
        },
    }
}

/// Section 13: where the first value of a type lies, if there is one.
pub fn first(d: &[u8], kind: u16) -> Option<Part> {
    if read(d).number() != 0 {
        return None;
    }
    let (list, _) = attributes(d);
    let a = list.iter().find(|a| a.kind == kind)?;
    Some(Part {
        start: a.place + 4,
        size: a.value.len(),
    })
}

/// Section 6: port and IP with the XOR form done or undone.
pub fn xor(port: u16, ip: &[u8], id: &Id) -> (u16, Vec<u8>) {
    let mask: Vec<u8> = COOKIE.iter().chain(id).copied().collect();
    (
        port ^ 0x2112,
        ip.iter().zip(mask).map(|(a, b)| a ^ b).collect(),
    )
}

/// Section 14.
pub fn typed(kind: u16, value: &[u8], id: &Id) -> Typed {
    let number = fault(kind, value);
    if number != 0 {
        return Typed::Wrong { number };
    }
    match kind {
        MAPPED_ADDRESS | ALTERNATE_SERVER => address(value[1], pair(value, 2), &value[4..]),
        XOR_MAPPED_ADDRESS => {
            let (port, ip) = xor(pair(value, 2), &value[4..], id);
            address(value[1], port, &ip)
        }
        ERROR_CODE => Typed::Code {
            code: u16::from(value[2] % 8) * 100 + u16::from(value[3]),
            reserved: u32::from_be_bytes([value[0], value[1], value[2], value[3]]) >> 11,
            phrase: Part {
                start: 4,
                size: value.len() - 4,
            },
        },
        _ => Typed::Plain {
            part: Part {
                start: 0,
                size: value.len(),
            },
        },
    }
}

fn address(family: u8, port: u16, bytes: &[u8]) -> Typed {
    let mut ip = [0; 16];
    ip[..bytes.len()].copy_from_slice(bytes);
    Typed::Address { family, port, ip }
}

/// Section 15.
pub fn realm(d: &[u8]) -> Realm {
    first(d, REALM).map_or(Realm::Configured, Realm::Message)
}

/// Section 16.
pub fn check_integrity(d: &[u8], key: &[u8]) -> u8 {
    let number = read(d).number();
    if number != 0 {
        return number;
    }
    match attributes(d).0.iter().find(|a| a.kind == MESSAGE_INTEGRITY) {
        None => 31,
        Some(a) if a.value == integrity(d, a.place, key) => 0,
        Some(_) => 32,
    }
}

#[cfg(test)]
mod tests {
    use super::*;

    #[test]
    fn utf8_as_the_standard_library_has_it() {
        for a in 0..=255u8 {
            assert_eq!(is_utf8(&[a]), std::str::from_utf8(&[a]).is_ok());
            for b in 0..=255u8 {
                assert_eq!(is_utf8(&[a, b]), std::str::from_utf8(&[a, b]).is_ok());
                for c in [0x00, 0x7F, 0x80, 0x8F, 0x90, 0x9F, 0xA0, 0xBF, 0xC0, 0xFF] {
                    assert_eq!(is_utf8(&[a, b, c]), std::str::from_utf8(&[a, b, c]).is_ok());
                    for e in [0x41, 0x80, 0xBF, 0xC2] {
                        assert_eq!(
                            is_utf8(&[a, b, c, e]),
                            std::str::from_utf8(&[a, b, c, e]).is_ok()
                        );
                    }
                }
            }
        }
    }

    #[test]
    fn type_numbers_of_the_sheet() {
        assert_eq!(
            [0, 1, 2, 3].map(|class| type_number(class, 1)),
            [0x0001, 0x0011, 0x0101, 0x0111]
        );
        assert_eq!(
            [16, 128, 4095].map(|method| type_number(0, method)),
            [0x0020, 0x0200, 0x3EEF]
        );
        assert_eq!(type_number(3, 4095), 0x3FFF);
        for class in 0..4 {
            for method in 0..4096 {
                assert_eq!(
                    class_and_method(type_number(class, method)),
                    (class, method)
                );
            }
        }
    }

    #[test]
    fn address_of_the_sheet() {
        let d = b"\x01\x01\x00\x0C\x21\x12\xA4\x42\x00\x01\x02\x03\x04\x05\x06\x07\x08\x09\x0A\x0B\
                  \x00\x20\x00\x08\x00\x01\xA1\x47\xE1\x12\xA6\x43";
        let Reading::Whole {
            class: 2,
            method: 1,
            id,
            count: 1,
        } = read(d)
        else {
            panic!("{:?}", read(d))
        };
        let said = typed(XOR_MAPPED_ADDRESS, &d[24..], &id);
        assert_eq!(said, address(1, 32853, &[192, 0, 2, 1]));
    }
}
