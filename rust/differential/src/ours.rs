//! The proved library, by the calls of its C boundary. Fields that an answer doesn't speak of must be zero.

use crate::answers::{Id, Part, Reading, Realm, Typed, Walk, Written};
use crate::reader::{ALTERNATE_SERVER, ERROR_CODE, MAPPED_ADDRESS, XOR_MAPPED_ADDRESS};
use cratehoist::calls;

pub fn crc32(s: &[u8]) -> u32 {
    calls::crc32(s)
}

pub fn sha1(s: &[u8]) -> [u8; 20] {
    calls::sha1(s).bytes
}

pub fn hmac(key: &[u8], s: &[u8]) -> [u8; 20] {
    calls::hmac(key, s).bytes
}

pub fn is_utf8(s: &[u8]) -> bool {
    calls::is_utf8(s)
}

pub fn read(d: &[u8]) -> Reading {
    let r = calls::read(d);
    let (class, method, id) = (r.message_class as u8, r.method, r.id.bytes);
    match (r.what, r.number) {
        (0, 0) => {
            assert_eq!((r.message_class > 3, r.place), (false, 0));
            Reading::Whole {
                class,
                method,
                id,
                count: r.count,
            }
        }
        (1, reason @ 10..=15) => {
            assert_eq!((r.message_class > 3, r.count), (false, 0));
            Reading::Broken {
                class,
                method,
                id,
                reason,
                place: r.place,
            }
        }
        (2, number @ 1..=4) => {
            assert_eq!(
                (r.message_class, method, r.count, r.place, id),
                (0, 0, 0, 0, [0; 12])
            );
            Reading::Refused { number }
        }
        other => panic!("no such answer: {other:?}"),
    }
}

pub fn walk(d: &[u8], place: usize) -> Walk {
    let s = calls::walk(d, place);
    if s.what == 0 {
        return Walk::Attribute {
            place: s.place,
            kind: s.kind,
            value: Part {
                start: s.value,
                size: s.size,
            },
            next: s.next,
        };
    }
    assert_eq!((s.kind, s.value, s.size, s.next), (0, 0, 0, 0));
    match s.what {
        1 => Walk::End { place: s.place },
        2 => Walk::Cut { place: s.place },
        other => panic!("no such answer: {other}"),
    }
}

pub fn first(d: &[u8], kind: u16) -> Option<Part> {
    let p = calls::first_value(d, kind);
    if !p.there {
        assert_eq!((p.start, p.size), (0, 0));
        return None;
    }
    Some(Part {
        start: p.start,
        size: p.size,
    })
}

pub fn typed(kind: u16, value: &[u8], id: &Id) -> Typed {
    let t = calls::typed_value(kind, value, calls::Id { bytes: *id });
    let address = (t.family, t.port, t.ip);
    let part = Part {
        start: t.start,
        size: t.size,
    };
    match (t.number, kind) {
        (0, MAPPED_ADDRESS | XOR_MAPPED_ADDRESS | ALTERNATE_SERVER) => {
            assert_eq!((t.code, t.reserved, part), (0, 0, Part::NONE));
            Typed::Address {
                family: t.family,
                port: t.port,
                ip: t.ip,
            }
        }
        (0, ERROR_CODE) => {
            assert_eq!(address, (0, 0, [0; 16]));
            Typed::Code {
                code: t.code,
                reserved: t.reserved,
                phrase: part,
            }
        }
        (0, _) => {
            assert_eq!((address, t.code, t.reserved), ((0, 0, [0; 16]), 0, 0));
            Typed::Plain { part }
        }
        (number, _) => {
            assert_eq!((address, part), ((0, 0, [0; 16]), Part::NONE));
            assert_eq!((t.code, t.reserved), (0, 0));
            Typed::Wrong { number }
        }
    }
}

pub fn realm(d: &[u8], configured: &[u8]) -> Realm {
    let p = calls::realm(d, configured);
    if p.there {
        return Realm::Message(Part {
            start: p.start,
            size: p.size,
        });
    }
    assert_eq!((p.start, p.size), (0, configured.len()));
    Realm::Configured
}

pub fn check_integrity(d: &[u8], key: &[u8]) -> u8 {
    calls::check_integrity(d, key)
}

fn written(w: calls::Written) -> Written {
    match w.number {
        0 => Ok(w.size),
        number => {
            assert_eq!(w.size, 0);
            Err(number)
        }
    }
}

pub fn begin(buf: &mut [u8], class: u16, method: u16, id: &Id) -> Written {
    written(calls::begin(buf, class, method, calls::Id { bytes: *id }))
}

pub fn append_raw(buf: &mut [u8], kind: u16, value: &[u8], pad: &[u8]) -> Written {
    written(calls::append_raw(buf, kind, value, pad))
}

pub fn append_text(buf: &mut [u8], kind: u16, text: &[u8]) -> Written {
    written(calls::append_text(buf, kind, text))
}

pub fn append_unknown_attributes(buf: &mut [u8], types: &[u8]) -> Written {
    written(calls::append_unknown_attributes(buf, types))
}

pub fn append_error_code(buf: &mut [u8], code: u16, reserved: u32, phrase: &[u8]) -> Written {
    written(calls::append_error_code(buf, code, reserved, phrase))
}

pub fn append_address(buf: &mut [u8], kind: u16, family: u8, port: u16, ip: &[u8; 16]) -> Written {
    written(calls::append_address(
        buf,
        kind,
        calls::Address {
            family,
            port,
            ip: *ip,
        },
    ))
}

pub fn append_fingerprint(buf: &mut [u8]) -> Written {
    written(calls::append_fingerprint(buf))
}

pub fn append_message_integrity(buf: &mut [u8], key: &[u8]) -> Written {
    written(calls::append_message_integrity(buf, key))
}
