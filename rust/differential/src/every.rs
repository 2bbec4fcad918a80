//! Cases without chance: all of a kind where that is feasible, and the edges where it isn't.

use crate::compare::{Append, Tally};
use crate::messages::{fingerprinted, relength};
use crate::random::Random;
use crate::reader::*;
use crate::writer;

const ID: [u8; 12] = *b"\x00\x01\x02\x03\x04\x05\x06\x07\x08\x09\x0A\x0B";

fn header(kind: u16, length: usize) -> Vec<u8> {
    [
        &kind.to_be_bytes()[..],
        &(length as u16).to_be_bytes(),
        &COOKIE,
        &ID,
    ]
    .concat()
}

/// A Binding request with this body.
fn datagram(body: &[u8]) -> Vec<u8> {
    [header(0x0001, body.len()), body.to_vec()].concat()
}

fn attribute(kind: u16, value: &[u8]) -> Vec<u8> {
    let head = [kind, value.len() as u16].map(u16::to_be_bytes).concat();
    [&head, value, &[0; 3][..padding(value.len())]].concat()
}

/// Calls `f` with every list of `size` symbols.
fn lists(symbols: &[u8], size: usize, f: &mut impl FnMut(&[u8])) {
    let mut places = vec![0; size];
    loop {
        let list: Vec<u8> = places.iter().map(|&i| symbols[i]).collect();
        f(&list);
        let Some(k) = (0..size).rev().find(|&k| places[k] + 1 < symbols.len()) else {
            return;
        };
        places[k] += 1;
        places[k + 1..].fill(0);
    }
}

/// The sums of every size up to some blocks, and of a long one.
pub fn sums(t: &mut Tally, r: &mut Random) {
    let bytes = r.bytes(65_555);
    for size in 0..=700 {
        t.sums(&bytes[..size % 140], &bytes[size..2 * size]);
    }
    t.sums(b"k", &bytes);
}

/// Every size below a header; every type number, cookie byte and length field on short datagrams.
pub fn headers(t: &mut Tally, r: &mut Random) {
    let long = datagram(&attribute(SOFTWARE, b"abc"));
    for size in 0..long.len() {
        t.datagram(r, &long[..size], b"k");
        t.datagram(r, &vec![0x40; size], b"k");
    }
    for kind in 0..=0xFFFF {
        let d = header(kind, 0);
        t.read(&d);
        t.walk(&d, 20);
    }
    for at in 4..8 {
        for byte in 0..=255 {
            let mut d = datagram(&[]);
            d[at] = byte;
            t.datagram(r, &d, b"k");
        }
    }
    for size in [20, 21, 24, 28] {
        for length in 0..=0xFFFF {
            let mut d = header(0x0001, length);
            d.resize(size, 0);
            t.read(&d);
            t.walk(&d, 20);
        }
    }
}

/// Every type with values of four sizes; every known type with every size up to 800.
pub fn attributes_alone(t: &mut Tally) {
    for kind in 0..=0xFFFF {
        for size in [0, 4, 8, 20] {
            let d = datagram(&attribute(kind, &[0; 20][..size]));
            t.read(&d);
            t.first(&d, kind);
        }
    }
    for kind in KNOWN {
        for size in 0..=800 {
            let mut value = vec![b'a'; size];
            for (byte, family) in [(b'a', b'a'), (4, 1), (4, 2)] {
                value[..size.min(4)].fill(byte);
                value[..size.min(2)].fill(family);
                t.read(&datagram(&attribute(kind, &value)));
                t.typed(kind, &value, &ID);
            }
        }
    }
}

/// Every body of up to 8 bytes over small alphabets: types, sizes, cuts and padding.
pub fn bodies(t: &mut Tally) {
    let mut one = |body: &[u8]| {
        let d = datagram(body);
        t.read(&d);
        t.walk(&d, 20);
        t.walk(&d, 24);
    };
    for size in 1..=4 {
        lists(
            &[
                0, 1, 2, 3, 4, 5, 6, 8, 9, 0x0A, 0x14, 0x15, 0x20, 0x22, 0x28, 0x80,
            ],
            size,
            &mut one,
        );
    }
    lists(&[0, 1, 4, 9, 0x80, 0xFF], 5, &mut one);
    lists(&[0, 1, 4, 9, 0x80, 0xFF], 6, &mut one);
    lists(&[0, 1, 2, 4, 0x80], 7, &mut one);
    lists(&[0, 1, 4, 9, 0x80], 8, &mut one);
}

/// First and last bytes of each row of RFC 3629's grammar, and those beside them.
const EDGES: [u8; 27] = [
    0x00, 0x41, 0x7F, 0x80, 0x8F, 0x90, 0x9F, 0xA0, 0xBF, 0xC0, 0xC1, 0xC2, 0xDF, 0xE0, 0xE1, 0xEC,
    0xED, 0xEE, 0xEF, 0xF0, 0xF1, 0xF3, 0xF4, 0xF5, 0xF7, 0xF8, 0xFF,
];

/// Every text of one and two bytes; over the edges those of three, and of four if it may take longer. In longer ones, which are passed
/// over several bytes at a step, an edge at every place, and in ASCII 0xFF at every place, wherever the text starts.
pub fn texts(t: &mut Tally, longer: bool) {
    let all: Vec<u8> = (0..=255).collect();
    let mut one = |text: &[u8]| {
        t.read(&datagram(&attribute(SOFTWARE, text)));
        t.typed(ERROR_CODE, &[&[0, 0, 4, 1], text].concat(), &ID);
    };
    lists(&all, 1, &mut one);
    lists(&all, 2, &mut one);
    lists(&EDGES, 3, &mut one);
    if longer {
        lists(&EDGES, 4, &mut one);
    }
    for text in ["a", "άλφα beta ", "갸, 나"].map(|text| text.repeat(128)) {
        for size in (0..=40).chain([63, 64, 65, 127]) {
            one(&text.as_bytes()[..size]);
            for at in 0..size {
                for edge in EDGES {
                    let mut changed = text.as_bytes()[..size].to_vec();
                    changed[at] = edge;
                    one(&changed);
                }
            }
        }
    }
    for start in 0..16 {
        for size in 0..=80 {
            let mut around = vec![0xFF; 16 + 80 + 16];
            around[start..start + size].fill(b'a');
            t.utf8(&around[start..start + size]);
            for at in start..start + size {
                around[at] = 0xFF;
                t.utf8(&around[start..start + size]);
                around[at] = b'a';
            }
        }
    }
}

/// Every class and number of an ERROR-CODE, the numbers of its reserved bits (all, if it may take longer), every family with each
/// size of an address.
pub fn values(t: &mut Tally, longer: bool) {
    for class in 0..=255 {
        for number in 0..=255 {
            t.typed(ERROR_CODE, &[class, number, class, number], &ID);
        }
    }
    for reserved in (0..=2_097_151u32).step_by(if longer { 1 } else { 127 }) {
        t.typed(ERROR_CODE, &(reserved << 11 | 0x401).to_be_bytes(), &ID);
    }
    for kind in [MAPPED_ADDRESS, XOR_MAPPED_ADDRESS, ALTERNATE_SERVER] {
        for family in 0..=255 {
            for size in 0..=24 {
                let mut value: Vec<u8> = (0..size).collect();
                if size > 1 {
                    value[1] = family;
                }
                t.typed(kind, &value, &ID);
                t.read(&datagram(&attribute(kind, &value)));
            }
        }
    }
}

/// Every class with every method, every error code, and every buffer that is a little too small or large enough.
pub fn writing(t: &mut Tally) {
    for class in 0..=4 {
        for method in 0..=0xFFFF {
            t.begin(&[0xEE; 21], class, method, &ID);
        }
        for size in 0..=24 {
            t.begin(&vec![0xEE; size], class, 1, &ID);
            t.begin(&vec![0xEE; size], class, 4096, &ID);
        }
    }
    let buf = [datagram(&[]), vec![0xEE; 12]].concat();
    for code in 0..=0xFFFF {
        t.append(
            &buf,
            &Append::Code {
                code,
                reserved: 0,
                phrase: b"why".to_vec(),
            },
        );
    }
    let appends = appends();
    for length in 0..=48 {
        for size in 0..=96 {
            // one attribute that fills the body, whether or not the buffer holds it
            let mut buf = datagram(&attribute(0xC001, &vec![0x5A; length.max(4) - 4]));
            buf[3] = length as u8;
            buf.resize(size, 0xEE);
            for append in &appends {
                t.append(&buf, append);
            }
        }
    }
}

/// One of each append, as it is taken, and those that break a rule.
fn appends() -> Vec<Append> {
    let raw = |size: usize, pad: usize| Append::Raw {
        kind: 0xC001,
        value: vec![7; size],
        pad: vec![0xAA; pad],
    };
    let text = |kind, text: &[u8]| Append::Text {
        kind,
        text: text.to_vec(),
    };
    let address = |kind, family| Append::Address {
        kind,
        family,
        port: 32853,
        ip: *b"\xC0\x00\x02\x01and twelve..",
    };
    let code = |code, reserved, phrase: &[u8]| Append::Code {
        code,
        reserved,
        phrase: phrase.to_vec(),
    };
    vec![
        raw(0, 0),
        raw(1, 3),
        raw(1, 2),
        raw(3, 1),
        raw(4, 0),
        raw(4, 4),
        text(USERNAME, b""),
        text(REALM, "é".as_bytes()),
        text(NONCE, b"\xC0\x80"),
        text(SOFTWARE, b"abc"),
        Append::Types { types: vec![0, 3] },
        Append::Types {
            types: vec![0, 3, 0],
        },
        text(FINGERPRINT, b"none"),
        address(MAPPED_ADDRESS, 1),
        address(XOR_MAPPED_ADDRESS, 2),
        address(ALTERNATE_SERVER, 1),
        address(ALTERNATE_SERVER, 3),
        address(SOFTWARE, 1),
        code(299, 0, b""),
        code(401, 0, b"no"),
        code(600, 2_097_151, b""),
        code(600, 2_097_152, b""),
        code(699, 0, b"\xFF"),
        Append::Fingerprint,
        Append::Integrity { key: b"k".to_vec() },
    ]
}

/// Bodies at the greatest length, read and appended to: `step` apart, so that a short run can skip some.
pub fn large(t: &mut Tally, r: &mut Random, step: usize) {
    for rest in (0..=40).step_by(step) {
        let mut d = datagram(&attribute(0xC001, &vec![0x5A; 65_528 - rest]));
        t.datagram(r, &d, b"k");
        for room in [0, 3, 4, 7, 8, 12, 24, 40] {
            let mut buf = d.clone();
            buf.resize(d.len() + room, 0xEE);
            for append in appends() {
                t.append(&buf, &append);
            }
        }
        fingerprinted(&mut d);
        t.datagram(r, &d, b"k");
        // one byte to three more than the attributes cover, up to the greatest length field
        for more in 1..=3 {
            let mut longer = d.clone();
            longer.resize(d.len() + more, 0);
            if longer.len() <= 65_555 {
                relength(&mut longer);
            }
            t.read(&longer);
        }
    }
    let empty = datagram(&vec![0; 65_532]);
    t.datagram(r, &empty, b"k");
    let buf = [datagram(&[]), vec![0xEE; 65_560]].concat();
    for size in 65_520..=65_545 {
        for pad in 0..=4 {
            t.append(
                &buf,
                &Append::Raw {
                    kind: 0xC001,
                    value: vec![7; size],
                    pad: vec![1; pad],
                },
            );
        }
        t.append(
            &buf,
            &Append::Types {
                types: vec![0; size],
            },
        );
        t.append(
            &buf,
            &Append::Text {
                kind: USERNAME,
                text: vec![b'a'; size],
            },
        );
        t.append(
            &buf,
            &Append::Code {
                code: 500,
                reserved: 0,
                phrase: vec![b'a'; size],
            },
        );
    }
}

/// FINGERPRINTs in every place of a row, and a row that is as long as can be afforded.
pub fn fingerprints(t: &mut Tally, r: &mut Random) {
    for places in 0..64u32 {
        for wrong in 0..7 {
            let mut d = datagram(&[]);
            for place in 0..6 {
                if places >> place & 1 == 1 {
                    fingerprinted(&mut d);
                    if place == wrong {
                        *d.last_mut().unwrap() ^= 1;
                    }
                } else {
                    d.extend(attribute(SOFTWARE, &[b'a'; 6][..place]));
                    relength(&mut d);
                }
            }
            t.datagram(r, &d, b"k");
        }
    }
    let mut d = vec![0; 20 + 8 * 300];
    writer::begin(&mut d, 0, 1, &ID).unwrap();
    for _ in 0..300 {
        writer::append_fingerprint(&mut d).unwrap();
    }
    t.datagram(r, &d, b"k");
    d[1500] ^= 1;
    t.datagram(r, &d, b"k");
    // few bytes and many between two of them, and each third wrong in turn
    for first in 0..4 {
        let (mut d, mut places) = (datagram(&[]), Vec::new());
        for k in 0..90 {
            places.push(d.len());
            fingerprinted(&mut d);
            d.extend(attribute(0xC001, &vec![0x5A; (first + 7 * k) % 97]));
            relength(&mut d);
        }
        t.datagram(r, &d, b"k");
        for place in places.into_iter().step_by(3) {
            d[place + 4] ^= 1;
            t.read(&d);
            d[place + 4] ^= 1;
        }
    }
}

/// A FINGERPRINT at the last place where one can start, and near it with an attribute behind; right and wrong.
pub fn farthest(t: &mut Tally, r: &mut Random) {
    for behind in [0, 4, 8, 36] {
        let mut d = datagram(&attribute(0xC001, &vec![0x5A; 65_520 - behind]));
        let place = d.len();
        fingerprinted(&mut d);
        if behind > 0 {
            d.extend(attribute(0xC001, &vec![0xA5; behind - 4]));
            relength(&mut d);
        }
        assert_eq!((d.len(), place + behind), (65_552, 65_544));
        t.datagram(r, &d, b"k");
        for byte in 0..8 {
            d[place + byte] ^= 1;
            t.read(&d);
            d[place + byte] ^= 1;
        }
    }
}

/// Every cut and every change of one byte of messages with each known attribute.
pub fn changes(t: &mut Tally, r: &mut Random, every_byte: bool) {
    for d in samples() {
        t.datagram(r, &d, b"k");
        for place in 0..d.len() + 9 {
            t.walk(&d, place);
        }
        for n in 0..d.len() {
            t.datagram(r, &d[..n], b"k");
            let mut cut = d[..n].to_vec();
            relength(&mut cut);
            t.datagram(r, &cut, b"k");
            for by in if every_byte {
                (1..=255).collect()
            } else {
                vec![1u8, 2, 4, 8, 16, 32, 64, 128, 255]
            } {
                let mut changed = d.clone();
                changed[n] ^= by;
                t.read(&changed);
                t.walk(&changed, 20);
                t.check_integrity(&changed, b"k");
            }
        }
    }
}

/// Messages that hold each known attribute between them, signed and fingerprinted.
fn samples() -> Vec<Vec<u8>> {
    let v4 = [0, 1, 0xA1, 0x47, 0xE1, 0x12, 0xA6, 0x43];
    let v6 = [
        0, 2, 0xA1, 0x47, 1, 2, 3, 4, 5, 6, 7, 8, 9, 10, 11, 12, 13, 14, 15, 16,
    ];
    let bodies: [Vec<Vec<u8>>; 3] = [
        vec![
            attribute(SOFTWARE, b"a server, 1.00"),
            attribute(XOR_MAPPED_ADDRESS, &v4),
            attribute(MAPPED_ADDRESS, &v6),
        ],
        vec![
            attribute(ERROR_CODE, "\0\0\u{4}\u{1}für dich".as_bytes()),
            attribute(NONCE, b"f//499k954d6OL34oL9FSTvy64sA"),
            attribute(REALM, "例え".as_bytes()),
            attribute(UNKNOWN_ATTRIBUTES, &[0, 3, 0, 0x26]),
        ],
        vec![
            attribute(USERNAME, b"evtj:h6vY"),
            attribute(0x0024, &[0x6E, 0, 1, 0xFF]),
            attribute(ALTERNATE_SERVER, &v4),
        ],
    ];
    bodies.iter().map(|body| sealed(&body.concat())).collect()
}

fn sealed(body: &[u8]) -> Vec<u8> {
    let mut d = datagram(body);
    crate::messages::signed(&mut d, b"k");
    fingerprinted(&mut d);
    d
}
