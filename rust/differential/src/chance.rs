//! Cases from a seed: messages and damaged ones, and appends to them.

use crate::compare::{Append, Tally};
use crate::messages;
use crate::random::Random;
use crate::reader::*;

/// One message, perhaps damaged, asked everything; then one append to it.
pub fn case(tally: &mut Tally, r: &mut Random) {
    let key = messages::key(r);
    let mut d = messages::message(r, &key);
    if r.one_in(2) {
        messages::damage(r, &mut d);
        match r.below(4) {
            0 => messages::damage_again(r, &mut d),
            1 => messages::fingerprinted(&mut d),
            _ => {}
        }
    }
    let asked = if r.one_in(4) { messages::key(r) } else { key };
    tally.datagram(r, &d, &asked);
    if r.one_in(8) {
        tally.sums(&asked, &d);
    }
    let append = append(r);
    let buf = buffer(r, d);
    let now = tally.append(&buf, &append);
    if r.one_in(8) {
        let append = self::append(r);
        tally.append(&now, &append);
    }
    if r.one_in(16) {
        let class = if r.one_in(8) { r.pair() } else { r.pair() & 3 };
        let (method, id) = (
            messages::method(r) + if r.one_in(8) { 4095 } else { 0 },
            r.id(),
        );
        let size = r.pick(&[0, 19, 20, 21, 40]);
        tally.begin(&r.bytes(size), class, method, &id);
    }
}

/// The message with other bytes behind it, so that an append fits, just fits, or just doesn't.
fn buffer(r: &mut Random, mut d: Vec<u8>) -> Vec<u8> {
    let room = match r.below(4) {
        0 => r.below(48),
        1 => r.pick(&[0, 3, 4, 7, 8, 11, 12, 23, 24, 25, 131, 132, 136, 516]),
        _ => 200 + r.below(700),
    };
    d.extend(r.bytes(room));
    d
}

pub fn append(r: &mut Random) -> Append {
    match r.below(9) {
        0 | 1 => {
            let kind = messages::kind(r);
            let value = messages::value(r, kind);
            let pad = if r.one_in(8) {
                r.below(6)
            } else {
                padding(value.len())
            };
            Append::Raw {
                kind,
                value,
                pad: r.bytes(pad),
            }
        }
        2 | 3 => {
            let kind = if r.one_in(16) {
                messages::kind(r)
            } else {
                r.pick(&[USERNAME, REALM, NONCE, SOFTWARE])
            };
            let size = messages::size(r);
            Append::Text {
                kind,
                text: messages::text(r, size),
            }
        }
        4 => {
            let size = messages::size(r);
            let size = if r.one_in(4) { size } else { size & !1 };
            Append::Types {
                types: r.bytes(size),
            }
        }
        5 => {
            let code = if r.one_in(4) {
                r.pick(&[0, 99, 299, 300, 399, 600, 699, 700, 65535])
            } else {
                300 + r.pair() % 400
            };
            let reserved = if r.one_in(4) {
                r.pick(&[0, 1, 31, 32, 8191, 8192, 2_097_151, 2_097_152, u32::MAX])
            } else {
                messages::reserved(r)
            };
            let size = messages::size(r);
            Append::Code {
                code,
                reserved,
                phrase: messages::text(r, size),
            }
        }
        6 => {
            let known = [MAPPED_ADDRESS, XOR_MAPPED_ADDRESS, ALTERNATE_SERVER];
            let kind = if r.one_in(16) {
                messages::kind(r)
            } else {
                r.pick(&known)
            };
            let family = if r.one_in(16) {
                r.byte()
            } else {
                r.pick(&[1, 2])
            };
            Append::Address {
                kind,
                family,
                port: r.pair(),
                ip: r.bytes(16).try_into().unwrap(),
            }
        }
        7 => Append::Fingerprint,
        _ => Append::Integrity {
            key: messages::key(r),
        },
    }
}
