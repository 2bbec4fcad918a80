//! Each call made on both sides with the same input. A difference ends the run and shows the input.

use crate::answers::{Id, Reading, Typed, Walk, Written};
use crate::random::Random;
use crate::{ours, reader, sums, writer};
use std::collections::BTreeMap;
use std::fmt::Debug;

/// The numbers of docs/SCOPE.md. Each is to be reached, and another from either side is a failure.
pub const NUMBERS: [u8; 19] = [
    0, 1, 2, 3, 4, 10, 11, 12, 13, 14, 15, 21, 22, 23, 24, 25, 26, 31, 32,
];

/// How many cases came by chance, and how often each call was compared, by the number that it told.
#[derive(Default)]
pub struct Tally {
    pub cases: u64,
    pub told: BTreeMap<&'static str, BTreeMap<u8, u64>>,
}

fn hex(s: &[u8]) -> String {
    s.iter().map(|b| format!("{b:02x}")).collect()
}

impl Tally {
    fn same<T: PartialEq + Debug>(
        &mut self,
        call: &'static str,
        number: u8,
        input: &[&[u8]],
        ours: T,
        plain: T,
    ) {
        if ours != plain {
            let input: Vec<String> = input.iter().map(|part| hex(part)).collect();
            panic!(
                "{call} differs\n ours  {ours:?}\n plain {plain:?}\n input {}",
                input.join(" | ")
            );
        }
        assert!(
            NUMBERS.contains(&number),
            "{call}: no such number: {number}"
        );
        *self
            .told
            .entry(call)
            .or_default()
            .entry(number)
            .or_default() += 1;
    }

    pub fn sums(&mut self, key: &[u8], s: &[u8]) {
        self.same("crc32", 0, &[s], ours::crc32(s), sums::crc32(s));
        self.same("sha1", 0, &[s], ours::sha1(s), sums::sha1(s));
        self.same("hmac", 0, &[key, s], ours::hmac(key, s), sums::hmac(key, s));
        self.utf8(s);
    }

    pub fn utf8(&mut self, s: &[u8]) {
        self.same("is_utf8", 0, &[s], ours::is_utf8(s), reader::is_utf8(s));
    }

    pub fn read(&mut self, d: &[u8]) -> Reading {
        let plain = reader::read(d);
        self.same("read", plain.number(), &[d], ours::read(d), plain);
        plain
    }

    pub fn walk(&mut self, d: &[u8], place: usize) -> Walk {
        let plain = reader::walk(d, place);
        self.same(
            "walk",
            0,
            &[d, &place.to_be_bytes()],
            ours::walk(d, place),
            plain,
        );
        plain
    }

    pub fn first(&mut self, d: &[u8], kind: u16) {
        self.same(
            "first",
            0,
            &[d, &kind.to_be_bytes()],
            ours::first(d, kind),
            reader::first(d, kind),
        );
    }

    pub fn typed(&mut self, kind: u16, value: &[u8], id: &Id) {
        let plain = reader::typed(kind, value, id);
        let said = ours::typed(kind, value, id);
        self.same(
            "typed",
            reader::fault(kind, value),
            &[&kind.to_be_bytes(), value, id],
            said,
            plain,
        );
        // section 19: an ERROR-CODE, written typed, is the same value
        if let Typed::Code {
            code,
            reserved,
            phrase,
        } = said
        {
            let mut buf = vec![0; 24 + value.len().next_multiple_of(4)];
            let size = ours::begin(&mut buf, 3, 1, id)
                .and_then(|_| ours::append_error_code(&mut buf, code, reserved, phrase.of(value)));
            let back = (size, &buf[24..24 + value.len()]);
            self.same(
                "code written back",
                0,
                &[value],
                back,
                (Ok(buf.len()), value),
            );
        }
    }

    pub fn realm(&mut self, d: &[u8], configured: &[u8]) {
        self.same(
            "realm",
            0,
            &[d, configured],
            ours::realm(d, configured),
            reader::realm(d),
        );
    }

    pub fn check_integrity(&mut self, d: &[u8], key: &[u8]) {
        let plain = reader::check_integrity(d, key);
        self.same(
            "check_integrity",
            plain,
            &[d, key],
            ours::check_integrity(d, key),
            plain,
        );
    }

    /// All that can be asked of a datagram.
    pub fn datagram(&mut self, r: &mut Random, d: &[u8], key: &[u8]) {
        let said = self.read(d);
        let id = match said {
            Reading::Whole { id, .. } | Reading::Broken { id, .. } => id,
            Reading::Refused { .. } => r.id(),
        };
        let mut place = 20;
        let mut there = 0x0000;
        while let Walk::Attribute {
            kind, value, next, ..
        } = self.walk(d, place)
        {
            self.typed(kind, value.of(d), &id);
            place = next;
            if r.one_in(3) {
                there = kind;
            }
        }
        let odd = r.pick(&[
            0,
            1,
            19,
            21,
            22,
            23,
            24,
            28,
            usize::MAX,
            usize::MAX - 3,
            usize::MAX - 7,
            1 << 32,
        ]);
        self.walk(d, odd);
        self.walk(d, d.len().saturating_sub(r.below(6)));
        self.walk(d, r.below(d.len() + 8));
        self.first(d, there);
        let known = r.pick(&reader::KNOWN);
        self.first(d, known);
        let size = r.below(5);
        let configured = r.bytes(size);
        self.realm(d, &configured);
        self.check_integrity(d, key);
        if let Reading::Whole {
            class, method, id, ..
        } = said
        {
            self.written_again(d, class, method, &id);
        }
    }

    /// Section 19: a whole datagram, written again by begin and raw appends, is the same bytes.
    pub fn written_again(&mut self, d: &[u8], class: u8, method: u16, id: &Id) {
        let mut buf = vec![0; d.len()];
        let mut size = ours::begin(&mut buf, class.into(), method, id);
        for a in reader::attributes(d).0 {
            size = ours::append_raw(&mut buf, a.kind, a.value, a.padding);
        }
        self.same("written again", 0, &[d], (size, &buf[..]), (Ok(d.len()), d));
    }

    /// An append made by both on a buffer of their own. Ours lies between other bytes, which must stay.
    pub fn write(
        &mut self,
        call: &'static str,
        buf: &[u8],
        input: &[u8],
        ours: impl FnOnce(&mut [u8]) -> Written,
        plain: impl FnOnce(&mut [u8]) -> Written,
    ) -> Vec<u8> {
        const AROUND: [u8; 32] = [0xA5; 32];
        let mut plain_buf = buf.to_vec();
        let plain_said = plain(&mut plain_buf);
        assert!(
            plain_said.is_ok() || plain_buf == buf,
            "{call}: the plain writer changed what it refused"
        );
        let mut all = [&AROUND, buf, &AROUND].concat();
        let ours_said = ours(&mut all[32..32 + buf.len()]);
        let number = plain_said.err().unwrap_or(0);
        let whole = [&AROUND, &plain_buf[..], &AROUND].concat();
        self.same(
            call,
            number,
            &[buf, input],
            (ours_said, &all),
            (plain_said, &whole),
        );
        plain_buf
    }

    pub fn begin(&mut self, buf: &[u8], class: u16, method: u16, id: &Id) {
        self.write(
            "begin",
            buf,
            &[&class.to_be_bytes(), &method.to_be_bytes(), &id[..]].concat(),
            |b| ours::begin(b, class, method, id),
            |b| writer::begin(b, class, method, id),
        );
    }

    pub fn append(&mut self, buf: &[u8], append: &Append) -> Vec<u8> {
        match append {
            Append::Raw { kind, value, pad } => self.write(
                "append_raw",
                buf,
                &[&kind.to_be_bytes(), &value[..], pad].concat(),
                |b| ours::append_raw(b, *kind, value, pad),
                |b| writer::append_raw(b, *kind, value, pad),
            ),
            Append::Text { kind, text } => self.write(
                "append_text",
                buf,
                &[&kind.to_be_bytes(), &text[..]].concat(),
                |b| ours::append_text(b, *kind, text),
                |b| writer::append_text(b, *kind, text),
            ),
            Append::Types { types } => self.write(
                "append_unknown_attributes",
                buf,
                types,
                |b| ours::append_unknown_attributes(b, types),
                |b| writer::append_unknown_attributes(b, types),
            ),
            Append::Code {
                code,
                reserved,
                phrase,
            } => self.write(
                "append_error_code",
                buf,
                &[&code.to_be_bytes(), &reserved.to_be_bytes()[..], phrase].concat(),
                |b| ours::append_error_code(b, *code, *reserved, phrase),
                |b| writer::append_error_code(b, *code, *reserved, phrase),
            ),
            Append::Address {
                kind,
                family,
                port,
                ip,
            } => self.write(
                "append_address",
                buf,
                &[&kind.to_be_bytes(), &[*family][..], &port.to_be_bytes(), ip].concat(),
                |b| ours::append_address(b, *kind, *family, *port, ip),
                |b| writer::append_address(b, *kind, *family, *port, ip),
            ),
            Append::Fingerprint => self.write(
                "append_fingerprint",
                buf,
                &[],
                ours::append_fingerprint,
                writer::append_fingerprint,
            ),
            Append::Integrity { key } => self.write(
                "append_message_integrity",
                buf,
                key,
                |b| ours::append_message_integrity(b, key),
                |b| writer::append_message_integrity(b, key),
            ),
        }
    }

    /// How often a number was told by any call.
    pub fn count(&self, number: u8) -> u64 {
        self.told.values().filter_map(|by| by.get(&number)).sum()
    }

    pub fn calls(&self) -> u64 {
        self.told.values().flat_map(|by| by.values()).sum()
    }
}

/// An append with what it is given.
#[derive(Clone, Debug)]
pub enum Append {
    Raw {
        kind: u16,
        value: Vec<u8>,
        pad: Vec<u8>,
    },
    Text {
        kind: u16,
        text: Vec<u8>,
    },
    Types {
        types: Vec<u8>,
    },
    Code {
        code: u16,
        reserved: u32,
        phrase: Vec<u8>,
    },
    Address {
        kind: u16,
        family: u8,
        port: u16,
        ip: [u8; 16],
    },
    Fingerprint,
    Integrity {
        key: Vec<u8>,
    },
}
