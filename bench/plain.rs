//! A reader as one would write it in Rust by hand: the same checks in the same order, CRC-32 eight bytes at a time.

/// Number (0: whole), class, method, count of attributes, place of the fault.
#[repr(C)]
#[derive(Clone, Copy, Debug, Default, PartialEq)]
pub struct Said {
    pub number: u8,
    pub class: u16,
    pub method: u16,
    pub count: usize,
    pub place: usize,
}

const TABLES: [[u32; 256]; 8] = tables();

const fn tables() -> [[u32; 256]; 8] {
    let mut t = [[0u32; 256]; 8];
    let mut i = 0;
    while i < 256 {
        let mut x = i as u32;
        let mut k = 0;
        while k < 8 {
            x = (x >> 1) ^ (0xEDB8_8320 * (x & 1));
            k += 1;
        }
        t[0][i] = x;
        i += 1;
    }
    let mut n = 1;
    while n < 8 {
        let mut i = 0;
        while i < 256 {
            let x = t[n - 1][i];
            t[n][i] = (x >> 8) ^ t[0][(x & 0xFF) as usize];
            i += 1;
        }
        n += 1;
    }
    t
}

fn update(mut c: u32, s: &[u8]) -> u32 {
    let t = &TABLES;
    let mut chunks = s.chunks_exact(8);
    for b in &mut chunks {
        let x = c ^ u32::from_le_bytes([b[0], b[1], b[2], b[3]]);
        c = t[7][(x & 0xFF) as usize]
            ^ t[6][(x >> 8 & 0xFF) as usize]
            ^ t[5][(x >> 16 & 0xFF) as usize]
            ^ t[4][(x >> 24) as usize]
            ^ t[3][b[4] as usize]
            ^ t[2][b[5] as usize]
            ^ t[1][b[6] as usize]
            ^ t[0][b[7] as usize];
    }
    for b in chunks.remainder() {
        c = (c >> 8) ^ t[0][((c ^ *b as u32) & 0xFF) as usize];
    }
    c
}

fn be16(d: &[u8], p: usize) -> u16 {
    u16::from_be_bytes([d[p], d[p + 1]])
}

fn print_at(d: &[u8], p: usize) -> u32 {
    let length = ((p - 20 + 8) as u16).to_be_bytes();
    !update(update(update(!0, &d[..2]), &length), &d[4..p]) ^ 0x5354_554E
}

fn text(v: &[u8], most: usize) -> u8 {
    if v.len() > most {
        return 11;
    }
    if std::str::from_utf8(v).is_ok() { 0 } else { 14 }
}

fn address(v: &[u8]) -> u8 {
    match (v.len(), v.get(1)) {
        (8, Some(1)) | (20, Some(2)) => 0,
        (8 | 20, _) => 12,
        _ => 11,
    }
}

fn code(v: &[u8]) -> u8 {
    if v.len() < 4 || v.len() > 131 {
        return 11;
    }
    if !(3..=6).contains(&(v[2] & 7)) || v[3] > 99 {
        return 13;
    }
    text(&v[4..], 127)
}

fn sized(v: &[u8], size: usize) -> u8 {
    if v.len() == size { 0 } else { 11 }
}

fn fault(kind: u16, v: &[u8]) -> u8 {
    match kind {
        0x0001 | 0x0020 | 0x8023 => address(v),
        0x0006 => text(v, 512),
        0x0008 => sized(v, 20),
        0x0009 => code(v),
        0x000A => if v.len() % 2 == 0 { 0 } else { 11 },
        0x0014 | 0x0015 | 0x8022 => text(v, 127),
        0x8028 => sized(v, 4),
        _ => 0,
    }
}

pub fn read(d: &[u8]) -> Said {
    let refused = |number| Said { number, ..Said::default() };
    if d.len() < 20 {
        return refused(1);
    }
    let kind = be16(d, 0);
    if kind >= 0x4000 {
        return refused(2);
    }
    if d[4..8] != [0x21, 0x12, 0xA4, 0x42] {
        return refused(3);
    }
    if d.len() != 20 + be16(d, 2) as usize {
        return refused(4);
    }
    let class = kind >> 7 & 2 | kind >> 4 & 1;
    let method = kind >> 2 & 0xF80 | kind >> 1 & 0x70 | kind & 0xF;
    let broken = |number, place| Said { number, class, method, count: 0, place };
    let (mut at, mut count, mut prints) = (20, 0, false);
    while at < d.len() {
        if d.len() - at < 4 {
            return broken(10, at);
        }
        let size = be16(d, at + 2) as usize;
        let next = at + 4 + (size + 3) / 4 * 4;
        if d.len() < next {
            return broken(10, at);
        }
        let kind = be16(d, at);
        match fault(kind, &d[at + 4..at + 4 + size]) {
            0 => {}
            number => return broken(number, at),
        }
        prints |= kind == 0x8028;
        count += 1;
        at = next;
    }
    if prints {
        at = 20;
        while at < d.len() {
            if be16(d, at) == 0x8028 && d[at + 4..at + 8] != print_at(d, at).to_be_bytes() {
                return broken(15, at);
            }
            at += 4 + (be16(d, at + 2) as usize + 3) / 4 * 4;
        }
    }
    Said { number: 0, class, method, count, place: 0 }
}
