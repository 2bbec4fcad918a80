//! A plain writer, written from docs/SCOPE.md alone (sections 17 and 18).

use crate::answers::{Id, Written};
use crate::reader::*;

/// Over C a class is a number; one above 3 is refused as a method is.
pub fn begin(buf: &mut [u8], class: u16, method: u16, id: &Id) -> Written {
    if class > 3 || method > 4095 {
        return Err(22);
    }
    if buf.len() < 20 {
        return Err(26);
    }
    buf[0..2].copy_from_slice(&type_number(class as u8, method).to_be_bytes());
    buf[2..4].fill(0);
    buf[4..8].copy_from_slice(&COOKIE);
    buf[8..20].copy_from_slice(id);
    Ok(20)
}

/// The size of the message at the front, and its ID.
fn message(buf: &[u8]) -> Result<(usize, Id), u8> {
    let header = front(buf).map_err(|_| 21)?;
    let size = 20 + header.length;
    if size > buf.len() || attributes(&buf[..size]).1.is_some() {
        return Err(21);
    }
    Ok((size, header.id))
}

/// The numbers 25 and 26 for an attribute with `more` bytes behind a message of `size` bytes; else the new size.
fn room(buf: &[u8], size: usize, more: usize) -> Written {
    if size + more > 20 + 65_532 {
        Err(25)
    } else if size + more > buf.len() {
        Err(26)
    } else {
        Ok(size + more)
    }
}

pub fn append_raw(buf: &mut [u8], kind: u16, value: &[u8], pad: &[u8]) -> Written {
    let (size, _) = message(buf)?;
    if pad.len() != padding(value.len()) {
        return Err(24);
    }
    let total = room(buf, size, 4 + value.len() + pad.len())?;
    let head = [kind, value.len() as u16].map(u16::to_be_bytes).concat();
    buf[size..total].copy_from_slice(&[&head, value, pad].concat());
    buf[2..4].copy_from_slice(&((total - 20) as u16).to_be_bytes());
    Ok(total)
}

fn append_typed(buf: &mut [u8], kind: u16, value: &[u8]) -> Written {
    message(buf)?;
    if fault(kind, value) != 0 {
        return Err(23);
    }
    append_raw(buf, kind, value, &[0; 3][..padding(value.len())])
}

/// Over C the kind is a type; one that is no text's is refused as its value would be.
pub fn append_text(buf: &mut [u8], kind: u16, text: &[u8]) -> Written {
    message(buf)?;
    match kind {
        USERNAME | REALM | NONCE | SOFTWARE => append_typed(buf, kind, text),
        _ => Err(23),
    }
}

pub fn append_unknown_attributes(buf: &mut [u8], types: &[u8]) -> Written {
    append_typed(buf, UNKNOWN_ATTRIBUTES, types)
}

pub fn append_error_code(buf: &mut [u8], code: u16, reserved: u32, phrase: &[u8]) -> Written {
    message(buf)?;
    if code < 300 || code > 699 || reserved >= 1 << 21 {
        return Err(23);
    }
    let head = reserved << 11 | u32::from(code / 100) << 8 | u32::from(code % 100);
    let head = head.to_be_bytes();
    append_typed(buf, ERROR_CODE, &[&head, phrase].concat())
}

/// Over C kind and family are numbers; those that there aren't are refused as a wrong value.
pub fn append_address(buf: &mut [u8], kind: u16, family: u8, port: u16, ip: &[u8; 16]) -> Written {
    let (_, id) = message(buf)?;
    let ip = match family {
        1 => &ip[..4],
        2 => &ip[..],
        _ => return Err(23),
    };
    let (port, ip) = match kind {
        MAPPED_ADDRESS | ALTERNATE_SERVER => (port, ip.to_vec()),
        XOR_MAPPED_ADDRESS => xor(port, ip, &id),
        _ => return Err(23),
    };
    let head = [0, family, (port / 256) as u8, (port % 256) as u8];
    append_typed(buf, kind, &[&head[..], &ip].concat())
}

pub fn append_fingerprint(buf: &mut [u8]) -> Written {
    let (size, _) = message(buf)?;
    room(buf, size, 8)?;
    let value = fingerprint(buf, size);
    append_raw(buf, FINGERPRINT, &value, &[])
}

pub fn append_message_integrity(buf: &mut [u8], key: &[u8]) -> Written {
    let (size, _) = message(buf)?;
    room(buf, size, 24)?;
    let value = integrity(buf, size, key);
    append_raw(buf, MESSAGE_INTEGRITY, &value, &[])
}
