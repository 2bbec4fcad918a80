//! The calls of include/cratehoist.h, over numbers and byte slices as C has them, but safe. docs/PROMISES.md says what each equals.
//!
//! They are safe since a slice is a pointer with as many bytes behind it, and Rust keeps a `&mut` apart from every other argument:
//! nothing else is asked of a caller.

use crate::sys;
pub use crate::sys::{
    Address, Digest, First, Id, Name, Part, Reading, Step, Typed, Written, XorForm,
};

/// The XOR form of an address, and of an XOR form the address; 12 where the family is none.
pub fn address_xor(address: Address, id: Id) -> XorForm {
    unsafe { sys::cratehoist_address_xor(address, id) }
}

/// The walk in a datagram: what stands at a place.
pub fn walk(datagram: &[u8], place: usize) -> Step {
    unsafe { sys::cratehoist_walk(datagram.as_ptr(), datagram.len(), place) }
}

/// Reads a datagram: whole, broken or refused.
pub fn read(datagram: &[u8]) -> Reading {
    unsafe { sys::cratehoist_read(datagram.as_ptr(), datagram.len()) }
}

/// The first attribute of a type that the walk from place 20 meets, in any bytes.
pub fn search(bytes: &[u8], kind: u16) -> First {
    unsafe { sys::cratehoist_search(bytes.as_ptr(), bytes.len(), kind) }
}

/// The value of the first attribute of the type, as a part of the datagram.
pub fn first_value(datagram: &[u8], kind: u16) -> Part {
    unsafe { sys::cratehoist_first_value(datagram.as_ptr(), datagram.len(), kind) }
}

/// The realm to use: where `there`, a part of the datagram; else all of the configured one.
pub fn realm(datagram: &[u8], configured: &[u8]) -> Part {
    unsafe {
        sys::cratehoist_realm(
            datagram.as_ptr(),
            datagram.len(),
            configured.as_ptr(),
            configured.len(),
        )
    }
}

/// What a value says; its part is one of the value.
pub fn typed_value(kind: u16, value: &[u8], id: Id) -> Typed {
    unsafe { sys::cratehoist_typed_value(kind, value.as_ptr(), value.len(), id) }
}

/// 0 where the first MESSAGE-INTEGRITY is right under the key; else the reader's number, 31 or 32.
pub fn check_integrity(datagram: &[u8], key: &[u8]) -> u8 {
    unsafe {
        sys::cratehoist_check_integrity(datagram.as_ptr(), datagram.len(), key.as_ptr(), key.len())
    }
}

/// Writes a header with no attributes to the front of the buffer.
pub fn begin(buffer: &mut [u8], message_class: u16, method: u16, id: Id) -> Written {
    unsafe { sys::cratehoist_begin(buffer.as_mut_ptr(), buffer.len(), message_class, method, id) }
}

/// Appends an attribute of any type, with its value and padding as given.
pub fn append_raw(buffer: &mut [u8], kind: u16, value: &[u8], padding: &[u8]) -> Written {
    unsafe {
        sys::cratehoist_append_raw(
            buffer.as_mut_ptr(),
            buffer.len(),
            kind,
            value.as_ptr(),
            value.len(),
            padding.as_ptr(),
            padding.len(),
        )
    }
}

/// Appends FINGERPRINT.
pub fn append_fingerprint(buffer: &mut [u8]) -> Written {
    unsafe { sys::cratehoist_append_fingerprint(buffer.as_mut_ptr(), buffer.len()) }
}

/// Appends MESSAGE-INTEGRITY under a key.
pub fn append_message_integrity(buffer: &mut [u8], key: &[u8]) -> Written {
    unsafe {
        sys::cratehoist_append_message_integrity(
            buffer.as_mut_ptr(),
            buffer.len(),
            key.as_ptr(),
            key.len(),
        )
    }
}

/// 23 where the list of types refuses a value, else 0.
pub fn refusal(kind: u16, value: &[u8]) -> u8 {
    unsafe { sys::cratehoist_refusal(kind, value.as_ptr(), value.len()) }
}

/// Appends USERNAME, REALM, NONCE or SOFTWARE; another kind is 23.
pub fn append_text(buffer: &mut [u8], kind: u16, text: &[u8]) -> Written {
    unsafe {
        sys::cratehoist_append_text(
            buffer.as_mut_ptr(),
            buffer.len(),
            kind,
            text.as_ptr(),
            text.len(),
        )
    }
}

/// Appends UNKNOWN-ATTRIBUTES: types of two bytes each.
pub fn append_unknown_attributes(buffer: &mut [u8], types: &[u8]) -> Written {
    unsafe {
        sys::cratehoist_append_unknown_attributes(
            buffer.as_mut_ptr(),
            buffer.len(),
            types.as_ptr(),
            types.len(),
        )
    }
}

/// Appends an address, given plain; another kind or family is 23.
pub fn append_address(buffer: &mut [u8], kind: u16, address: Address) -> Written {
    unsafe { sys::cratehoist_append_address(buffer.as_mut_ptr(), buffer.len(), kind, address) }
}

/// Appends ERROR-CODE; the reserved number is 0 but for one that was read.
pub fn append_error_code(buffer: &mut [u8], code: u16, reserved: u32, phrase: &[u8]) -> Written {
    unsafe {
        sys::cratehoist_append_error_code(
            buffer.as_mut_ptr(),
            buffer.len(),
            code,
            reserved,
            phrase.as_ptr(),
            phrase.len(),
        )
    }
}

/// The CRC-32 of bytes.
pub fn crc32(bytes: &[u8]) -> u32 {
    unsafe { sys::cratehoist_crc32(bytes.as_ptr(), bytes.len()) }
}

/// SHA-1.
pub fn sha1(bytes: &[u8]) -> Digest {
    unsafe { sys::cratehoist_sha1(bytes.as_ptr(), bytes.len()) }
}

/// HMAC-SHA-1.
pub fn hmac(key: &[u8], bytes: &[u8]) -> Digest {
    unsafe { sys::cratehoist_hmac(key.as_ptr(), key.len(), bytes.as_ptr(), bytes.len()) }
}

/// HMAC-SHA-1 of the bytes before a place, with another number in the length field.
pub fn hmac_front(key: &[u8], datagram: &[u8], place: usize, length: u16) -> Digest {
    unsafe {
        sys::cratehoist_hmac_front(
            key.as_ptr(),
            key.len(),
            datagram.as_ptr(),
            datagram.len(),
            place,
            length,
        )
    }
}

/// Whether it is UTF-8.
pub fn is_utf8(bytes: &[u8]) -> bool {
    unsafe { sys::cratehoist_is_utf8(bytes.as_ptr(), bytes.len()) }
}

/// The name of an attribute type.
pub fn attribute_name(kind: u16) -> Name {
    unsafe { sys::cratehoist_attribute_name(kind) }
}

/// What an error code means.
pub fn code_name(code: u16) -> Name {
    unsafe { sys::cratehoist_code_name(code) }
}

/// What a number of docs/NUMBERS.md is called.
pub fn number_name(number: u8) -> Name {
    unsafe { sys::cratehoist_number_name(number) }
}

/// The name of a class.
pub fn class_name(message_class: u16) -> Name {
    unsafe { sys::cratehoist_class_name(message_class) }
}

/// The name of a method.
pub fn method_name(method: u16) -> Name {
    unsafe { sys::cratehoist_method_name(method) }
}
