//! The constants and calls of include/cratehoist.h as they are. `tools/header` holds them to the source; [`crate::calls`] has safe
//! calls.
#![allow(missing_docs)]

// Classes.
pub const REQUEST: u16 = 0;
pub const INDICATION: u16 = 1;
pub const SUCCESS_RESPONSE: u16 = 2;
pub const ERROR_RESPONSE: u16 = 3;

// The method of RFC 5389.
pub const BINDING: u16 = 1;

// Types of attributes.
pub const MAPPED_ADDRESS: u16 = 0x0001;
pub const USERNAME: u16 = 0x0006;
pub const MESSAGE_INTEGRITY: u16 = 0x0008;
pub const ERROR_CODE: u16 = 0x0009;
pub const UNKNOWN_ATTRIBUTES: u16 = 0x000A;
pub const REALM: u16 = 0x0014;
pub const NONCE: u16 = 0x0015;
pub const XOR_MAPPED_ADDRESS: u16 = 0x0020;
pub const SOFTWARE: u16 = 0x8022;
pub const ALTERNATE_SERVER: u16 = 0x8023;
pub const FINGERPRINT: u16 = 0x8028;

// Families.
pub const IPV4: u8 = 1;
pub const IPV6: u8 = 2;

// The `what` of a reading.
pub const WHOLE: u8 = 0;
pub const BROKEN: u8 = 1;
pub const REFUSED: u8 = 2;

// The `what` of a step.
pub const ATTRIBUTE: u8 = 0;
pub const END: u8 = 1;
pub const CUT: u8 = 2;

// No message is longer.
pub const LONGEST: usize = 65552;

#[repr(C)]
#[derive(Debug, Clone, Copy, PartialEq, Eq)]
pub struct Id {
    pub bytes: [u8; 12],
}

#[repr(C)]
#[derive(Debug, Clone, Copy, PartialEq, Eq)]
pub struct Address {
    pub family: u8,
    pub port: u16,
    pub ip: [u8; 16],
}

#[repr(C)]
#[derive(Debug, Clone, Copy, PartialEq, Eq)]
pub struct XorForm {
    pub number: u8,
    pub address: Address,
}

#[repr(C)]
#[derive(Debug, Clone, Copy, PartialEq, Eq)]
pub struct Step {
    pub what: u8,
    pub kind: u16,
    pub place: usize,
    pub value: usize,
    pub size: usize,
    pub next: usize,
}

#[repr(C)]
#[derive(Debug, Clone, Copy, PartialEq, Eq)]
pub struct Reading {
    pub what: u8,
    pub number: u8,
    pub message_class: u16,
    pub method: u16,
    pub count: usize,
    pub place: usize,
    pub id: Id,
}

#[repr(C)]
#[derive(Debug, Clone, Copy, PartialEq, Eq)]
pub struct First {
    pub there: bool,
    pub place: usize,
    pub size: usize,
}

#[repr(C)]
#[derive(Debug, Clone, Copy, PartialEq, Eq)]
pub struct Part {
    pub there: bool,
    pub start: usize,
    pub size: usize,
}

#[repr(C)]
#[derive(Debug, Clone, Copy, PartialEq, Eq)]
pub struct Typed {
    pub number: u8,
    pub family: u8,
    pub port: u16,
    pub code: u16,
    pub reserved: u32,
    pub ip: [u8; 16],
    pub start: usize,
    pub size: usize,
}

#[repr(C)]
#[derive(Debug, Clone, Copy, PartialEq, Eq)]
pub struct Written {
    pub number: u8,
    pub size: usize,
}

#[repr(C)]
#[derive(Debug, Clone, Copy, PartialEq, Eq)]
pub struct Digest {
    pub bytes: [u8; 20],
}

#[repr(C)]
#[derive(Debug, Clone, Copy, PartialEq, Eq)]
pub struct Name {
    pub text: [u8; 32],
    pub size: usize,
}

extern "C" {
    pub fn cratehoist_address_xor(address: Address, id: Id) -> XorForm;
    pub fn cratehoist_walk(datagram: *const u8, datagram_size: usize, place: usize) -> Step;
    pub fn cratehoist_read(datagram: *const u8, datagram_size: usize) -> Reading;
    pub fn cratehoist_search(bytes: *const u8, bytes_size: usize, kind: u16) -> First;
    pub fn cratehoist_first_value(datagram: *const u8, datagram_size: usize, kind: u16) -> Part;
    pub fn cratehoist_realm(
        datagram: *const u8,
        datagram_size: usize,
        configured: *const u8,
        configured_size: usize,
    ) -> Part;
    pub fn cratehoist_typed_value(kind: u16, value: *const u8, value_size: usize, id: Id) -> Typed;
    pub fn cratehoist_check_integrity(
        datagram: *const u8,
        datagram_size: usize,
        key: *const u8,
        key_size: usize,
    ) -> u8;
    pub fn cratehoist_begin(
        buffer: *mut u8,
        buffer_size: usize,
        message_class: u16,
        method: u16,
        id: Id,
    ) -> Written;
    pub fn cratehoist_append_raw(
        buffer: *mut u8,
        buffer_size: usize,
        kind: u16,
        value: *const u8,
        value_size: usize,
        padding: *const u8,
        padding_size: usize,
    ) -> Written;
    pub fn cratehoist_append_fingerprint(buffer: *mut u8, buffer_size: usize) -> Written;
    pub fn cratehoist_append_message_integrity(
        buffer: *mut u8,
        buffer_size: usize,
        key: *const u8,
        key_size: usize,
    ) -> Written;
    pub fn cratehoist_refusal(kind: u16, value: *const u8, value_size: usize) -> u8;
    pub fn cratehoist_append_text(
        buffer: *mut u8,
        buffer_size: usize,
        kind: u16,
        text: *const u8,
        text_size: usize,
    ) -> Written;
    pub fn cratehoist_append_unknown_attributes(
        buffer: *mut u8,
        buffer_size: usize,
        types: *const u8,
        types_size: usize,
    ) -> Written;
    pub fn cratehoist_append_address(
        buffer: *mut u8,
        buffer_size: usize,
        kind: u16,
        address: Address,
    ) -> Written;
    pub fn cratehoist_append_error_code(
        buffer: *mut u8,
        buffer_size: usize,
        code: u16,
        reserved: u32,
        phrase: *const u8,
        phrase_size: usize,
    ) -> Written;
    pub fn cratehoist_crc32(bytes: *const u8, bytes_size: usize) -> u32;
    pub fn cratehoist_sha1(bytes: *const u8, bytes_size: usize) -> Digest;
    pub fn cratehoist_hmac(
        key: *const u8,
        key_size: usize,
        bytes: *const u8,
        bytes_size: usize,
    ) -> Digest;
    pub fn cratehoist_hmac_front(
        key: *const u8,
        key_size: usize,
        datagram: *const u8,
        datagram_size: usize,
        place: usize,
        length: u16,
    ) -> Digest;
    pub fn cratehoist_is_utf8(bytes: *const u8, bytes_size: usize) -> bool;
    pub fn cratehoist_attribute_name(kind: u16) -> Name;
    pub fn cratehoist_code_name(code: u16) -> Name;
    pub fn cratehoist_number_name(number: u8) -> Name;
    pub fn cratehoist_class_name(message_class: u16) -> Name;
    pub fn cratehoist_method_name(method: u16) -> Name;
}
