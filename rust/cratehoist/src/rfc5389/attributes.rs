//! The attributes of RFC 5389.
use crate::attribute::{Append, Attribute, AttributeType, RawAttribute};
use crate::calls::{self, Typed};
use crate::message::MessageEncoder;
use crate::rfc5389::errors;
use crate::{net, sys, Error, Message, Result};
use core::net::SocketAddr;

/// What a value says: the reader let it through, so typed reading takes it.
fn typed<'a>(message: &Message<'a>, raw: &RawAttribute<'a>, codepoint: u16) -> Option<Typed> {
    let kind = raw.get_type().as_u16();
    let said = calls::typed_value(kind, raw.value(), message.transaction_id().lent());
    (kind == codepoint && said.number == 0).then_some(said)
}

/// The part of a value that is text.
fn text<'a>(raw: &RawAttribute<'a>, said: &Typed) -> Option<&'a str> {
    core::str::from_utf8(&raw.value()[said.start..said.start + said.size]).ok()
}

macro_rules! addresses {
    ($($kind:ident $code:ident $name:literal),*) => {$(
        #[doc = concat!("`", $name, "` attribute.")]
        #[derive(Debug, Clone, Copy, PartialEq, Eq, Hash)]
        pub struct $kind(SocketAddr);
        impl $kind {
            /// The type of the attribute.
            pub const CODEPOINT: u16 = sys::$code;

            /// The attribute of an address, given plain.
            pub fn new(addr: SocketAddr) -> Self {
                $kind(addr)
            }

            /// The address, plain.
            pub fn address(&self) -> SocketAddr {
                self.0
            }
        }
        impl<'a> Attribute<'a> for $kind {
            const CODEPOINT: u16 = sys::$code;

            fn from_raw(message: &Message<'a>, raw: RawAttribute<'a>) -> Option<Self> {
                typed(message, &raw, sys::$code).map(|said| $kind(net::given(said.family, said.port, said.ip)))
            }
        }
        impl Append for $kind {
            fn append_to(&self, message: &mut MessageEncoder<'_>) -> Result<()> {
                message.write(|buffer| calls::append_address(buffer, sys::$code, net::lent(self.0)))
            }
        }
    )*};
}
addresses!(
    MappedAddress MAPPED_ADDRESS "MAPPED-ADDRESS",
    XorMappedAddress XOR_MAPPED_ADDRESS "XOR-MAPPED-ADDRESS",
    AlternateServer ALTERNATE_SERVER "ALTERNATE-SERVER"
);

macro_rules! texts {
    ($($kind:ident $field:ident $code:ident $most:literal $name:literal),*) => {$(
        #[doc = concat!("`", $name, "` attribute.")]
        #[derive(Debug, Clone, Copy, PartialEq, Eq, Hash)]
        pub struct $kind<'a>(&'a str);
        impl<'a> $kind<'a> {
            /// The type of the attribute.
            pub const CODEPOINT: u16 = sys::$code;

            #[doc = concat!("The attribute of a text of up to ", $most, " bytes; a longer one is refused by 23.")]
            pub fn new($field: &'a str) -> Result<Self> {
                Error::unless(calls::refusal(sys::$code, $field.as_bytes()))?;
                Ok($kind($field))
            }

            /// The text.
            pub fn $field(&self) -> &'a str {
                self.0
            }
        }
        impl<'a> Attribute<'a> for $kind<'a> {
            const CODEPOINT: u16 = sys::$code;

            fn from_raw(message: &Message<'a>, raw: RawAttribute<'a>) -> Option<Self> {
                typed(message, &raw, sys::$code).and_then(|said| text(&raw, &said)).map($kind)
            }
        }
        impl Append for $kind<'_> {
            fn append_to(&self, message: &mut MessageEncoder<'_>) -> Result<()> {
                message.write(|buffer| calls::append_text(buffer, sys::$code, self.0.as_bytes()))
            }
        }
    )*};
}
texts!(
    Username name USERNAME 512 "USERNAME",
    Realm text REALM 127 "REALM",
    Nonce value NONCE 127 "NONCE",
    Software description SOFTWARE 127 "SOFTWARE"
);

impl Software<'static> {
    /// The same in a constant.
    ///
    /// # Panics
    ///
    /// Where the text has more than 127 bytes.
    pub const fn new_static(description: &'static str) -> Self {
        assert!(description.len() < 128, "SOFTWARE has at most 127 bytes");
        Software(description)
    }
}

/// `ERROR-CODE` attribute. Two are equal where all of it is, the reserved bits too; what went wrong is told by the code.
#[derive(Debug, Clone, Copy, PartialEq, Eq, Hash)]
pub struct ErrorCode<'a> {
    code: u16,
    reserved: u32,
    reason_phrase: &'a str,
}
impl<'a> ErrorCode<'a> {
    /// The type of the attribute.
    pub const CODEPOINT: u16 = sys::ERROR_CODE;

    /// The attribute of a code from 300 to 699 and a phrase of up to 127 bytes; others are refused by 23.
    ///
    /// ```
    /// use cratehoist::rfc5389::attributes::ErrorCode;
    /// assert_eq!(ErrorCode::new(420, "Unknown Attribute").unwrap().code(), 420);
    /// assert_eq!(ErrorCode::new(700, "").map_err(|e| e.number()), Err(23));
    /// ```
    pub fn new(code: u16, reason_phrase: &'a str) -> Result<Self> {
        match (300..700).contains(&code) && reason_phrase.len() <= 127 {
            true => Ok(ErrorCode::named(code, reason_phrase)),
            false => Err(Error::new(23, 0)),
        }
    }

    pub(crate) fn named(code: u16, reason_phrase: &'a str) -> Self {
        ErrorCode {
            code,
            reserved: 0,
            reason_phrase,
        }
    }

    /// The same with these reserved bits, 21 of them; a number above 2,097,151 is refused by 23. RFC 5389 has them 0, as they are
    /// without this call.
    ///
    /// ```
    /// use cratehoist::rfc5389::attributes::ErrorCode;
    /// let error = ErrorCode::new(600, "").unwrap();
    /// assert_eq!(error.reserved(), 0);
    /// assert_eq!(error.with_reserved(2_097_151).unwrap().reserved(), 2_097_151);
    /// assert_eq!(error.with_reserved(2_097_152).map_err(|e| e.number()), Err(23));
    /// ```
    pub fn with_reserved(self, reserved: u32) -> Result<Self> {
        match reserved >> 21 {
            0 => Ok(ErrorCode { reserved, ..self }),
            _ => Err(Error::new(23, 0)),
        }
    }

    /// The code.
    pub fn code(&self) -> u16 {
        self.code
    }

    /// The reserved bits: of an attribute that was read, those that it came with. They mean nothing.
    pub fn reserved(&self) -> u32 {
        self.reserved
    }

    /// The phrase.
    pub fn reason_phrase(&self) -> &'a str {
        self.reason_phrase
    }
}
/// What a server may answer: 401 for a signature that is missing or differs, 400 for a datagram at fault, 500 for the rest.
impl From<Error> for ErrorCode<'static> {
    fn from(f: Error) -> Self {
        match f.number() {
            1..=15 => errors::BadRequest.into(),
            31 | 32 => errors::Unauthorized.into(),
            _ => errors::ServerError.into(),
        }
    }
}
impl<'a> Attribute<'a> for ErrorCode<'a> {
    const CODEPOINT: u16 = sys::ERROR_CODE;

    fn from_raw(message: &Message<'a>, raw: RawAttribute<'a>) -> Option<Self> {
        let said = typed(message, &raw, Self::CODEPOINT)?;
        Some(ErrorCode {
            code: said.code,
            reserved: said.reserved,
            reason_phrase: text(&raw, &said)?,
        })
    }
}
impl Append for ErrorCode<'_> {
    fn append_to(&self, message: &mut MessageEncoder<'_>) -> Result<()> {
        message.write(|buffer| {
            let phrase = self.reason_phrase.as_bytes();
            calls::append_error_code(buffer, self.code, self.reserved, phrase)
        })
    }
}

/// `UNKNOWN-ATTRIBUTES` attribute.
#[derive(Debug, Clone, Copy, PartialEq, Eq, Hash)]
pub struct UnknownAttributes<'a>(&'a [AttributeType]);
impl<'a> UnknownAttributes<'a> {
    /// The type of the attribute.
    pub const CODEPOINT: u16 = sys::UNKNOWN_ATTRIBUTES;

    /// The attribute of some types.
    pub fn new(unknowns: &'a [AttributeType]) -> Self {
        UnknownAttributes(unknowns)
    }

    /// The types.
    pub fn unknowns(&self) -> &'a [AttributeType] {
        self.0
    }
}
impl<'a> Attribute<'a> for UnknownAttributes<'a> {
    const CODEPOINT: u16 = sys::UNKNOWN_ATTRIBUTES;

    fn from_raw(message: &Message<'a>, raw: RawAttribute<'a>) -> Option<Self> {
        typed(message, &raw, Self::CODEPOINT)
            .map(|_| UnknownAttributes(AttributeType::list(raw.value())))
    }
}
impl Append for UnknownAttributes<'_> {
    fn append_to(&self, message: &mut MessageEncoder<'_>) -> Result<()> {
        message
            .write(|buffer| calls::append_unknown_attributes(buffer, AttributeType::bytes(self.0)))
    }
}

/// `MESSAGE-INTEGRITY` attribute of a message that was read. It is written by
/// [`add_message_integrity`](crate::MessageEncoder::add_message_integrity).
#[derive(Debug, Clone, Copy, PartialEq, Eq)]
pub struct MessageIntegrity<'a> {
    datagram: &'a [u8],
    place: usize,
    hmac_sha1: [u8; 20],
}
impl MessageIntegrity<'_> {
    /// The type of the attribute.
    pub const CODEPOINT: u16 = sys::MESSAGE_INTEGRITY;

    /// Checks it for short-term credentials: the key is the password's bytes.
    pub fn check_short_term_credential(
        &self,
        password: &str,
    ) -> core::result::Result<(), ErrorCode<'static>> {
        self.check_key(password.as_bytes())
    }

    /// Checks it under a key. That of long-term credentials is the MD5 of `username:realm:password`, which is the caller's to make.
    pub fn check_key(&self, key: &[u8]) -> core::result::Result<(), ErrorCode<'static>> {
        // a MESSAGE-INTEGRITY that starts at `place` ends within a body of 16 bits, so its length fits
        let length = (self.place + 4) as u16;
        let digest = calls::hmac_front(key, self.datagram, self.place, length);
        // all twenty bytes are compared, so that the time doesn't tell where the first one differs
        let bytes = digest.bytes.iter().zip(&self.hmac_sha1);
        match bytes.fold(0, |differ, (a, b)| differ | (a ^ b)) {
            0 => Ok(()),
            _ => Err(errors::Unauthorized.into()),
        }
    }

    /// The value.
    pub fn hmac_sha1(&self) -> [u8; 20] {
        self.hmac_sha1
    }
}
impl<'a> Attribute<'a> for MessageIntegrity<'a> {
    const CODEPOINT: u16 = sys::MESSAGE_INTEGRITY;

    fn from_raw(message: &Message<'a>, raw: RawAttribute<'a>) -> Option<Self> {
        typed(message, &raw, Self::CODEPOINT)?;
        Some(MessageIntegrity {
            datagram: message.as_bytes(),
            place: raw.place(),
            hmac_sha1: raw.value().try_into().ok()?,
        })
    }
}

/// `FINGERPRINT` attribute of a message that was read: it is right, or the message would be broken. It is written by
/// [`add_fingerprint`](crate::MessageEncoder::add_fingerprint).
#[derive(Debug, Clone, Copy, PartialEq, Eq, Hash)]
pub struct Fingerprint {
    crc32: u32,
}
impl Fingerprint {
    /// The type of the attribute.
    pub const CODEPOINT: u16 = sys::FINGERPRINT;

    /// The value.
    pub fn crc32(&self) -> u32 {
        self.crc32
    }
}
impl<'a> Attribute<'a> for Fingerprint {
    const CODEPOINT: u16 = sys::FINGERPRINT;

    fn from_raw(message: &Message<'a>, raw: RawAttribute<'a>) -> Option<Self> {
        typed(message, &raw, Self::CODEPOINT)?;
        Some(Fingerprint {
            crc32: u32::from_be_bytes(raw.value().try_into().ok()?),
        })
    }
}
