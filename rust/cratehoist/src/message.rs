use crate::attribute::{Append, Attribute, AttributeType, RawAttribute};
use crate::calls::{self, Written};
use crate::{rfc5389, sys, Error, Method, Result, TransactionId};
use core::fmt;

/// Message read by [`MessageDecoder`].
pub type DecodedMessage<'a> = core::result::Result<Message<'a>, BrokenMessage>;

/// The class of a message.
#[allow(missing_docs)]
#[derive(Debug, Clone, Copy, PartialEq, Eq, Hash)]
#[repr(u16)]
pub enum MessageClass {
    Request = sys::REQUEST,
    Indication = sys::INDICATION,
    SuccessResponse = sys::SUCCESS_RESPONSE,
    ErrorResponse = sys::ERROR_RESPONSE,
}
impl MessageClass {
    /// The class of a number that the library gave: below four.
    fn given(number: u16) -> Self {
        match number {
            sys::REQUEST => MessageClass::Request,
            sys::INDICATION => MessageClass::Indication,
            sys::SUCCESS_RESPONSE => MessageClass::SuccessResponse,
            _ => MessageClass::ErrorResponse,
        }
    }
}
impl fmt::Display for MessageClass {
    fn fmt(&self, f: &mut fmt::Formatter<'_>) -> fmt::Result {
        match self {
            MessageClass::Request => write!(f, "request"),
            MessageClass::Indication => write!(f, "indication"),
            MessageClass::SuccessResponse => write!(f, "success response"),
            MessageClass::ErrorResponse => write!(f, "error response"),
        }
    }
}

/// A message that read as whole; it borrows its datagram.
#[derive(Debug, Clone, Copy)]
pub struct Message<'a> {
    datagram: &'a [u8],
    class: MessageClass,
    method: Method,
    transaction_id: TransactionId,
    count: usize,
}
impl<'a> Message<'a> {
    /// The class of the message.
    pub fn class(&self) -> MessageClass {
        self.class
    }

    /// The method of the message.
    pub fn method(&self) -> Method {
        self.method
    }

    /// The transaction ID of the message.
    pub fn transaction_id(&self) -> TransactionId {
        self.transaction_id
    }

    /// Its bytes.
    pub fn as_bytes(&self) -> &'a [u8] {
        self.datagram
    }

    /// How many attributes it has, known and unknown.
    pub fn count(&self) -> usize {
        self.count
    }

    /// The first attribute of type `T`, or `None` where there is none.
    pub fn get_attribute<T: Attribute<'a>>(&self) -> Option<T> {
        let found = calls::search(self.datagram, T::CODEPOINT);
        match found.there {
            true => T::from_raw(
                self,
                RawAttribute::at(self.datagram, calls::walk(self.datagram, found.place)),
            ),
            false => None,
        }
    }

    /// The known attributes, in their order.
    pub fn attributes(&self) -> Attributes<'a> {
        Attributes {
            message: *self,
            all: RawAttributes::of(self.datagram),
        }
    }

    /// The unknown attributes, in their order. Whether one of them must be understood is for the caller to see
    /// ([`AttributeType::is_comprehension_required`](crate::AttributeType::is_comprehension_required)).
    pub fn unknown_attributes(&self) -> UnknownAttributes<'a> {
        UnknownAttributes {
            message: *self,
            all: RawAttributes::of(self.datagram),
        }
    }

    /// Checks the first MESSAGE-INTEGRITY under a key: 31 where there is none, 32 where it differs. `Ok` speaks for the bytes
    /// before that attribute.
    pub fn check_integrity(&self, key: &[u8]) -> Result<()> {
        Error::unless(calls::check_integrity(self.datagram, key))
    }

    /// The realm to use: the message's first REALM, or the configured one where it has none. Either way it is no copy.
    ///
    /// ```
    /// use cratehoist::rfc5389::{attributes::Realm, methods::BINDING};
    /// use cratehoist::{MessageClass, MessageDecoder, MessageEncoder, TransactionId};
    ///
    /// # fn main() -> cratehoist::Result<()> {
    /// let mut buffer = [0; 64];
    /// let mut message = MessageEncoder::new(&mut buffer, MessageClass::Request, BINDING, TransactionId::new([3; 12]))?;
    /// let read = MessageDecoder::new().decode_from_bytes(message.as_bytes())?.unwrap();
    /// assert_eq!(read.realm_to_use("site.example"), "site.example");
    /// message.add_attribute(Realm::new("example.org")?)?;
    /// let read = MessageDecoder::new().decode_from_bytes(message.as_bytes())?.unwrap();
    /// assert_eq!(read.realm_to_use("site.example"), "example.org");
    /// # Ok(())
    /// # }
    /// ```
    pub fn realm_to_use<'b: 'a>(&self, configured: &'b str) -> &'a str {
        let part = calls::realm(self.datagram, configured.as_bytes());
        match part.there {
            true => core::str::from_utf8(&self.datagram[part.start..part.start + part.size])
                .expect("text of a whole message is UTF-8"),
            false => configured,
        }
    }
}

/// The attributes of a whole message as the walk meets them.
#[derive(Debug, Clone)]
struct RawAttributes<'a> {
    datagram: &'a [u8],
    place: usize,
}
impl<'a> RawAttributes<'a> {
    fn of(datagram: &'a [u8]) -> Self {
        RawAttributes {
            datagram,
            place: 20,
        }
    }
}
impl<'a> Iterator for RawAttributes<'a> {
    type Item = RawAttribute<'a>;

    fn next(&mut self) -> Option<Self::Item> {
        let step = calls::walk(self.datagram, self.place);
        if step.what != sys::ATTRIBUTE {
            return None;
        }
        self.place = step.next;
        Some(RawAttribute::at(self.datagram, step))
    }
}

/// The known attributes of a message: see [`Message::attributes`].
#[derive(Debug, Clone)]
pub struct Attributes<'a> {
    message: Message<'a>,
    all: RawAttributes<'a>,
}
impl<'a> Iterator for Attributes<'a> {
    type Item = rfc5389::Attribute<'a>;

    fn next(&mut self) -> Option<Self::Item> {
        let message = self.message;
        self.all
            .find_map(|raw| rfc5389::Attribute::known(&message, raw))
    }
}

/// The unknown attributes of a message: see [`Message::unknown_attributes`].
#[derive(Debug, Clone)]
pub struct UnknownAttributes<'a> {
    message: Message<'a>,
    all: RawAttributes<'a>,
}
impl<'a> Iterator for UnknownAttributes<'a> {
    type Item = RawAttribute<'a>;

    fn next(&mut self) -> Option<Self::Item> {
        let message = self.message;
        self.all
            .find(|raw| rfc5389::Attribute::known(&message, *raw).is_none())
    }
}

/// A message with a fault in its attributes. Its header could be read; nothing else of it should be used.
#[derive(Debug, Clone, Copy, PartialEq, Eq)]
pub struct BrokenMessage {
    method: Method,
    class: MessageClass,
    transaction_id: TransactionId,
    error: Error,
}
impl BrokenMessage {
    /// The class of the message.
    pub fn class(&self) -> MessageClass {
        self.class
    }

    /// The method of the message.
    pub fn method(&self) -> Method {
        self.method
    }

    /// The transaction ID of the message.
    pub fn transaction_id(&self) -> TransactionId {
        self.transaction_id
    }

    /// What is wrong, and the place of the attribute at fault.
    pub fn error(&self) -> &Error {
        &self.error
    }
}
impl From<BrokenMessage> for Error {
    fn from(f: BrokenMessage) -> Self {
        f.error
    }
}

/// Reads datagrams.
#[derive(Debug, Clone, Copy, Default)]
pub struct MessageDecoder;
impl MessageDecoder {
    /// A decoder; it has no state.
    pub fn new() -> Self {
        MessageDecoder
    }

    /// Reads a datagram. `Err` is for one that is no STUN message (1 to 4), `Ok(Err(..))` for a message with a fault in it.
    ///
    /// ```
    /// use cratehoist::{MessageDecoder, TransactionId};
    /// assert_eq!(MessageDecoder::new().decode_from_bytes(b"no STUN").map(drop).map_err(|e| e.number()), Err(1));
    ///
    /// // a body of three bytes has no room for an attribute
    /// let cut = [0, 1, 0, 3, 33, 18, 164, 66, 3, 3, 3, 3, 3, 3, 3, 3, 3, 3, 3, 3, 0, 0, 0];
    /// let broken = MessageDecoder::new().decode_from_bytes(&cut).unwrap().unwrap_err();
    /// assert_eq!(broken.transaction_id(), TransactionId::new([3; 12]));
    /// assert_eq!((broken.error().number(), broken.error().place()), (10, 20));
    /// ```
    pub fn decode_from_bytes<'a>(&mut self, datagram: &'a [u8]) -> Result<DecodedMessage<'a>> {
        let r = calls::read(datagram);
        let class = MessageClass::given(r.message_class);
        let method = Method(r.method);
        let transaction_id = TransactionId::new(r.id.bytes);
        match r.what {
            sys::WHOLE => Ok(Ok(Message {
                datagram,
                class,
                method,
                transaction_id,
                count: r.count,
            })),
            sys::BROKEN => Ok(Err(BrokenMessage {
                method,
                class,
                transaction_id,
                error: Error::new(r.number, r.place),
            })),
            _ => Err(Error::new(r.number, 0)),
        }
    }
}

/// Writes a message into a buffer of the caller's. A call that is refused leaves the message as it was.
#[derive(Debug)]
pub struct MessageEncoder<'b> {
    buffer: &'b mut [u8],
    size: usize,
}
impl<'b> MessageEncoder<'b> {
    /// Begins a message with no attributes; 26 where the buffer has fewer than 20 bytes.
    pub fn new(
        buffer: &'b mut [u8],
        class: MessageClass,
        method: Method,
        transaction_id: TransactionId,
    ) -> Result<Self> {
        let mut message = MessageEncoder { buffer, size: 0 };
        message.write(|buffer| {
            calls::begin(buffer, class as u16, method.as_u16(), transaction_id.lent())
        })?;
        Ok(message)
    }

    /// Appends an attribute: 23 where its value is not allowed, 25 where the message is full, 26 where the buffer is.
    pub fn add_attribute(&mut self, attribute: impl Append) -> Result<()> {
        attribute.append_to(self)
    }

    /// Appends an attribute of any type with its value and padding as they are given: no rule is applied but that the padding
    /// fills the value up to a multiple of four, else 24.
    pub fn append_raw(
        &mut self,
        attr_type: AttributeType,
        value: &[u8],
        padding: &[u8],
    ) -> Result<()> {
        self.write(|buffer| calls::append_raw(buffer, attr_type.as_u16(), value, padding))
    }

    /// Appends MESSAGE-INTEGRITY under a key, over what was written before.
    ///
    /// ```
    /// use cratehoist::rfc5389::{attributes::MessageIntegrity, methods::BINDING};
    /// use cratehoist::{MessageClass, MessageDecoder, MessageEncoder, TransactionId};
    ///
    /// # fn main() -> cratehoist::Result<()> {
    /// let mut buffer = [0; 64];
    /// let mut message = MessageEncoder::new(&mut buffer, MessageClass::Request, BINDING, TransactionId::new([3; 12]))?;
    /// message.add_message_integrity(b"password")?;
    /// message.add_fingerprint()?;
    /// let read = MessageDecoder::new().decode_from_bytes(message.finish())?.unwrap();
    /// assert!(read.check_integrity(b"password").is_ok());
    /// assert_eq!(read.check_integrity(b"another").map_err(|e| e.number()), Err(32));
    /// assert!(read.get_attribute::<MessageIntegrity>().unwrap().check_short_term_credential("password").is_ok());
    /// # Ok(())
    /// # }
    /// ```
    pub fn add_message_integrity(&mut self, key: &[u8]) -> Result<()> {
        self.write(|buffer| calls::append_message_integrity(buffer, key))
    }

    /// Appends FINGERPRINT, over what was written before.
    pub fn add_fingerprint(&mut self) -> Result<()> {
        self.write(calls::append_fingerprint)
    }

    /// The message as it stands.
    pub fn as_bytes(&self) -> &[u8] {
        &self.buffer[..self.size]
    }

    /// The message, for as long as its buffer was lent.
    pub fn finish(self) -> &'b [u8] {
        let buffer: &'b [u8] = self.buffer;
        &buffer[..self.size]
    }

    /// Writes by a call of the library.
    pub(crate) fn write(&mut self, call: impl FnOnce(&mut [u8]) -> Written) -> Result<()> {
        let written = call(self.buffer);
        Error::unless(written.number)?;
        self.size = written.size;
        Ok(())
    }
}
