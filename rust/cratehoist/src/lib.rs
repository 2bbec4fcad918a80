//! A STUN codec ([RFC 5389]) whose every call is proved, in the names of stun_codec.
//!
//! The work is done by a library written and proved in Rattle; this crate lends it byte slices and gives its answers Rust types.
//! Nothing is allocated and nothing is copied: a message that was read borrows its datagram, and one that is written stands in a
//! buffer of the caller's. `docs/MOVING-FROM-STUN-CODEC.md` sets the two crates side by side.
//!
//! ```
//! use cratehoist::rfc5389::{attributes::Software, methods::BINDING};
//! use cratehoist::{Error, MessageClass, MessageDecoder, MessageEncoder, TransactionId};
//!
//! # fn main() -> Result<(), Error> {
//! // Writes a message
//! let mut buffer = [0; 64];
//! let mut message = MessageEncoder::new(&mut buffer, MessageClass::Request, BINDING, TransactionId::new([3; 12]))?;
//! message.add_attribute(Software::new("foo")?)?;
//! let bytes = message.finish();
//! assert_eq!(
//!     bytes,
//!     [
//!         0, 1, 0, 8, 33, 18, 164, 66, 3, 3, 3, 3, 3, 3, 3, 3, 3, 3, 3, 3, 128, 34, 0, 3,
//!         102, 111, 111, 0
//!     ]
//! );
//!
//! // Reads it
//! let decoded = MessageDecoder::new().decode_from_bytes(bytes)?.map_err(Error::from)?;
//! assert_eq!(decoded.class(), MessageClass::Request);
//! assert_eq!(decoded.method(), BINDING);
//! assert_eq!(decoded.transaction_id(), TransactionId::new([3; 12]));
//! assert_eq!(decoded.get_attribute::<Software>().map(|s| s.description()), Some("foo"));
//! # Ok(())
//! # }
//! ```
//!
//! [RFC 5389]: https://tools.ietf.org/html/rfc5389
#![no_std]
#![warn(missing_docs)]

pub use attribute::{Append, Attribute, AttributeType, RawAttribute};
pub use error::Error;
pub use message::{
    Attributes, BrokenMessage, DecodedMessage, Message, MessageClass, MessageDecoder,
    MessageEncoder, UnknownAttributes,
};
pub use method::Method;
pub use transaction_id::TransactionId;

pub mod calls;
pub mod net;
pub mod rfc5389;
pub mod sys;

mod attribute;
mod error;
mod message;
mod method;
mod transaction_id;

/// The result of a call that can be refused.
pub type Result<T> = core::result::Result<T, Error>;
