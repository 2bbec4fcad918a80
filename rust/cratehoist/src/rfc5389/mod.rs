//! Method, error codes and attributes of [RFC 5389](https://tools.ietf.org/html/rfc5389).
use crate::attribute::{Attribute as Read, RawAttribute};
use crate::Message;
use attributes::*;

pub mod attributes;
pub mod errors;
pub mod methods;

macro_rules! attributes {
    ($($kind:ident $(<$life:lifetime>)?),*) => {
        /// An attribute of RFC 5389.
        #[allow(missing_docs)]
        #[derive(Debug, Clone, Copy, PartialEq, Eq)]
        pub enum Attribute<'a> {
            $($kind($kind $(<$life>)?),)*
        }
        impl<'a> Attribute<'a> {
            /// The attribute that an element of a message is, or `None` where its type is unknown.
            pub fn known(message: &Message<'a>, raw: RawAttribute<'a>) -> Option<Self> {
                match raw.get_type().as_u16() {
                    $($kind::CODEPOINT => $kind::from_raw(message, raw).map(Attribute::$kind),)*
                    _ => None,
                }
            }
        }
        $(impl<'a> From<$kind $(<$life>)?> for Attribute<'a> {
            fn from(f: $kind $(<$life>)?) -> Self {
                Attribute::$kind(f)
            }
        })*
    };
}
attributes!(
    MappedAddress,
    Username<'a>,
    MessageIntegrity<'a>,
    ErrorCode<'a>,
    UnknownAttributes<'a>,
    Realm<'a>,
    Nonce<'a>,
    XorMappedAddress,
    Software<'a>,
    AlternateServer,
    Fingerprint
);
