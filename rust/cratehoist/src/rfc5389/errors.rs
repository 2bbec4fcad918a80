//! The error codes that RFC 5389 names.
use crate::rfc5389::attributes::ErrorCode;

macro_rules! errors {
    ($($kind:ident $code:literal $phrase:literal),*) => {$(
        #[doc = concat!("`", $code, "`: \"", $phrase, "\".")]
        #[derive(Debug, Clone, Copy, PartialEq, Eq, Hash)]
        pub struct $kind;
        impl $kind {
            /// The codepoint of the error.
            pub const CODEPOINT: u16 = $code;
        }
        impl From<$kind> for ErrorCode<'static> {
            fn from(_: $kind) -> Self {
                ErrorCode::named($code, $phrase)
            }
        }
    )*};
}
errors!(
    TryAlternate 300 "Try Alternate",
    BadRequest 400 "Bad Request",
    Unauthorized 401 "Unauthorized",
    UnknownAttribute 420 "Unknown Attribute",
    StaleNonce 438 "Stale Nonce",
    ServerError 500 "Server Error"
);
