use crate::rfc5389::methods::BINDING;
use crate::{Error, Result};
use core::fmt;

/// STUN method: a number of twelve bits.
#[derive(Debug, Clone, Copy, PartialEq, Eq, Hash, PartialOrd, Ord)]
pub struct Method(pub(crate) u16);
impl Method {
    /// The method of a number; above `0xFFF` it is refused by 22.
    ///
    /// ```
    /// use cratehoist::Method;
    /// assert_eq!(Method::new(0xFFF).map(Method::as_u16), Ok(0xFFF));
    /// assert_eq!(Method::new(0x1000).map_err(|e| e.number()), Err(22));
    /// ```
    pub fn new(codepoint: u16) -> Result<Self> {
        match codepoint {
            0..=0xFFF => Ok(Method(codepoint)),
            _ => Err(Error::new(22, 0)),
        }
    }

    /// The number.
    pub fn as_u16(self) -> u16 {
        self.0
    }
}
impl From<u8> for Method {
    fn from(f: u8) -> Self {
        Method(u16::from(f))
    }
}
impl fmt::Display for Method {
    fn fmt(&self, f: &mut fmt::Formatter<'_>) -> fmt::Result {
        match *self {
            BINDING => write!(f, "binding"),
            Method(code) => write!(f, "unknown ({code})"),
        }
    }
}
