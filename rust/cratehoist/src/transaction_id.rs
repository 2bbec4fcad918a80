use crate::calls::Id;
use core::fmt;

/// Transaction ID: twelve bytes.
#[derive(Clone, Copy, PartialEq, Eq, Hash, PartialOrd, Ord)]
pub struct TransactionId([u8; 12]);
impl TransactionId {
    /// The ID of these bytes.
    pub fn new(id: [u8; 12]) -> Self {
        TransactionId(id)
    }

    /// Its bytes.
    pub fn as_bytes(&self) -> &[u8; 12] {
        &self.0
    }

    pub(crate) fn lent(self) -> Id {
        Id { bytes: self.0 }
    }
}
impl fmt::Debug for TransactionId {
    fn fmt(&self, f: &mut fmt::Formatter) -> fmt::Result {
        write!(f, "TransactionId(0x")?;
        for b in self.as_ref() {
            write!(f, "{b:02X}")?;
        }
        write!(f, ")")
    }
}
impl AsRef<[u8]> for TransactionId {
    fn as_ref(&self) -> &[u8] {
        &self.0[..]
    }
}
