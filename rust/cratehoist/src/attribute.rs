use crate::calls::Step;
use crate::message::MessageEncoder;
use crate::{Message, Result};

/// An attribute that can be read from a message.
pub trait Attribute<'a>: Sized {
    /// The type of the attribute.
    const CODEPOINT: u16;

    /// What the value that stands at a step of the walk says, or `None` where the step is of another type.
    fn from_raw(message: &Message<'a>, raw: RawAttribute<'a>) -> Option<Self>;
}

/// An attribute that can be appended to a message.
pub trait Append {
    /// Appends it; a refusal changes nothing.
    fn append_to(&self, message: &mut MessageEncoder<'_>) -> Result<()>;
}

/// Attribute type.
#[derive(Debug, Clone, Copy, PartialOrd, Ord, PartialEq, Eq, Hash)]
#[repr(transparent)]
pub struct AttributeType([u8; 2]);
impl AttributeType {
    /// The type of a number.
    pub const fn new(codepoint: u16) -> Self {
        AttributeType(codepoint.to_be_bytes())
    }

    /// The number.
    pub const fn as_u16(self) -> u16 {
        u16::from_be_bytes(self.0)
    }

    /// Whether a reader that doesn't know it must not go on.
    pub fn is_comprehension_required(self) -> bool {
        self.as_u16() < 0x8000
    }

    /// Whether a reader that doesn't know it may pass it over.
    pub fn is_comprehension_optional(self) -> bool {
        !self.is_comprehension_required()
    }

    /// The types that bytes hold, two each; a byte that is left over is none.
    pub(crate) fn list(bytes: &[u8]) -> &[Self] {
        // SAFETY: a type is its two bytes (repr(transparent)), of alignment 1, and any two bytes are one.
        unsafe { core::slice::from_raw_parts(bytes.as_ptr().cast(), bytes.len() / 2) }
    }

    /// The bytes of types.
    pub(crate) fn bytes(types: &[Self]) -> &[u8] {
        // SAFETY: as above.
        unsafe { core::slice::from_raw_parts(types.as_ptr().cast(), types.len() * 2) }
    }
}
impl From<u16> for AttributeType {
    fn from(f: u16) -> Self {
        Self::new(f)
    }
}

/// An attribute as it stands in a datagram: its type, its value and its padding.
#[derive(Debug, Clone, Copy, PartialEq, Eq)]
pub struct RawAttribute<'a> {
    attr_type: AttributeType,
    value: &'a [u8],
    padding: &'a [u8],
    place: usize,
}
impl<'a> RawAttribute<'a> {
    /// An attribute of any type with padding of zeros.
    pub fn new(attr_type: AttributeType, value: &'a [u8]) -> Self {
        let padding = &[0; 3][..(4 - value.len() % 4) % 4];
        RawAttribute {
            attr_type,
            value,
            padding,
            place: 0,
        }
    }

    /// The type.
    pub fn get_type(&self) -> AttributeType {
        self.attr_type
    }

    /// The value.
    pub fn value(&self) -> &'a [u8] {
        self.value
    }

    /// The padding, as it was written.
    pub fn padding(&self) -> &'a [u8] {
        self.padding
    }

    /// Where it starts in its datagram.
    pub fn place(&self) -> usize {
        self.place
    }

    /// The attribute at a step of the walk over the datagram.
    pub(crate) fn at(datagram: &'a [u8], step: Step) -> Self {
        let behind = step.value + step.size;
        RawAttribute {
            attr_type: AttributeType::new(step.kind),
            value: &datagram[step.value..behind],
            padding: &datagram[behind..step.next],
            place: step.place,
        }
    }
}
/// Written as it is, with no rule applied.
impl Append for RawAttribute<'_> {
    fn append_to(&self, message: &mut MessageEncoder<'_>) -> Result<()> {
        message.append_raw(self.attr_type, self.value, self.padding)
    }
}
