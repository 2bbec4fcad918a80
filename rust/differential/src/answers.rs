//! What the calls answer, by docs/SCOPE.md. Both sides of a comparison answer in these.

pub type Id = [u8; 12];

#[derive(Clone, Copy, Debug, PartialEq)]
pub enum Reading {
    Whole {
        class: u8,
        method: u16,
        id: Id,
        count: usize,
    },
    Broken {
        class: u8,
        method: u16,
        id: Id,
        reason: u8,
        place: usize,
    },
    Refused {
        number: u8,
    },
}

impl Reading {
    /// The number told: 0 where whole.
    pub fn number(&self) -> u8 {
        match *self {
            Reading::Whole { .. } => 0,
            Reading::Broken { reason, .. } => reason,
            Reading::Refused { number } => number,
        }
    }
}

#[derive(Clone, Copy, Debug, PartialEq)]
pub enum Walk {
    Attribute {
        place: usize,
        kind: u16,
        value: Part,
        next: usize,
    },
    End {
        place: usize,
    },
    Cut {
        place: usize,
    },
}

/// A part of lent bytes: where it starts and how many bytes it has.
#[derive(Clone, Copy, Debug, PartialEq)]
pub struct Part {
    pub start: usize,
    pub size: usize,
}

impl Part {
    pub const NONE: Part = Part { start: 0, size: 0 };

    pub fn of<'a>(&self, s: &'a [u8]) -> &'a [u8] {
        &s[self.start..self.start + self.size]
    }
}

#[derive(Clone, Copy, Debug, PartialEq)]
pub enum Typed {
    /// Of the IP's 16 bytes an IPv4 address has the first four; the others are zero.
    Address {
        family: u8,
        port: u16,
        ip: [u8; 16],
    },
    Code {
        code: u16,
        reserved: u32,
        phrase: Part,
    },
    Plain {
        part: Part,
    },
    Wrong {
        number: u8,
    },
}

#[derive(Clone, Copy, Debug, PartialEq)]
pub enum Realm {
    Message(Part),
    Configured,
}

/// The new size of the message, or the number of the refusal.
pub type Written = Result<usize, u8>;
