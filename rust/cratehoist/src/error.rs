use core::fmt;

/// Why something was refused: a number of docs/NUMBERS.md, and for a broken message the place of the attribute at fault.
#[derive(Debug, Clone, Copy, PartialEq, Eq, Hash)]
pub struct Error {
    number: u8,
    place: usize,
}
impl Error {
    pub(crate) fn new(number: u8, place: usize) -> Self {
        Error { number, place }
    }

    /// An error of the number, or `Ok` for 0.
    pub(crate) fn unless(number: u8) -> crate::Result<()> {
        match number {
            0 => Ok(()),
            _ => Err(Error::new(number, 0)),
        }
    }

    /// The number.
    pub fn number(&self) -> u8 {
        self.number
    }

    /// For a broken message, where in the datagram the attribute at fault starts; else 0.
    pub fn place(&self) -> usize {
        self.place
    }

    /// What the number is called.
    pub fn title(&self) -> &'static str {
        match self.number {
            1 => "too short",
            2 => "first bits not zero",
            3 => "no cookie",
            4 => "size and length disagree",
            10 => "attribute cut off",
            11 => "wrong size",
            12 => "no such address",
            13 => "no such error code",
            14 => "text not UTF-8",
            15 => "fingerprint differs",
            21 => "no message to add to",
            22 => "no such method",
            23 => "value not allowed",
            24 => "wrong padding",
            25 => "message full",
            26 => "buffer too small",
            31 => "not signed",
            32 => "signature differs",
            _ => "no such number",
        }
    }
}
impl fmt::Display for Error {
    fn fmt(&self, f: &mut fmt::Formatter<'_>) -> fmt::Result {
        write!(f, "{}, {}", self.number, self.title())?;
        match self.place {
            0 => Ok(()),
            place => write!(f, " at place {place}"),
        }
    }
}
impl core::error::Error for Error {}

#[cfg(test)]
mod tests {
    use super::Error;
    use crate::calls;

    #[test]
    fn titles_are_the_library_s() {
        for number in 1..=255 {
            let name = calls::number_name(number);
            let title = Error::new(number, 0).title();
            match name.size {
                0 => assert_eq!(title, "no such number"),
                size => assert_eq!(title.as_bytes(), &name.text[..size]),
            }
        }
    }
}
