//! Refusals.

use crate::raw::Reading;
use core::fmt;

/// Why a text, a type or a sheet was refused.
///
/// | Number | Given exactly when |
/// |---|---|
/// | 1 | the text has over 1,024 bytes |
/// | 2 | a byte is 128 or more; [`place`](Error::place) is the first such |
/// | 3 | ordinary reading: cutile-ir's `Type::parse` returns `None` |
/// | 4 | the type has a list of over 8 entries |
/// | 5 | strict reading: the text isn't a strict form |
/// | 6 | building: the type isn't normal (a list of over 8 entries, or a part that its kind doesn't have) |
/// | 7 | building or writing: the type has no text |
/// | 9 | the sheet has over 65,536 bytes |
///
/// Each is given only where none that comes before it holds; a strict reading tries 5 before 4. The library's number 8, a
/// room shorter than the text, can't come up here, as a [`Text`](crate::Text) has room for every text.
///
/// ```
/// let refused = "tile<f32>junk".parse::<typetext::Type>().unwrap_err();
/// assert_eq!(refused.number(), 5);
/// assert_eq!(refused.to_string(), "refusal 5: not a strict form");
/// ```
#[derive(Debug, Clone, Copy, PartialEq, Eq, Hash)]
pub struct Error {
    number: u8,
    place: usize,
}

impl Error {
    pub(crate) const NOT_NORMAL: Error = Error::of(6);

    pub(crate) const fn of(number: u8) -> Error {
        Error { number, place: 0 }
    }

    /// An error unless the reading is accepted.
    pub(crate) fn check(reading: &Reading) -> Result<(), Error> {
        match reading.refusal {
            0 => Ok(()),
            number => Err(Error {
                number,
                place: reading.place,
            }),
        }
    }

    /// The refusal's number, 1 to 7 or 9.
    pub fn number(&self) -> u8 {
        self.number
    }

    /// For refusal 2, where the first byte of 128 or more stands, from 0.
    pub fn place(&self) -> Option<usize> {
        (self.number == 2).then_some(self.place)
    }

    /// What the number means, in a few words.
    pub fn meaning(&self) -> &'static str {
        match self.number {
            1 => "text over 1,024 bytes",
            2 => "a byte of 128 or more",
            3 => "not a type",
            4 => "a list of over 8 entries",
            5 => "not a strict form",
            6 => "not a normal type",
            7 => "a type without text",
            8 => "room shorter than the text",
            _ => "sheet over 65,536 bytes",
        }
    }
}

impl fmt::Display for Error {
    fn fmt(&self, f: &mut fmt::Formatter<'_>) -> fmt::Result {
        write!(f, "refusal {}: {}", self.number, self.meaning())?;
        match self.place() {
            Some(place) => write!(f, ", at place {place}"),
            None => Ok(()),
        }
    }
}

impl core::error::Error for Error {}
