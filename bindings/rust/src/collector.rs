//! A text that comes in pieces.

use crate::raw::{self, COLLECTOR};
use crate::types::ordinary;
use crate::{Defaults, Error, Type, LONGEST_TEXT};
use core::fmt;

/// Joins a text from its pieces, such as a link delivers them, and reads it as [`Type::parse_ordinary`] does. Where the text
/// was cut makes no difference. It holds the bytes in itself and takes any number of texts one after the other.
///
/// ```
/// use typetext::{Collector, Type};
///
/// let mut link = Collector::new();
/// for piece in ["tile<4", "", "x?xf3", "2>"] {
///     link.feed(piece);
/// }
/// assert_eq!(link.finish(), Type::parse_ordinary("tile<4x?xf32>"));
///
/// link.feed("token"); // fresh again
/// assert!(link.finish().is_ok());
/// ```
// Always in order: it begins as zeros, and the library alone alters it.
#[derive(Clone, PartialEq, Eq)]
pub struct Collector {
    block: [u8; COLLECTOR],
}

impl Collector {
    /// A collector that holds nothing yet.
    pub const fn new() -> Collector {
        Collector {
            block: [0; COLLECTOR],
        }
    }

    /// Takes the next piece, of any number of bytes or none.
    ///
    /// Like a hasher's `update` it can't fail: the library refuses only a collector that isn't in order (its number 6), which
    /// no user of this type can make, and a text that has grown over [`LONGEST_TEXT`] bytes is refused by
    /// [`finish`](Collector::finish), with 1.
    pub fn feed(&mut self, piece: impl AsRef<[u8]>) {
        let refusal = raw::feed(&mut self.block, piece.as_ref());
        assert_eq!(refusal, 0, "a collector is always in order");
    }

    /// Ends the text: what [`Type::parse_ordinary`] returns for all pieces together, refusals 1 to 4 included. Whatever it
    /// returns, the collector is fresh afterwards.
    ///
    /// ```
    /// let mut link = typetext::Collector::new();
    /// link.feed([0x80]);
    /// link.feed([b' '; typetext::LONGEST_TEXT]);
    /// assert_eq!(link.finish().unwrap_err().number(), 1); // too long comes first, wherever a byte of 128 stands
    /// assert_eq!(link, typetext::Collector::new());
    /// ```
    pub fn finish(&mut self) -> Result<(Type, Defaults), Error> {
        ordinary(&raw::end(&mut self.block))
    }

    /// The bytes so far; None once there were too many.
    fn bytes(&self) -> Option<&[u8]> {
        let (room, [high, low, over]) = self.block.split_last_chunk().expect("a block is longer");
        let len = usize::from(u16::from_be_bytes([*high, *low])).min(LONGEST_TEXT);
        (*over == 0).then_some(&room[..len])
    }
}

impl Default for Collector {
    fn default() -> Collector {
        Collector::new()
    }
}

/// The bytes so far, escaped, or that there were too many.
impl fmt::Debug for Collector {
    fn fmt(&self, f: &mut fmt::Formatter<'_>) -> fmt::Result {
        match self.bytes() {
            Some(bytes) => write!(f, "Collector(\"{}\")", bytes.escape_ascii()),
            None => f.write_str("Collector(over-full)"),
        }
    }
}
