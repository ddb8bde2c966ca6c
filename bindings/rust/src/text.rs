//! A written text, on the stack.

use core::fmt;
use core::ops::Deref;

/// The longest text that a type has, in bytes.
pub const LONGEST_WRITTEN: usize = 773;

/// A type's text. It is a `str` by dereference, and a strict form.
///
/// ```
/// use typetext::{Scalar, Type};
///
/// let text = Type::tile(&[4, 8], Scalar::F32)?.to_text()?;
/// assert_eq!(&*text, "!cuda_tile.tile<4x8xf32>");
/// assert!(text.ends_with("f32>"));
/// # Ok::<(), typetext::Error>(())
/// ```
#[derive(Clone)]
pub struct Text {
    pub(crate) bytes: [u8; LONGEST_WRITTEN],
    pub(crate) len: usize,
}

impl Text {
    /// The text.
    pub fn as_str(&self) -> &str {
        core::str::from_utf8(&self.bytes[..self.len]).expect("a written text is ASCII")
    }
}

impl Deref for Text {
    type Target = str;

    fn deref(&self) -> &str {
        self.as_str()
    }
}

impl AsRef<str> for Text {
    fn as_ref(&self) -> &str {
        self
    }
}

impl AsRef<[u8]> for Text {
    fn as_ref(&self) -> &[u8] {
        self.as_bytes()
    }
}

impl PartialEq for Text {
    fn eq(&self, other: &Text) -> bool {
        **self == **other
    }
}

impl Eq for Text {}

impl fmt::Display for Text {
    fn fmt(&self, f: &mut fmt::Formatter<'_>) -> fmt::Result {
        f.pad(self)
    }
}

impl fmt::Debug for Text {
    fn fmt(&self, f: &mut fmt::Formatter<'_>) -> fmt::Result {
        fmt::Debug::fmt(&**self, f)
    }
}
