//! A type: reading, looking at it, writing.

use crate::raw::{self, Note, Reading, Record};
use crate::{Error, Kind, Padding, Scalar, Text, LONGEST_WRITTEN};
use core::fmt;
use core::str::FromStr;

/// A type, as a text tells it or as it was built. It holds at most [`CAPACITY`](crate::CAPACITY) entries in each list.
// Always normal, with numbers that are some record's: a reader makes nothing else, and `build` asks the writer.
#[derive(Clone, Copy, PartialEq, Eq, Hash)]
pub struct Type(pub(crate) Record);

/// The entries and clauses that an ordinary reading made up. Where all are zero, there are none, but the text may still say
/// something else than the type: a misspelt clause, a misspelt padding and what stands behind the type are passed over and
/// not counted. Only [`Type::parse_strict`] vouches for the whole text.
///
/// ```
/// use typetext::Type;
///
/// // `padding=zero` in place of `padding_value=zero`, and a comment.
/// let text = "partition_view<tile=(2), padding=zero, tensor_view<4xf32, strides=[1]>, dim_map=[0]> # north radar";
/// let (view, defaults) = Type::parse_ordinary(text)?;
/// assert!(defaults.is_zero());
/// assert_eq!(view.padding(), None);
/// assert_eq!(Type::parse_strict(text).unwrap_err().number(), 5);
/// # Ok::<(), typetext::Error>(())
/// ```
#[derive(Debug, Clone, Copy, Default, PartialEq, Eq, Hash)]
pub struct Defaults {
    /// Shape and stride entries that are neither `?` nor readable, set to [`DYNAMIC`](crate::DYNAMIC).
    pub shape_or_strides: usize,
    /// Tile-shape entries set to 1 as unreadable.
    pub tile: usize,
    /// Dim-map, traversal and sparse entries set to 0 as unreadable.
    pub lists: usize,
    /// Whole clauses filled in: strides, dim map, traversal strides, sparse dimension.
    pub clauses: usize,
}

impl Defaults {
    /// Whether no entry and no clause was made up; see [`Defaults`] for what that leaves open.
    pub fn is_zero(&self) -> bool {
        *self == Defaults::default()
    }

    fn of(note: &Note) -> Defaults {
        Defaults {
            shape_or_strides: note.a,
            tile: note.b,
            lists: note.c,
            clauses: note.d,
        }
    }
}

/// What an ordinary reading says.
pub(crate) fn ordinary(reading: &Reading) -> Result<(Type, Defaults), Error> {
    Error::check(reading)?;
    Ok((Type(reading.value), Defaults::of(&reading.note)))
}

impl Type {
    /// Reads what cutile-ir's `Type::parse` reads, and counts the entries and clauses that it made up, as [`Defaults`] has
    /// them; refusals 1 to 4.
    ///
    /// ```
    /// let (tile, defaults) = typetext::Type::parse_ordinary("tile<4xsixxf32> and more")?;
    /// assert_eq!(tile.shape(), [4, typetext::DYNAMIC, typetext::DYNAMIC]);
    /// assert_eq!(defaults.shape_or_strides, 2);
    /// # Ok::<(), typetext::Error>(())
    /// ```
    pub fn parse_ordinary(text: impl AsRef<[u8]>) -> Result<(Type, Defaults), Error> {
        ordinary(&raw::parse(text.as_ref()))
    }

    /// Reads a strict form, in which no byte is without meaning and no default is taken: the text says this type and nothing
    /// else. Refusals 1, 2, 5 and 4. An ordinary reading of the same text gives the same type.
    ///
    /// ```
    /// use typetext::Type;
    ///
    /// assert!(Type::parse_strict(b"tile<4x8xf32>").is_ok());
    /// assert_eq!(Type::parse_strict("tile<4x8xf32> ").unwrap_err().number(), 5);
    /// ```
    pub fn parse_strict(text: impl AsRef<[u8]>) -> Result<Type, Error> {
        let reading = raw::parse_strict(text.as_ref());
        Error::check(&reading)?;
        Ok(Type(reading.value))
    }

    /// The text of this type; reading it strictly gives this type again.
    ///
    /// Refusal 7: the type has no text. Such a type comes only from [`parse_ordinary`](Type::parse_ordinary): a scalar, a
    /// tile of scalars or a token with the attribute.
    ///
    /// ```
    /// use typetext::Type;
    ///
    /// let (odd, _) = Type::parse_ordinary("token, #cuda_tile.ptr_attr<none>")?;
    /// assert_eq!(odd.to_text().unwrap_err().number(), 7);
    /// # Ok::<(), typetext::Error>(())
    /// ```
    pub fn to_text(&self) -> Result<Text, Error> {
        let mut bytes = [0; LONGEST_WRITTEN];
        let written = raw::write(&self.0, &mut bytes);
        match written.refusal {
            0 => Ok(Text {
                bytes,
                len: written.len,
            }),
            number => Err(Error::of(number)),
        }
    }

    /// What the type is.
    pub fn kind(&self) -> Kind {
        Kind::ALL[usize::from(self.0.kind)]
    }

    /// What its entries are; for a pointer and a tile of pointers, what is pointed to. A token has none.
    pub fn element(&self) -> Option<Scalar> {
        (self.kind() != Kind::Token).then(|| Scalar::ALL[usize::from(self.0.element)])
    }

    /// The shape of a tile or tensor view, or of the tensor view within a view; else empty.
    pub fn shape(&self) -> &[i64] {
        &self.0.shape[..self.0.shape_len]
    }

    /// The strides of a tensor view, or of the one within a view; else empty. There can be more or fewer than dimensions.
    pub fn strides(&self) -> &[i64] {
        &self.0.strides[..self.0.strides_len]
    }

    /// A view's tile shape; else empty.
    pub fn tile_shape(&self) -> &[i32] {
        &self.0.tile[..self.0.tile_len]
    }

    /// The `dim_map` of a partition or strided view; else empty.
    pub fn dim_map(&self) -> &[i32] {
        &self.0.map[..self.0.map_len]
    }

    /// A strided view's `traversal_strides`; else empty.
    pub fn traversal_strides(&self) -> &[i32] {
        &self.0.traversal[..self.0.traversal_len]
    }

    /// A gather-scatter view's `sparse_dim`.
    pub fn sparse_dim(&self) -> Option<i32> {
        (self.kind() == Kind::GatherScatter).then_some(self.0.sparse)
    }

    /// What a view yields outside its tensor, if it says so.
    pub fn padding(&self) -> Option<Padding> {
        let from_one = usize::from(self.0.padding).checked_sub(1)?;
        Some(Padding::ALL[from_one])
    }

    /// Whether this is a pointer or a tile of pointers.
    pub fn is_pointer(&self) -> bool {
        self.kind() == Kind::Pointer || self.0.pointer == 1
    }

    /// Whether the type has the pointer attribute, `#cuda_tile.ptr_attr<none>`.
    pub fn has_attribute(&self) -> bool {
        self.0.attribute == 1
    }
}

/// Strictly, as [`Type::parse_strict`].
impl FromStr for Type {
    type Err = Error;

    fn from_str(text: &str) -> Result<Type, Error> {
        Type::parse_strict(text)
    }
}

/// Writes the type's text. A type without text, which comes only from [`Type::parse_ordinary`], gives [`fmt::Error`], on
/// which `to_string` panics: use [`Type::to_text`] for a type that was read so.
impl fmt::Display for Type {
    fn fmt(&self, f: &mut fmt::Formatter<'_>) -> fmt::Result {
        let text = self.to_text().map_err(|_| fmt::Error)?;
        f.pad(&text)
    }
}

/// Field by field, for every type.
impl fmt::Debug for Type {
    fn fmt(&self, f: &mut fmt::Formatter<'_>) -> fmt::Result {
        f.debug_struct("Type")
            .field("kind", &self.kind())
            .field("element", &self.element())
            .field("is_pointer", &self.is_pointer())
            .field("has_attribute", &self.has_attribute())
            .field("shape", &self.shape())
            .field("strides", &self.strides())
            .field("tile_shape", &self.tile_shape())
            .field("dim_map", &self.dim_map())
            .field("traversal_strides", &self.traversal_strides())
            .field("sparse_dim", &self.sparse_dim())
            .field("padding", &self.padding())
            .finish()
    }
}
