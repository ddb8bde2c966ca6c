//! A sheet of texts, one a row.

use crate::raw;
use crate::types::ordinary;
use crate::{Defaults, Error, Type};
use core::iter::FusedIterator;

/// A sheet of texts, lent: each row ends with a line feed, which is no part of it, and a last row without one counts if it
/// has a byte. The rows are read as [`Type::parse_ordinary`] reads, an empty one too.
///
/// ```
/// use typetext::Sheet;
///
/// let sheet = Sheet::new("f32\ntile<f32\ntile<xxf32>")?;
/// let totals = sheet.totals();
/// assert_eq!((totals.rows, totals.accepted, totals.no_type), (3, 2, 1));
/// assert_eq!(totals.defaults.shape_or_strides, 2);
///
/// for row in sheet {
///     if let Err(refusal) = row.reading {
///         assert_eq!((row.bytes, refusal.number()), (&b"tile<f32"[..], 3));
///     }
/// }
/// # Ok::<(), typetext::Error>(())
/// ```
#[derive(Debug, Clone, Copy, PartialEq, Eq)]
pub struct Sheet<'s> {
    // At most `LONGEST_SHEET` of them.
    bytes: &'s [u8],
}

impl<'s> Sheet<'s> {
    /// The sheet of these bytes; refusal 9, if there are over [`LONGEST_SHEET`](crate::LONGEST_SHEET).
    ///
    /// ```
    /// use typetext::{Sheet, LONGEST_SHEET};
    ///
    /// let bytes = [b'\n'; LONGEST_SHEET + 1];
    /// assert_eq!(Sheet::new(&bytes).unwrap_err().number(), 9);
    /// assert_eq!(Sheet::new(&bytes[1..])?.totals().rows, LONGEST_SHEET);
    /// # Ok::<(), typetext::Error>(())
    /// ```
    pub fn new<B: AsRef<[u8]> + ?Sized>(bytes: &'s B) -> Result<Sheet<'s>, Error> {
        let bytes = bytes.as_ref();
        match raw::next_row(bytes, 0).refusal {
            0 => Ok(Sheet { bytes }),
            number => Err(Error::of(number)),
        }
    }

    /// What there is on the sheet in all, by one call of the library.
    pub fn totals(&self) -> Totals {
        let totals = raw::totals(self.bytes);
        Totals {
            rows: totals.rows,
            accepted: totals.accepted,
            too_long: totals.refused_1,
            not_ascii: totals.refused_2,
            no_type: totals.refused_3,
            list_too_long: totals.refused_4,
            defaults: Defaults {
                shape_or_strides: totals.a,
                tile: totals.b,
                lists: totals.c,
                clauses: totals.d,
            },
        }
    }

    /// Row after row, each with its reading.
    pub fn rows(&self) -> Rows<'s> {
        Rows {
            sheet: self.bytes,
            place: 0,
        }
    }
}

impl<'s> IntoIterator for Sheet<'s> {
    type Item = Row<'s>;
    type IntoIter = Rows<'s>;

    fn into_iter(self) -> Rows<'s> {
        self.rows()
    }
}

/// The totals of a sheet. `rows` is the sum of the five numbers after it.
#[derive(Debug, Clone, Copy, Default, PartialEq, Eq, Hash)]
pub struct Totals {
    /// All rows.
    pub rows: usize,
    /// Rows that are accepted.
    pub accepted: usize,
    /// Rows that are refused with 1: over [`LONGEST_TEXT`](crate::LONGEST_TEXT) bytes.
    pub too_long: usize,
    /// Rows that are refused with 2: a byte of 128 or more.
    pub not_ascii: usize,
    /// Rows that are refused with 3: not a type.
    pub no_type: usize,
    /// Rows that are refused with 4: a list of over [`CAPACITY`](crate::CAPACITY) entries.
    pub list_too_long: usize,
    /// The entries and clauses that the readings of all rows made up.
    pub defaults: Defaults,
}

/// A row of a sheet.
#[derive(Debug, Clone, Copy, PartialEq, Eq)]
pub struct Row<'s> {
    /// Its bytes, without the line feed; a part of the sheet.
    pub bytes: &'s [u8],
    /// What [`Type::parse_ordinary`] returns for them.
    pub reading: Result<(Type, Defaults), Error>,
}

/// The rows of a sheet, one after the other; [`Sheet::rows`] gives it.
#[derive(Debug, Clone)]
pub struct Rows<'s> {
    sheet: &'s [u8],
    // Where the next row begins: the library says it.
    place: usize,
}

impl<'s> Iterator for Rows<'s> {
    type Item = Row<'s>;

    fn next(&mut self) -> Option<Row<'s>> {
        let row = raw::next_row(self.sheet, self.place);
        if row.found == 0 {
            return None;
        }
        self.place = row.next;
        let bytes = &self.sheet[row.first..row.end];
        let reading = ordinary(&raw::parse(bytes));
        Some(Row { bytes, reading })
    }

    /// A row has a byte or its line feed.
    fn size_hint(&self) -> (usize, Option<usize>) {
        let left = self.sheet.len() - self.place;
        (left.min(1), Some(left))
    }
}

/// Where there is no row, the place stays.
impl FusedIterator for Rows<'_> {}
