//! A record as the C face takes it (docs/ABI.md): lists of eight places with a length, numbers
//! for the rest. It can hold what no record is.

use crate::answer::{Kind, Padding, Record, LONGEST_LIST};
use crate::scalar::{Scalar, ALL};

/// The kinds by number.
pub const KINDS: [Kind; 8] = [
    Kind::Scalar,
    Kind::Pointer,
    Kind::Tile,
    Kind::TensorView,
    Kind::Partition,
    Kind::GatherScatter,
    Kind::Strided,
    Kind::Token,
];

/// The paddings by number.
pub const PADDINGS: [Option<Padding>; 6] = [
    None,
    Some(Padding::Zero),
    Some(Padding::NegZero),
    Some(Padding::Nan),
    Some(Padding::PosInf),
    Some(Padding::NegInf),
];

#[repr(C)]
#[derive(Debug, Clone, Copy, Default, PartialEq, Eq)]
pub struct Flat {
    pub shape_len: usize,
    pub strides_len: usize,
    pub tile_len: usize,
    pub map_len: usize,
    pub traversal_len: usize,
    pub shape: [i64; 8],
    pub strides: [i64; 8],
    pub tile: [i32; 8],
    pub map: [i32; 8],
    pub traversal: [i32; 8],
    pub sparse: i32,
    pub kind: u8,
    pub element: u8,
    pub padding: u8,
    pub pointer: u8,
    pub attribute: u8,
}

impl Flat {
    /// None where a list is too long for it.
    pub fn of(record: &Record) -> Option<Flat> {
        let place = |found: Option<usize>| found.map(|place| place as u8);
        Some(Flat {
            shape_len: record.shape.len(),
            strides_len: record.strides.len(),
            tile_len: record.tile.len(),
            map_len: record.map.len(),
            traversal_len: record.traversal.len(),
            shape: filled(&record.shape)?,
            strides: filled(&record.strides)?,
            tile: filled(&record.tile)?,
            map: filled(&record.map)?,
            traversal: filled(&record.traversal)?,
            sparse: record.sparse,
            kind: place(KINDS.iter().position(|kind| *kind == record.kind))?,
            element: place(ALL.iter().position(|one| one.0 == record.element))?,
            padding: place(PADDINGS.iter().position(|one| *one == record.padding))?,
            pointer: u8::from(record.pointer),
            attribute: u8::from(record.attribute),
        })
    }

    /// An error where this is no record at all, or an entry past a length isn't zero.
    pub fn record(&self) -> Result<Record, String> {
        Ok(Record {
            kind: *KINDS.get(usize::from(self.kind)).ok_or("no such kind")?,
            element: element(self.element)?,
            pointer: flag(self.pointer)?,
            attribute: flag(self.attribute)?,
            shape: listed(&self.shape, self.shape_len)?,
            strides: listed(&self.strides, self.strides_len)?,
            tile: listed(&self.tile, self.tile_len)?,
            map: listed(&self.map, self.map_len)?,
            traversal: listed(&self.traversal, self.traversal_len)?,
            sparse: self.sparse,
            padding: *PADDINGS
                .get(usize::from(self.padding))
                .ok_or("no such padding")?,
        })
    }
}

fn element(number: u8) -> Result<Scalar, String> {
    let found = ALL.get(usize::from(number)).ok_or("no such scalar")?;
    Ok(found.0)
}

fn flag(byte: u8) -> Result<bool, String> {
    match byte {
        0 => Ok(false),
        1 => Ok(true),
        _ => Err(format!("a flag is {byte}")),
    }
}

/// Zero past the list's length.
fn filled<T: Copy + Default>(list: &[T]) -> Option<[T; 8]> {
    let mut all = [T::default(); LONGEST_LIST];
    all.get_mut(..list.len())?.copy_from_slice(list);
    Some(all)
}

/// The entries of a list; what stands past its length must be zero.
fn listed<T: Copy + Default + PartialEq>(all: &[T; 8], len: usize) -> Result<Vec<T>, String> {
    let (used, past) = all
        .split_at_checked(len)
        .ok_or("a list has over eight entries")?;
    if past.iter().any(|value| *value != T::default()) {
        return Err("an entry past a list's length isn't zero".to_string());
    }
    Ok(used.to_vec())
}
