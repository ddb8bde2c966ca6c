//! A plain writer of records. Written from document 01's 'Written text' and 'Records and
//! numbers' alone; where a comment quotes, it quotes those lines.

use crate::answer::{dim_text, listed, padding_name, Kind, Record};
use crate::flat::Flat;
use crate::pieces::{MARK, PREFIX};
use crate::scalar::Scalar;

#[cfg(test)]
mod tests;

/// "The longest written text has 773 bytes."
pub const LONGEST_WRITTEN: usize = 773;

/// The text wherever there is room for it, or refusal 6 or 7.
pub fn whole(flat: &Flat) -> Result<String, u8> {
    let record = flat.record().map_err(|_| 6)?;
    if !normal(&record) {
        return Err(6);
    }
    match has_text(&record) {
        true => Ok(text(&record)),
        false => Err(7),
    }
}

/// The same in a room of this size: order 6, 7, 8.
pub fn in_room(whole: &Result<String, u8>, room: usize) -> Result<String, u8> {
    match whole {
        Ok(text) if text.len() > room => Err(8),
        _ => whole.clone(),
    }
}

fn is_view(kind: Kind) -> bool {
    matches!(kind, Kind::Partition | Kind::GatherScatter | Kind::Strided)
}

/// "everything its kind doesn't use [..] is blank"; the attribute is every kind's. What stands
/// past a length, and lengths over 8, are gone before a `Record` is there.
fn normal(record: &Record) -> bool {
    let kind = record.kind;
    let tensor = is_view(kind) || kind == Kind::TensorView;
    let mapped = matches!(kind, Kind::Partition | Kind::Strided);
    (kind != Kind::Token || record.element == Scalar::I1)
        && (kind == Kind::Tile || !record.pointer)
        && (tensor || kind == Kind::Tile || record.shape.is_empty())
        && (tensor || record.strides.is_empty())
        && (is_view(kind) || record.tile.is_empty())
        && (is_view(kind) || record.padding.is_none())
        && (mapped || record.map.is_empty())
        && (kind == Kind::Strided || record.traversal.is_empty())
        && (kind == Kind::GatherScatter || record.sparse == 0)
}

/// "No text: an empty tile shape, dim map or traversal list where the kind has it; empty strides
/// with a shape; an attribute on a scalar, scalar tile or token."
fn has_text(record: &Record) -> bool {
    let kind = record.kind;
    let mapped = matches!(kind, Kind::Partition | Kind::Strided);
    let markless = match kind {
        Kind::Scalar | Kind::Token => true,
        Kind::Tile => !record.pointer,
        _ => false,
    };
    let strided = is_view(kind) || kind == Kind::TensorView;
    !(is_view(kind) && record.tile.is_empty()
        || mapped && record.map.is_empty()
        || kind == Kind::Strided && record.traversal.is_empty()
        || strided && record.strides.is_empty() && !record.shape.is_empty()
        || markless && record.attribute)
}

/// "`!cuda_tile.` on the outer name and on a tile's pointer, none on the inner tensor view"
fn text(record: &Record) -> String {
    let name = record.element.name();
    let dims = dims(record);
    match record.kind {
        Kind::Scalar => name.to_string(),
        Kind::Token => format!("{PREFIX}token"),
        Kind::Pointer => pointer(record),
        Kind::Tile if record.pointer => format!("{PREFIX}tile<{dims}{}>", pointer(record)),
        Kind::Tile => format!("{PREFIX}tile<{dims}{name}>"),
        Kind::TensorView => format!("{PREFIX}{}", tensor_view(record)),
        Kind::Partition => format!("{PREFIX}partition_view<{}>", clauses(record)),
        Kind::GatherScatter => format!("{PREFIX}gather_scatter_view<{}>", clauses(record)),
        Kind::Strided => format!("{PREFIX}strided_view<{}>", clauses(record)),
    }
}

fn mark(record: &Record) -> &'static str {
    if record.attribute {
        MARK
    } else {
        ""
    }
}

fn pointer(record: &Record) -> String {
    let name = record.element.name();
    format!("{PREFIX}ptr<{name}{}>", mark(record))
}

/// Each followed by `x`.
fn dims(record: &Record) -> String {
    let entries = record.shape.iter().map(|value| dim_text(value) + "x");
    entries.collect()
}

/// "strides present unless empty"
fn tensor_view(record: &Record) -> String {
    let (dims, name, mark) = (dims(record), record.element.name(), mark(record));
    let strides = match record.strides.is_empty() {
        true => String::new(),
        false => format!(", strides=[{}]", listed(&record.strides, dim_text)),
    };
    format!("tensor_view<{dims}{name}{strides}{mark}>")
}

/// "one space after commas between clauses, none inside lists; tile entries parted by `x`"
fn clauses(record: &Record) -> String {
    let narrow = |list: &[i32]| listed(list, i32::to_string);
    let tile = narrow(&record.tile).replace(',', "x");
    let mut clauses = vec![format!("tile=({tile})")];
    if record.kind == Kind::Strided {
        clauses.push(format!("traversal_strides=[{}]", narrow(&record.traversal)));
    }
    if record.padding.is_some() {
        clauses.push(format!("padding_value={}", padding_name(record.padding)));
    }
    clauses.push(tensor_view(record));
    clauses.push(match record.kind {
        Kind::GatherScatter => format!("sparse_dim={}", record.sparse),
        _ => format!("dim_map=[{}]", narrow(&record.map)),
    });
    clauses.join(", ")
}
