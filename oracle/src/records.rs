//! Random records from a seed: normal ones with a text, normal ones without, and odd ones.

use crate::answer::{Kind, Record, DYNAMIC};
use crate::dice::Dice;
use crate::flat::{Flat, KINDS, PADDINGS};
use crate::scalar::ALL;

/// A record with a text; no list is longer than `most`.
pub fn with_text(dice: &mut Dice, most: usize) -> Record {
    let kind = KINDS[dice.below(KINDS.len())];
    let mut record = Record::blank(kind);
    if kind == Kind::Token {
        return record;
    }
    record.element = ALL[dice.below(ALL.len())].0;
    let view = matches!(kind, Kind::Partition | Kind::GatherScatter | Kind::Strided);
    let tensor = view || kind == Kind::TensorView;
    if tensor || kind == Kind::Tile {
        record.shape = list(dice, 0, most, wide);
    }
    if tensor {
        let least = usize::from(!record.shape.is_empty());
        record.strides = list(dice, least, most, wide);
    }
    if view {
        record.tile = list(dice, 1, most, narrow);
        record.padding = PADDINGS[dice.below(PADDINGS.len())];
    }
    if matches!(kind, Kind::Partition | Kind::Strided) {
        record.map = list(dice, 1, most, narrow);
    }
    match kind {
        Kind::GatherScatter => record.sparse = narrow(dice),
        Kind::Strided => record.traversal = list(dice, 1, most, narrow),
        Kind::Tile => record.pointer = dice.once_in(2),
        _ => {}
    }
    let marked = tensor || kind == Kind::Pointer || record.pointer;
    record.attribute = marked && dice.once_in(3);
    record
}

/// Mostly short, now and then at a capacity's edge.
fn list<T>(dice: &mut Dice, least: usize, most: usize, entry: fn(&mut Dice) -> T) -> Vec<T> {
    let edge = if dice.once_in(4) { most } else { 4 };
    let count = match dice.below(8) {
        0 => least,
        1 => edge,
        _ => dice.from(least, edge),
    };
    (0..count).map(|_| entry(dice)).collect()
}

/// Any number of 64 bits: small, at an edge, of any size, or DYNAMIC.
fn wide(dice: &mut Dice) -> i64 {
    const EDGES: [i64; 8] = [
        i64::MAX,
        i64::MIN + 1,
        i64::MAX - 1,
        i32::MAX as i64,
        i32::MAX as i64 + 1,
        i32::MIN as i64,
        i32::MIN as i64 - 1,
        1_000_000_000_000_000_000,
    ];
    match dice.below(8) {
        0 | 1 => DYNAMIC,
        2 => EDGES[dice.below(EDGES.len())],
        3 => any_size(dice),
        _ => dice.from(0, 20) as i64 - 4,
    }
}

/// Any number of 32 bits.
fn narrow(dice: &mut Dice) -> i32 {
    const EDGES: [i32; 5] = [
        i32::MAX,
        i32::MIN,
        i32::MAX - 1,
        i32::MIN + 1,
        1_000_000_000,
    ];
    match dice.below(8) {
        0 => EDGES[dice.below(EDGES.len())],
        1 => any_size(dice) as i32,
        _ => dice.from(0, 20) as i32 - 4,
    }
}

/// As many binary digits as the dice say, so that every count of decimal ones occurs.
fn any_size(dice: &mut Dice) -> i64 {
    let size = (dice.number() >> dice.from(1, 63)) as i64;
    match dice.once_in(2) {
        true => -size,
        false => size,
    }
}

fn flat(record: &Record) -> Flat {
    Flat::of(record).expect("no list is longer than 8")
}

/// A normal record with a text, as the C face takes it.
pub fn normal(dice: &mut Dice) -> Flat {
    flat(&with_text(dice, 8))
}

/// A normal record that mostly has no text: a list that must not be empty is, or there is a
/// mark where none can stand.
pub fn without_text(dice: &mut Dice) -> Flat {
    let mut record = with_text(dice, 8);
    match record.kind {
        Kind::Scalar | Kind::Token => record.attribute = true,
        Kind::Tile => (record.pointer, record.attribute) = (false, true),
        _ => {}
    }
    for _ in 0..dice.from(1, 2) {
        match dice.below(4) {
            0 => record.strides.clear(),
            1 => record.tile.clear(),
            2 => record.map.clear(),
            _ => record.traversal.clear(),
        }
    }
    flat(&record)
}

/// A record with a text, and then one or two fields set to anything.
pub fn odd(dice: &mut Dice) -> Flat {
    let mut flat = normal(dice);
    for _ in 0..dice.from(1, 2) {
        match dice.below(4) {
            0 => odd_length(dice, &mut flat),
            1 => odd_entry(dice, &mut flat),
            2 => odd_number(dice, &mut flat),
            _ => other_field(dice, &mut flat),
        }
    }
    flat
}

/// One more, one less, past the capacity, or far past it.
fn odd_length(dice: &mut Dice, flat: &mut Flat) {
    let length = match dice.below(5) {
        0 => &mut flat.shape_len,
        1 => &mut flat.strides_len,
        2 => &mut flat.tile_len,
        3 => &mut flat.map_len,
        _ => &mut flat.traversal_len,
    };
    *length = match dice.below(6) {
        0 => 9,
        1 => usize::MAX - dice.below(9),
        2 => dice.from(0, 300),
        3 => length.wrapping_sub(1),
        4 => (1 << 32) + dice.below(9),
        _ => length.wrapping_add(1),
    };
}

/// An entry anywhere, past the length or not.
fn odd_entry(dice: &mut Dice, flat: &mut Flat) {
    let place = dice.below(8);
    match dice.below(5) {
        0 => flat.shape[place] = wide(dice),
        1 => flat.strides[place] = wide(dice),
        2 => flat.tile[place] = narrow(dice),
        3 => flat.map[place] = narrow(dice),
        _ => flat.traversal[place] = narrow(dice),
    }
}

/// A number at its range's edge, past it, or any byte.
fn odd_number(dice: &mut Dice, flat: &mut Flat) {
    let (field, count) = match dice.below(5) {
        0 => (&mut flat.kind, KINDS.len()),
        1 => (&mut flat.element, ALL.len()),
        2 => (&mut flat.padding, PADDINGS.len()),
        3 => (&mut flat.pointer, 2),
        _ => (&mut flat.attribute, 2),
    };
    *field = match dice.once_in(3) {
        true => dice.below(256) as u8,
        false => (count - dice.below(2)) as u8,
    };
}

/// A field that the kind may not use.
fn other_field(dice: &mut Dice, flat: &mut Flat) {
    match dice.below(9) {
        0 => flat.shape_len = 1,
        1 => flat.strides_len = 1,
        2 => flat.tile_len = 1,
        3 => flat.map_len = 1,
        4 => flat.traversal_len = 1,
        5 => flat.sparse = narrow(dice),
        6 => flat.padding = dice.below(PADDINGS.len()) as u8,
        7 => flat.pointer ^= 1,
        _ => flat.element = dice.below(ALL.len()) as u8,
    }
}

#[cfg(test)]
mod tests {
    use super::*;
    use crate::write::whole;

    /// How many of 4,000 have a text, aren't normal, or have none.
    fn counted(make: fn(&mut Dice) -> Flat) -> [usize; 3] {
        let mut dice = Dice::new(3);
        let mut counts = [0; 3];
        for _ in 0..4000 {
            let place = match whole(&make(&mut dice)) {
                Ok(_) => 0,
                Err(number) => usize::from(number) - 5,
            };
            counts[place] += 1;
        }
        counts
    }

    #[test]
    fn each_sort_of_record_is_what_it_says() {
        assert_eq!(counted(normal), [4000, 0, 0]);
        let [_, not_normal, no_text] = counted(without_text);
        assert!(not_normal == 0 && no_text > 2000);
        let [written, not_normal, no_text] = counted(odd);
        assert!(written > 100 && not_normal > 2000 && no_text > 5);
    }
}
