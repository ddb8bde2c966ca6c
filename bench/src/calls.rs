//! The calls that are measured, each on one text or record. An answer is made where the call
//! leaves it, looked at by address and dropped: nothing is copied for the measure's sake.

use crate::flat::Flat;
use crate::ir::types::Type;
use crate::ours::with_library::{parse, parse_strict, totals};
use crate::ours::write as write_in;
use crate::sheets::split;
use std::hint::black_box;

/// Room for the longest text that the writer makes.
pub type Room = [u8; 773];

/// One plain pass over the bytes.
pub fn floor(text: &str) {
    let count = text.bytes().filter(|byte| *byte == b'<').count();
    black_box(count);
}

/// It allocates, so that dropping what it returns is part of its use.
pub fn theirs(text: &str) {
    black_box(&Type::parse(text));
}

pub fn ordinary(text: &str) {
    black_box(&parse(text.as_bytes()));
}

pub fn strict(text: &str) {
    black_box(&parse_strict(text.as_bytes()));
}

pub fn write(record: &Flat, room: &mut Room) {
    let end = room.len();
    black_box(&write_in(record, room, 0, end));
    black_box(room);
}

/// A sheet, as a Rust user would count it.
pub fn theirs_counted(sheet: &str) {
    black_box(theirs_rows(sheet));
}

pub fn counted(sheet: &str) {
    black_box(&totals(sheet.as_bytes()));
}

// What they answer, for the check.

/// Rows that `Type::parse` accepts and rows that it refuses.
pub fn theirs_rows(sheet: &str) -> (usize, usize) {
    let (mut accepted, mut refused) = (0, 0);
    for row in split(sheet) {
        match Type::parse(row) {
            Some(_) => accepted += 1,
            None => refused += 1,
        }
    }
    (accepted, refused)
}

/// The same of ours.
pub fn rows(sheet: &str) -> Option<(usize, usize)> {
    let totals = totals(sheet.as_bytes())?;
    let refused = totals.refused.iter().sum();
    (totals.rows == totals.accepted + refused).then_some((totals.accepted, refused))
}

pub fn theirs_accept(text: &str) -> bool {
    Type::parse(text).is_some()
}

/// 0 where it accepts.
pub fn refusal(text: &str) -> u8 {
    parse(text.as_bytes()).refusal
}

pub fn strict_refusal(text: &str) -> u8 {
    parse_strict(text.as_bytes()).refusal
}

/// The record of a text that the strict reader accepts.
pub fn record(text: &str) -> Flat {
    parse_strict(text.as_bytes()).value
}

/// The record's text, or None where the writer refuses it.
pub fn written(record: &Flat) -> Option<String> {
    let mut room: Room = [0; 773];
    let (len, refusal) = write_in(record, &mut room, 0, 773)?;
    let text = String::from_utf8(room[..len].to_vec()).ok()?;
    (refusal == 0).then_some(text)
}
