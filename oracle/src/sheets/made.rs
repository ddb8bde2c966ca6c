//! Random sheets from a seed: short ones full of line feeds, texts of every group, and sheets about
//! as long as a sheet may be.

use super::LONGEST_SHEET;
use crate::dice::Dice;
use crate::generate::GROUPS;

/// Makes a sheet.
pub type Make = fn(&mut Dice) -> Vec<u8>;

pub const SORTS: [(&str, Make); 9] = [
    ("line feeds", |dice| scattered(dice, b"\n\n\nf32 ")),
    ("any bytes", |dice| {
        scattered(dice, b"\n\n\n\r\x0b\x00\x8af<>")
    }),
    ("texts", texts),
    ("empty rows", empty_rows),
    ("other breaks", other_breaks),
    ("one text", text),
    ("long rows", long_rows),
    ("full", |dice| {
        let len = LONGEST_SHEET - dice.below(3);
        long(dice, len)
    }),
    ("over", |dice| {
        let len = LONGEST_SHEET + dice.from(1, 3);
        long(dice, len)
    }),
];

/// Of any group of the generator; some have a line feed within, and are then two rows.
fn text(dice: &mut Dice) -> Vec<u8> {
    (GROUPS[dice.below(GROUPS.len())].make)(dice)
}

fn scattered(dice: &mut Dice, bytes: &[u8]) -> Vec<u8> {
    (0..dice.below(40)).map(|_| dice.byte(bytes)).collect()
}

/// Texts with a break after each but the last, which has one or not.
fn joined(dice: &mut Dice, most: usize, part: fn(&mut Dice) -> Vec<u8>) -> Vec<u8> {
    let mut sheet = Vec::new();
    for _ in 0..dice.below(most + 1) {
        sheet.extend(text(dice));
        sheet.extend(part(dice));
    }
    if dice.once_in(2) {
        sheet.extend(text(dice));
    }
    sheet
}

fn texts(dice: &mut Dice) -> Vec<u8> {
    joined(dice, 12, |_| b"\n".to_vec())
}

/// Runs of line feeds, at the front too.
fn empty_rows(dice: &mut Dice) -> Vec<u8> {
    let front = vec![b'\n'; dice.below(3)];
    [front, joined(dice, 6, |dice| vec![b'\n'; dice.from(1, 4)])].concat()
}

/// What parts lines elsewhere, and here only with a line feed.
fn other_breaks(dice: &mut Dice) -> Vec<u8> {
    joined(dice, 6, |dice| {
        let breaks: [&[u8]; 7] = [b"\r\n", b"\r", b"\x0b", b"\x0c\n", b"\x00", b"\n\r", b"\n"];
        dice.pick(&breaks).to_vec()
    })
}

/// Rows of 1,023 to 1,026 bytes.
fn long_rows(dice: &mut Dice) -> Vec<u8> {
    let mut sheet = Vec::new();
    for _ in 0..dice.from(1, 4) {
        let filling = dice.byte(b" \x0b0\x80");
        let mut row = text(dice);
        row.retain(|byte| *byte != b'\n');
        row.resize(dice.from(1023, 1026), filling);
        sheet.extend(row);
        sheet.push(b'\n');
    }
    sheet.truncate(sheet.len() - dice.below(2));
    sheet
}

/// Exactly so many bytes, of texts, of line feeds, or of one row.
fn long(dice: &mut Dice, len: usize) -> Vec<u8> {
    let mut sheet = Vec::new();
    match dice.below(40) {
        0 => sheet.resize(len, b'\n'),
        1..=4 => sheet.resize(len, b'f'),
        _ => {
            while sheet.len() < len {
                sheet.extend(text(dice));
                sheet.push(b'\n');
            }
        }
    }
    sheet.truncate(len);
    sheet
}
