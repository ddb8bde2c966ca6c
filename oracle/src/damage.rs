//! Small damages to a text: a byte or a chunk deleted, inserted, replaced, swapped or doubled.

use crate::dice::Dice;
use crate::pieces::{CLAUSES, SIGNS};

/// Bytes that mean something somewhere in the grammar.
const BYTES: &[u8] = b"x,<>[]()?=!.#_0149+- \t\x0btpfi";

pub fn damage(dice: &mut Dice, text: &mut Vec<u8>) {
    for _ in 0..dice.from(1, 3) {
        let long = if dice.once_in(3) { 12 } else { 1 };
        match dice.below(7) {
            0 => delete(dice, text, long),
            1 => insert_byte(dice, text),
            2 => replace(dice, text),
            3 => swap(dice, text, long),
            4 => double(dice, text, long),
            5 => insert(text, dice, SIGNS),
            _ => insert(text, dice, CLAUSES),
        }
    }
}

/// A chunk's start and end, of at most `long` bytes.
fn chunk(dice: &mut Dice, text: &[u8], long: usize) -> (usize, usize) {
    let start = dice.below(text.len() + 1);
    (start, (start + dice.from(1, long)).min(text.len()))
}

fn delete(dice: &mut Dice, text: &mut Vec<u8>, long: usize) {
    let (start, end) = chunk(dice, text, long);
    text.drain(start..end);
}

fn double(dice: &mut Dice, text: &mut Vec<u8>, long: usize) {
    let (start, end) = chunk(dice, text, long);
    let copy = text[start..end].to_vec();
    text.splice(end..end, copy);
}

fn insert_byte(dice: &mut Dice, text: &mut Vec<u8>) {
    let place = dice.below(text.len() + 1);
    text.insert(place, dice.byte(BYTES));
}

fn insert(text: &mut Vec<u8>, dice: &mut Dice, pieces: &[&str]) {
    let place = dice.below(text.len() + 1);
    let piece = dice.pick(pieces);
    text.splice(place..place, piece.bytes());
}

fn replace(dice: &mut Dice, text: &mut [u8]) {
    if !text.is_empty() {
        let place = dice.below(text.len());
        text[place] = dice.byte(BYTES);
    }
}

/// Two neighbouring chunks change places.
fn swap(dice: &mut Dice, text: &mut [u8], long: usize) {
    let (start, end) = chunk(dice, text, 2 * long);
    if end - start >= 2 {
        let middle = dice.from(1, end - start - 1);
        text[start..end].rotate_left(middle);
    }
}
