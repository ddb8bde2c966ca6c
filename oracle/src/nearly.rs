//! Nearly strict texts: a strict one with one small damage. Some damages leave it strict.

use crate::dice::Dice;
use crate::pieces::*;

mod numerals;

use numerals::{numeral_led, numeral_other};

/// Bytes that stand in strict texts, or close to them.
const BYTES: &[u8] = b"x,<>[]()?=!.#_0149+- \t\x0btpfiX\0\x7f";

pub fn nearly(dice: &mut Dice, text: &mut Vec<u8>) {
    match dice.below(17) {
        0 => removed(dice, text),
        1 => doubled(dice, text),
        2 => swapped(dice, text),
        3 => changed(dice, text),
        4 => added(dice, text),
        5 => spaced(dice, text),
        6 => numeral_led(dice, text),
        7 => numeral_other(dice, text),
        8 => mark_moved(dice, text),
        9 => mark_added(dice, text),
        10 | 11 => clauses_altered(dice, text),
        12 => sign_changed(dice, text),
        13 => case_changed(dice, text),
        14 => word_changed(dice, text),
        15 => name_changed(dice, text),
        _ => junk_added(dice, text),
    }
}

/// Some place of this sort, or None.
fn place(dice: &mut Dice, text: &[u8], sort: impl Fn(usize) -> bool) -> Option<usize> {
    let places: Vec<usize> = (0..text.len()).filter(|place| sort(*place)).collect();
    match places.len() {
        0 => None,
        count => Some(places[dice.below(count)]),
    }
}

fn insert(text: &mut Vec<u8>, place: usize, piece: &str) {
    text.splice(place..place, piece.bytes());
}

/// The first place of the piece.
fn find(text: &[u8], piece: &str) -> Option<usize> {
    let piece = piece.as_bytes();
    text.windows(piece.len()).position(|part| part == piece)
}

// One byte.

fn removed(dice: &mut Dice, text: &mut Vec<u8>) {
    if let Some(place) = place(dice, text, |_| true) {
        text.remove(place);
    }
}

fn doubled(dice: &mut Dice, text: &mut Vec<u8>) {
    if let Some(place) = place(dice, text, |_| true) {
        text.insert(place, text[place]);
    }
}

fn swapped(dice: &mut Dice, text: &mut [u8]) {
    if let Some(place) = place(dice, text, |place| place > 0) {
        text.swap(place - 1, place);
    }
}

fn changed(dice: &mut Dice, text: &mut [u8]) {
    if let Some(place) = place(dice, text, |_| true) {
        text[place] = match dice.below(3) {
            0 => text[place] ^ (1 << dice.below(7)),
            _ => dice.byte(BYTES),
        };
    }
}

fn added(dice: &mut Dice, text: &mut Vec<u8>) {
    let place = dice.below(text.len() + 1);
    if dice.once_in(8) {
        text.insert(place, dice.from(128, 255) as u8);
    } else {
        text.insert(place, dice.byte(BYTES));
    }
}

/// A space anywhere, most often beside what separates.
fn spaced(dice: &mut Dice, text: &mut Vec<u8>) {
    let beside = place(dice, text, |place| b",x<>[]()= ".contains(&text[place]));
    let found = match dice.below(4) {
        0 => dice.below(text.len() + 1),
        _ => beside.map_or(0, |place| place + dice.below(2)),
    };
    insert(text, found, " ");
}

// Marks and clauses.

/// Where a mark could be thought to stand: at a `>` or `,`, after it, or at an end.
fn mark_place(dice: &mut Dice, text: &[u8]) -> usize {
    let edge = place(dice, text, |place| b">,])".contains(&text[place]));
    match dice.below(6) {
        0 => text.len(),
        1 => dice.below(text.len() + 1),
        _ => edge.map_or(0, |place| place + dice.below(2)),
    }
}

fn mark_moved(dice: &mut Dice, text: &mut Vec<u8>) {
    if let Some(start) = find(text, MARK) {
        text.drain(start..start + MARK.len());
    }
    let place = mark_place(dice, text);
    insert(text, place, MARK);
}

/// A second mark, or a cut one.
fn mark_added(dice: &mut Dice, text: &mut Vec<u8>) {
    let place = mark_place(dice, text);
    let piece = match dice.once_in(2) {
        true => MARK,
        false => dice.pick(CUT_MARKS),
    };
    insert(text, place, piece);
}

/// The clauses between the outer brackets, or those of the inner tensor view.
fn clauses(dice: &mut Dice, text: &[u8]) -> Option<(usize, Vec<Vec<u8>>, usize)> {
    let start = place(dice, text, |place| text[place] == b'<')? + 1;
    let mut clauses = vec![Vec::new()];
    let mut open = 0;
    for (place, byte) in text.iter().enumerate().skip(start) {
        match byte {
            b'<' | b'(' | b'[' => open += 1,
            b'>' if open == 0 => return Some((start, clauses, place)),
            b'>' | b')' | b']' => open -= 1,
            b',' if open == 0 => clauses.push(Vec::new()),
            _ => {}
        }
        clauses.last_mut()?.push(*byte);
    }
    None
}

/// A clause doubled, removed or swapped with another.
fn clauses_altered(dice: &mut Dice, text: &mut Vec<u8>) {
    let Some((start, mut clauses, end)) = clauses(dice, text) else {
        return;
    };
    let (one, two) = (dice.below(clauses.len()), dice.below(clauses.len()));
    match dice.below(3) {
        0 => clauses.insert(two, clauses[one].clone()),
        1 => drop(clauses.remove(one)),
        _ => clauses.swap(one, two),
    }
    // All but the first begin with their comma.
    for (place, clause) in clauses.iter_mut().enumerate() {
        if place == 0 && clause.first() == Some(&b',') {
            clause.drain(..1);
            clause.splice(..usize::from(clause.first() == Some(&b' ')), []);
        } else if place > 0 && clause.first() != Some(&b',') {
            clause.insert(0, b',');
        }
    }
    text.splice(start..end, clauses.concat());
}

// Brackets and words.

/// A bracket becomes another one, or a separator the other one.
fn sign_changed(dice: &mut Dice, text: &mut [u8]) {
    let signs: &[u8] = match dice.once_in(3) {
        true => b"x,",
        false => b"<>[]()",
    };
    if let Some(place) = place(dice, text, |place| signs.contains(&text[place])) {
        text[place] = dice.byte(signs);
    }
}

/// One letter, or all of a name's, in the other case.
fn case_changed(dice: &mut Dice, text: &mut [u8]) {
    let letter = |place: usize| text[place].is_ascii_alphabetic();
    let Some(start) = place(dice, text, letter) else {
        return;
    };
    let end = match dice.once_in(2) {
        true => start + 1,
        false => text.len(),
    };
    let word = text[start..end]
        .iter_mut()
        .take_while(|byte| byte.is_ascii_alphanumeric());
    for byte in word {
        *byte ^= if byte.is_ascii_alphabetic() { 32 } else { 0 };
    }
}

/// A prefix added or taken, another scalar, or a piece of the grammar where none belongs.
fn word_changed(dice: &mut Dice, text: &mut Vec<u8>) {
    let prefix = PREFIX.as_bytes();
    let stands = |place: usize| text[place..].starts_with(prefix);
    if dice.once_in(3) {
        if let Some(start) = place(dice, text, stands) {
            text.drain(start..start + prefix.len());
        }
        return;
    }
    let start = |place: usize| place == 0 || !text[place - 1].is_ascii_alphanumeric();
    let found = place(dice, text, start).unwrap_or(0);
    let name = dice.pick(NAMES);
    let piece = dice.pick(&[PREFIX, PREFIX, "tensor_view=", name, "ptr<", "?x", "1x"]);
    insert(text, found, piece);
}

/// A scalar's or a padding's name becomes another one, or nearly one.
fn name_changed(dice: &mut Dice, text: &mut Vec<u8>) {
    let padded = find(text, "padding_value=").map(|place| place + "padding_value=".len());
    let (names, others, start) = match padded {
        Some(start) if dice.once_in(2) => (PADDINGS, ODD_PADDINGS, start),
        _ => (NAMES, WRONG_NAMES, 0),
    };
    let stands = |name: &&str| find(&text[start..], name).map(|place| (start + place, name.len()));
    // The longest of those that stand first, so that no part of a name is taken for it.
    let found = names.iter().filter_map(stands);
    let Some((place, len)) = found.min_by_key(|(place, len)| (*place, usize::MAX - len)) else {
        return;
    };
    let list = if dice.once_in(3) { names } else { others };
    let other = dice.pick(list);
    text.splice(place..place + len, other.bytes());
}

fn junk_added(dice: &mut Dice, text: &mut Vec<u8>) {
    let piece = dice.pick(&[" ", "\n", ">", "junk", "x", ",", "\0", "\x0b", MARK, "f32"]);
    let place = match dice.once_in(4) {
        true => 0,
        false => text.len(),
    };
    insert(text, place, piece);
}
