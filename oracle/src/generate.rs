//! Random texts from a seed, in groups that each press on one place of the reading.

use crate::clauses::{clauses, inner, lists, numerals, padding};
use crate::damage::damage;
use crate::dice::Dice;
use crate::forms::{loose, strict};
use crate::pieces::*;

pub struct Group {
    pub name: &'static str,
    pub make: fn(&mut Dice) -> Vec<u8>,
}

const fn group(name: &'static str, make: fn(&mut Dice) -> Vec<u8>) -> Group {
    Group { name, make }
}

pub const GROUPS: [Group; 17] = [
    group("strict", strict),
    group("loose", loose),
    group("damaged", damaged),
    group("spliced", spliced),
    group("nested-marks", nested_marks),
    group("several-marks", several_marks),
    group("cut-marks", cut_marks),
    group("white", white),
    group("length", length),
    group("high-bytes", high_bytes),
    group("brackets", brackets),
    group("prefixes", prefixes),
    group("clauses", clauses),
    group("padding", padding),
    group("lists", lists),
    group("inner", inner),
    group("numerals", numerals),
];

fn either(dice: &mut Dice) -> Vec<u8> {
    match dice.once_in(2) {
        true => strict(dice),
        false => loose(dice),
    }
}

fn insert(text: &mut Vec<u8>, place: usize, piece: &[u8]) {
    text.splice(place..place, piece.iter().copied());
}

fn damaged(dice: &mut Dice) -> Vec<u8> {
    let mut text = either(dice);
    damage(dice, &mut text);
    text
}

/// Any word of the dictionary.
fn piece(dice: &mut Dice) -> &'static str {
    const LISTS: [&[&str]; 13] = [
        CLAUSES,
        CLAUSES,
        SIGNS,
        SIGNS,
        SMALL,
        NAMES,
        ODD_NUMERALS,
        WRONG_NAMES,
        OPENINGS,
        PADDINGS,
        CUT_MARKS,
        EDGES_32,
        EDGES_64,
    ];
    let list = LISTS[dice.below(LISTS.len())];
    dice.pick(list)
}

/// Pieces one after the other, or put into a whole form.
fn spliced(dice: &mut Dice) -> Vec<u8> {
    let mut text = Vec::new();
    if dice.once_in(3) {
        text.extend(dice.pick(OPENINGS).bytes());
        for _ in 0..dice.from(1, 9) {
            text.extend(piece(dice).bytes());
        }
        text.extend(dice.pick(&["", ">"]).bytes());
        return text;
    }
    text.extend(either(dice));
    for _ in 0..dice.from(1, 3) {
        let place = dice.below(text.len() + 1);
        let piece = piece(dice);
        insert(&mut text, place, piece.as_bytes());
    }
    text
}

/// Marks in marks, cut at one place or each at its own: each pass forms a fresh one.
pub fn nest(dice: &mut Dice, depth: usize) -> Vec<u8> {
    let place = dice.from(1, MARK.len() - 1);
    let same = dice.once_in(2);
    let mut marks = Vec::new();
    for _ in 0..depth {
        let cut = if same {
            place
        } else {
            dice.from(1, MARK.len() - 1)
        };
        let (front, back) = MARK.as_bytes().split_at(cut);
        marks = [front, &marks, back].concat();
    }
    marks
}

/// 1 to 37 deep.
fn nested_marks(dice: &mut Dice) -> Vec<u8> {
    let deepest = if dice.once_in(4) { 37 } else { 5 };
    let depth = dice.from(1, deepest);
    let marks = nest(dice, depth);
    let mut text = match dice.below(4) {
        0 => b"token".to_vec(),
        1 => b"tile<ptr<f32>>".to_vec(),
        _ => either(dice),
    };
    let place = dice.below(text.len() + 1);
    insert(&mut text, place, &marks);
    text
}

fn several_marks(dice: &mut Dice) -> Vec<u8> {
    let mut text = either(dice);
    for _ in 0..dice.from(1, 5) {
        let place = dice.below(text.len() + 1);
        insert(&mut text, place, MARK.as_bytes());
    }
    text
}

/// Halves of marks that meet, or don't, when what stands between them goes.
fn cut_marks(dice: &mut Dice) -> Vec<u8> {
    let mut text = either(dice);
    for _ in 0..dice.from(1, 4) {
        let place = dice.below(text.len() + 1);
        let (start, end) = (dice.below(4), MARK.len() - dice.below(4));
        let cut = match dice.below(4) {
            0 => dice.pick(CUT_MARKS).as_bytes().to_vec(),
            1 => MARK.as_bytes()[start..end].to_vec(),
            2 => [
                &MARK.as_bytes()[..end],
                MARK.as_bytes(),
                &MARK.as_bytes()[end..],
            ]
            .concat(),
            _ => MARK.as_bytes().to_vec(),
        };
        insert(&mut text, place, &cut);
    }
    text
}

/// White space, and bytes that only look like it, at the ends and inside.
fn white(dice: &mut Dice) -> Vec<u8> {
    let mut text = either(dice);
    for _ in 0..dice.from(1, 5) {
        let place = match dice.below(4) {
            0 => 0,
            1 => text.len(),
            _ => dice.below(text.len() + 1),
        };
        let rare = dice.once_in(8);
        let byte = dice.byte(if rare { NEARLY_WHITE } else { WHITE });
        let many = dice.from(1, 3);
        insert(&mut text, place, &vec![byte; many]);
    }
    text
}

/// 1,023 to 1,025 bytes, filled up in several ways.
fn length(dice: &mut Dice) -> Vec<u8> {
    let mut text = either(dice);
    let whole = dice.from(1023, 1025);
    let missing = whole.saturating_sub(text.len());
    let (place, filling) = match dice.below(6) {
        0 => (0, b" ".to_vec()),
        1 => (text.len(), b"\x0b".to_vec()),
        2 => (text.len(), b"junk".to_vec()),
        3 => (dice.below(text.len() + 1), vec![dice.byte(b"0x,[]<> \t")]),
        4 => (dice.below(text.len() + 1), MARK.as_bytes().to_vec()),
        _ => (dice.below(text.len() + 1), vec![dice.byte(b"0 1\x80")]),
    };
    let filling: Vec<u8> = filling.into_iter().cycle().take(missing).collect();
    insert(&mut text, place, &filling);
    text
}

fn high_bytes(dice: &mut Dice) -> Vec<u8> {
    let mut text = either(dice);
    for _ in 0..dice.from(1, 2) {
        let digit = text.iter().position(u8::is_ascii_digit);
        let place = match dice.below(5) {
            0 => 0,
            1 => text.len(),
            2 => digit.map_or(0, |place| place + 1),
            _ => dice.below(text.len() + 1),
        };
        // Among them U+0085 and U+00A0, which are white space beyond ASCII.
        let pieces: [&[u8]; 8] = [
            b"\x80",
            b"\xff",
            b"\xe9",
            b"\x85",
            b"\xa0",
            b"\xc2\x85",
            b"\xc2\xa0",
            b"\xe2\x80\x83",
        ];
        let piece = dice.pick(&pieces);
        insert(&mut text, place, piece);
    }
    text
}

fn brackets(dice: &mut Dice) -> Vec<u8> {
    let mut text = either(dice);
    for _ in 0..dice.from(1, 4) {
        let place = dice.below(text.len() + 1);
        let byte = dice.byte(b"<<>>[]()");
        if dice.once_in(3) {
            text.retain(|other| *other != byte);
        } else {
            insert(&mut text, place, &[byte]);
        }
    }
    text
}

/// Prefixes doubled, cut, or where none belongs.
fn prefixes(dice: &mut Dice) -> Vec<u8> {
    let mut text = either(dice);
    for _ in 0..dice.from(1, 3) {
        let starts: Vec<usize> = (0..text.len())
            .filter(|place| b"!ptg".contains(&text[*place]))
            .collect();
        let place = match starts.is_empty() {
            true => 0,
            false => starts[dice.below(starts.len())],
        };
        let piece = dice.pick(&[
            PREFIX,
            PREFIX,
            PREFIX,
            "!cuda_tile",
            "cuda_tile.",
            " !cuda_tile.",
            "!",
        ]);
        insert(&mut text, place, piece.as_bytes());
    }
    text
}
