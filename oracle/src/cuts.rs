//! Random runs of a collector from a seed: texts cut into pieces, texts that are too long, and
//! blocks that are not in order.

use crate::answer::LONGEST_TEXT;
use crate::collector::{block_of, Run, Step, BLOCK};
use crate::dice::Dice;
use crate::generate::GROUPS;

/// Makes a run.
pub type Make = fn(&mut Dice) -> Run;

pub const SORTS: [(&str, Make); 9] = [
    ("whole", |dice| fresh(vec![text(dice)])),
    ("cut", |dice| {
        let text = text(dice);
        fresh(cut(dice, &text))
    }),
    ("byte by byte", |dice| fresh(single(&text(dice)))),
    ("empty pieces", with_empty),
    ("over by one", |dice| over(dice, 1)),
    ("over by many", |dice| {
        let many = dice.from(2, 3000);
        over(dice, many)
    }),
    ("several texts", several),
    ("given blocks", given),
    ("not in order", not_in_order),
];

/// Of any group of the generator.
fn text(dice: &mut Dice) -> Vec<u8> {
    (GROUPS[dice.below(GROUPS.len())].make)(dice)
}

fn fresh(pieces: Vec<Vec<u8>>) -> Run {
    Run {
        block: vec![0; BLOCK],
        steps: steps(pieces),
    }
}

fn steps(pieces: Vec<Vec<u8>>) -> Vec<Step> {
    let pieces = pieces.into_iter().map(Step::Feed);
    pieces.chain([Step::End]).collect()
}

/// At up to eight places; where two are one, or at an end, a piece is empty.
fn cut(dice: &mut Dice, text: &[u8]) -> Vec<Vec<u8>> {
    let cuts = dice.from(1, 8);
    let mut places: Vec<usize> = (0..cuts).map(|_| dice.below(text.len() + 1)).collect();
    places.sort();
    let mut pieces = Vec::new();
    let mut start = 0;
    for place in places {
        pieces.push(text[start..place].to_vec());
        start = place;
    }
    pieces.push(text[start..].to_vec());
    pieces
}

fn single(text: &[u8]) -> Vec<Vec<u8>> {
    text.iter().map(|byte| vec![*byte]).collect()
}

/// Cut, with empty pieces in between and at the ends; now and then of no other.
fn with_empty(dice: &mut Dice) -> Run {
    let text = match dice.once_in(20) {
        true => Vec::new(),
        false => text(dice),
    };
    let mut pieces = cut(dice, &text);
    for _ in 0..dice.from(1, 6) {
        let place = dice.below(pieces.len() + 1);
        pieces.insert(place, Vec::new());
    }
    fresh(pieces)
}

/// A text with so many bytes more than a collector takes; in one of three a byte of 128 or more
/// stands in it.
fn too_long(dice: &mut Dice, more: usize) -> Vec<u8> {
    let mut long = text(dice);
    let filling = dice.byte(b" \x0b0x,<");
    let place = dice.below(long.len() + 1);
    let missing = (LONGEST_TEXT + more).saturating_sub(long.len());
    long.splice(place..place, vec![filling; missing]);
    long.truncate(LONGEST_TEXT + more);
    if dice.once_in(3) {
        let place = dice.below(long.len());
        long[place] = dice.byte(b"\x80\xff");
    }
    long
}

/// The limit is passed by the last byte, by a piece anywhere, or byte by byte.
fn over(dice: &mut Dice, more: usize) -> Run {
    let long = too_long(dice, more);
    fresh(match dice.below(16) {
        0 => single(&long),
        1..=4 => vec![long],
        5..=10 => cut(dice, &long),
        _ => {
            let (within, past) = long.split_at(LONGEST_TEXT);
            [cut(dice, within), cut(dice, past)].concat()
        }
    })
}

fn several(dice: &mut Dice) -> Run {
    let mut run = fresh(Vec::new()); // an end with no piece before it
    for _ in 0..dice.from(2, 5) {
        let next = match dice.below(6) {
            0 => over(dice, 1),
            1 => with_empty(dice),
            2 => fresh(Vec::new()),
            _ => fresh(vec![text(dice)]),
        };
        run.steps.extend(next.steps);
    }
    run
}

/// A block that holds a part of a text already, or is full or over-full, and is fed the rest or one
/// piece more.
fn given(dice: &mut Dice) -> Run {
    let text = match dice.below(4) {
        0 => too_long(dice, 0),
        1 => too_long(dice, 1),
        _ => text(dice),
    };
    let place = match dice.once_in(3) {
        true => text.len(),
        false => dice.below(text.len() + 1),
    };
    let mut pieces = cut(dice, &text[place..]);
    if dice.once_in(4) {
        pieces.push(b" ".to_vec());
    }
    Run {
        block: block_of(&text[..place]),
        steps: steps(pieces),
    }
}

/// One thing wrong, and some pieces and ends in any order.
fn not_in_order(dice: &mut Dice) -> Run {
    let mut block = given(dice).block;
    spoil(dice, &mut block);
    let mut steps = Vec::new();
    for _ in 0..dice.from(1, 4) {
        steps.push(match dice.below(4) {
            0 => Step::End,
            1 => Step::Feed(Vec::new()),
            _ => Step::Feed(text(dice)),
        });
    }
    steps.push(Step::End);
    Run { block, steps }
}

fn set_number(block: &mut [u8], number: usize) {
    block[LONGEST_TEXT] = (number >> 8) as u8;
    block[LONGEST_TEXT + 1] = number as u8;
}

/// Room, number, mark or size.
fn spoil(dice: &mut Dice, block: &mut Vec<u8>) {
    match dice.below(8) {
        0 => block[LONGEST_TEXT - 1 - dice.below(3)] = dice.from(1, 255) as u8,
        1 => {
            set_number(block, 0);
            block[dice.below(LONGEST_TEXT)] = dice.from(1, 255) as u8;
        }
        2 => set_number(block, dice.from(LONGEST_TEXT + 1, 2 * LONGEST_TEXT)),
        3 => set_number(block, dice.from(LONGEST_TEXT + 1, 65535)),
        4 => block[LONGEST_TEXT + 2] = dice.from(2, 255) as u8,
        5 => {
            block.fill(0);
            set_number(block, dice.from(1, LONGEST_TEXT));
            block[LONGEST_TEXT + 2] = 1;
        }
        6 => {
            block.fill(0);
            block[dice.below(LONGEST_TEXT)] = dice.from(1, 255) as u8;
            block[LONGEST_TEXT + 2] = 1;
        }
        _ => {
            let sizes = [0, 1, 3, LONGEST_TEXT, BLOCK - 1, BLOCK + 1, 2 * BLOCK];
            block.resize(sizes[dice.below(sizes.len())], 0);
        }
    }
}
