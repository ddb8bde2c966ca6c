//! (b): strict texts of 600 to 773 bytes, which is the longest that is written; (c): loose texts
//! of about 1,000 bytes, strict ones stretched in several ways.

use crate::answer::{Kind, Record};
use crate::dice::Dice;
use crate::entries::{places, stretched};
use crate::flat::PADDINGS;
use crate::scalar::ALL;
use crate::{plain, spell, strict, typical};

/// Numbers of 64 bits, which mostly take 18 to 20 bytes; all take 20 where `longest`.
fn wide(dice: &mut Dice, longest: bool) -> i64 {
    match dice.below(8) {
        _ if longest => -((dice.number() >> 2) as i64) - (1 << 62),
        0 => i64::MIN,
        1 => dice.below(1000) as i64,
        _ => dice.number() as i64,
    }
}

fn narrow(dice: &mut Dice, longest: bool) -> i32 {
    match longest {
        true => -(dice.from(1_000_000_000, 2_147_483_648) as i64) as i32,
        false => dice.number() as i32,
    }
}

/// A view with eight entries in every list.
fn full(dice: &mut Dice) -> Record {
    let kind = [Kind::Partition, Kind::GatherScatter, Kind::Strided][dice.below(3)];
    let longest = dice.once_in(3);
    let mut record = Record {
        element: ALL[dice.below(ALL.len())].0,
        attribute: dice.once_in(3),
        padding: PADDINGS[dice.below(PADDINGS.len())],
        shape: (0..8).map(|_| wide(dice, longest)).collect(),
        strides: (0..8).map(|_| wide(dice, longest)).collect(),
        tile: (0..8).map(|_| narrow(dice, longest)).collect(),
        ..Record::blank(kind)
    };
    if kind == Kind::GatherScatter {
        record.sparse = narrow(dice, longest);
        return record;
    }
    record.map = (0..8).map(|_| narrow(dice, longest)).collect();
    if kind == Kind::Strided {
        record.traversal = (0..8).map(|_| narrow(dice, longest)).collect();
    }
    record
}

/// (b)
pub fn strict_one(dice: &mut Dice) -> String {
    loop {
        let record = full(dice);
        let text = String::from_utf8(spell::text_of(dice, &record)).unwrap_or_default();
        if (600..=773).contains(&text.len()) {
            return text;
        }
    }
}

/// White space, zeros or junk, in front of the entries or behind the end; `length` bytes.
pub fn stretched_one(dice: &mut Dice, length: usize) -> String {
    loop {
        let base = match dice.once_in(2) {
            true => typical::strict_one(dice),
            false => strict_one(dice),
        };
        let places = places(&base);
        let (places, filling) = match dice.below(6) {
            _ if places.is_empty() => continue,
            0 => (places, "0"),
            1 => (places, " "),
            2 => (places, "\t \n  "),
            3 => (places, "00+_ab"),
            4 => (vec![0, base.len()], "\n "),
            _ => (vec![base.len()], " and more,"),
        };
        return stretched(&base, &places, length, filling);
    }
}

/// (c)
pub fn loose_one(dice: &mut Dice) -> String {
    loop {
        let length = dice.from(976, 1024);
        let text = stretched_one(dice, length);
        let loose = strict::read(text.as_bytes()).number() == 5;
        if loose && plain::read(text.as_bytes()).number() == 0 {
            return text;
        }
    }
}
