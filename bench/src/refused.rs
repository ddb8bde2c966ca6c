//! (e): texts that the ordinary reader refuses, with 1, 2, 3 and 4.

use crate::answer::Record;
use crate::damage::damage;
use crate::dice::Dice;
use crate::entries::places;
use crate::{long, plain, records, spell, typical};

/// Texts of other languages and none.
#[rustfmt::skip]
const NO_TYPES: &[&str] = &[
    "", "hello", "f33", "int", "float32", "index", "none", "void", "()", "<>", "ptr", "tile", "!tile",
    "tensor<4x8xf32>", "memref<?x16xf32, strided<[16, 1]>>", "vector<4xf32>", "complex<f32>",
    "!llvm.ptr<f32>", "!llvm.struct<(i32, f32)>", "tuple<f32, i32>", "(f32, i32) -> f32",
    "!tt.ptr<f16>", "!cuda_tile.", "!cuda_tile.tensor<4xf32>", "!cuda_tile.view<tile=(4), f32>",
    "Vec<[f32; 4]>", "float (*)[16]", "std::array<float, 4>", "np.ndarray[np.float32]",
    "{\"kind\": \"tile\", \"shape\": [4, 8], \"element\": \"f32\"}",
    "the table lies with its rows along the first dimension",
    "0x1fff0000 0x1fff0040 0x1fff0080 0x1fff00c0",
];

fn refusal(text: &str) -> u8 {
    plain::read(text.as_bytes()).number()
}

/// Over 1,024 bytes, up to twice that; `Type::parse` accepts it.
pub fn too_long(dice: &mut Dice) -> String {
    let length = dice.from(1025, 2048);
    long::stretched_one(dice, length)
}

/// A strict text with one character beyond ASCII: half of them in an entry, where `Type::parse`
/// takes a default for it, half anywhere.
pub fn not_ascii(dice: &mut Dice) -> String {
    let mut text = typical::strict_one(dice);
    let entries = places(&text);
    let place = match dice.once_in(2) && !entries.is_empty() {
        true => entries[dice.below(entries.len())],
        false => dice.below(text.len() + 1),
    };
    text.insert_str(place, dice.pick(&["\u{a0}", "é", "µ", "—", "中", "×"]));
    text
}

/// A near miss: a strict text with some small damage.
pub fn near_miss(dice: &mut Dice) -> String {
    loop {
        let mut text = typical::strict_one(dice).into_bytes();
        damage(dice, &mut text);
        let text = String::from_utf8(text).unwrap_or_default();
        if text.len() >= 5 && refusal(&text) == 3 {
            return text;
        }
    }
}

pub fn no_type(dice: &mut Dice) -> String {
    dice.pick(NO_TYPES).to_string()
}

/// A strict form in which some list has nine entries and none has more.
pub fn nine(dice: &mut Dice) -> String {
    loop {
        let record = records::with_text(dice, 9);
        if longest(&record) != 9 {
            continue;
        }
        let text = String::from_utf8(spell::text_of(dice, &record)).unwrap_or_default();
        if refusal(&text) == 4 {
            return text;
        }
    }
}

fn longest(record: &Record) -> usize {
    let wide = record.shape.len().max(record.strides.len());
    let narrow = record.tile.len().max(record.map.len());
    wide.max(narrow).max(record.traversal.len())
}

#[cfg(test)]
mod tests {
    use super::*;
    use crate::pieces::OPENINGS;

    #[test]
    fn none_of_them_is_a_type() {
        for text in NO_TYPES {
            assert_eq!(refusal(text), 3, "{text}");
        }
    }

    #[test]
    fn every_form_is_nearly_missed() {
        let mut dice = Dice::new(5);
        let texts: Vec<String> = (0..300).map(|_| near_miss(&mut dice)).collect();
        for opening in OPENINGS {
            assert!(texts.iter().any(|text| text.contains(opening)), "{opening}");
        }
    }
}
