//! Damages to one numeral of a text.

use super::{insert, place};
use crate::dice::Dice;
use crate::pieces::{EDGES_32, EDGES_64, ODD_NUMERALS};

fn is_digit(text: &[u8], place: usize) -> bool {
    text.get(place).is_some_and(u8::is_ascii_digit)
}

/// A numeral's start and end, its sign included; `?` is one too.
fn numeral(dice: &mut Dice, text: &[u8]) -> Option<(usize, usize)> {
    let part_of_name = |place: usize| place > 0 && text[place - 1].is_ascii_alphabetic();
    let first = |place: usize| {
        text[place] == b'?'
            || is_digit(text, place)
                && !(place > 0 && is_digit(text, place - 1))
                && (!part_of_name(place) || text[place - 1] == b'x')
    };
    let found = place(dice, text, first)?;
    let signed = found > 0 && text[found - 1] == b'-';
    let mut end = found + 1;
    while is_digit(text, found) && is_digit(text, end) {
        end += 1;
    }
    Some((found - usize::from(signed), end))
}

/// A zero or a sign in front of a numeral.
pub fn numeral_led(dice: &mut Dice, text: &mut Vec<u8>) {
    if let Some((start, _)) = numeral(dice, text) {
        let place = start + usize::from(text[start] == b'-');
        let piece = dice.pick(&["0", "0", "-", "+", "00"]);
        insert(text, if dice.once_in(3) { start } else { place }, piece);
    }
}

/// Another numeral: odd, at the edge of its range, one past it, or of very many digits.
pub fn numeral_other(dice: &mut Dice, text: &mut Vec<u8>) {
    const PAST: &[&str] = &[
        "-0",
        "?",
        "2147483648",
        "-2147483649",
        "9223372036854775808",
        "-9223372036854775808",
        "-9223372036854775809",
        "10000000000000000000",
    ];
    let Some((start, end)) = numeral(dice, text) else {
        return;
    };
    let lists = [PAST, PAST, ODD_NUMERALS, EDGES_32, EDGES_64];
    let list = lists[dice.below(lists.len())];
    let other = match dice.once_in(4) {
        true => digits(dice),
        false => dice.pick(list).to_string(),
    };
    text.splice(start..end, other.bytes());
}

/// Close to a range's count of digits, or far past it.
fn digits(dice: &mut Dice) -> String {
    let count = match dice.below(3) {
        0 => dice.from(9, 11),
        1 => dice.from(18, 21),
        _ => dice.from(22, 60),
    };
    (0..count)
        .map(|_| char::from(dice.byte(b"1234567890")))
        .collect()
}
