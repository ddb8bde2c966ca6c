//! (a): texts of 5 to 130 bytes, as the oracle's forms make them; all are accepted.

use crate::dice::Dice;
use crate::{forms, plain, strict};

/// A text of the maker's, of this length, or None.
fn made(make: fn(&mut Dice) -> Vec<u8>, dice: &mut Dice) -> Option<String> {
    let text = String::from_utf8(make(dice)).ok()?;
    let fits = (5..=130).contains(&text.len()) && plain::read(text.as_bytes()).number() == 0;
    fits.then_some(text)
}

fn is_strict(text: &str) -> bool {
    strict::read(text.as_bytes()).number() == 0
}

/// A strict one, with marks now and then.
pub fn strict_one(dice: &mut Dice) -> String {
    loop {
        match made(forms::strict, dice) {
            Some(text) if is_strict(&text) => return text,
            _ => {}
        }
    }
}

/// One that the ordinary reader alone accepts: spaces, defaults, odd numerals, something behind
/// the end.
pub fn loose_one(dice: &mut Dice) -> String {
    loop {
        match made(forms::loose, dice) {
            Some(text) if !is_strict(&text) => return text,
            _ => {}
        }
    }
}
