//! (d): texts in which each pass that removes the marks forms a fresh one, 37 times, which is as
//! often as 1,024 bytes allow.

use crate::dice::Dice;
use crate::pieces::MARK;
use crate::{forms, generate, plain};

pub const DEPTH: usize = 37;

/// How often all marks are removed until none is left.
pub fn passes(text: &str) -> usize {
    let mut rest = text.trim().to_string();
    let mut count = 0;
    while rest.contains(MARK) {
        rest = rest.replace(MARK, "").trim().to_string();
        count += 1;
    }
    count
}

/// A strict text of at most 25 bytes with the marks at some place of it.
pub fn nested_one(dice: &mut Dice) -> String {
    loop {
        let mut text = forms::strict(dice);
        if text.len() + DEPTH * MARK.len() > 1024 {
            continue;
        }
        let place = dice.below(text.len() + 1);
        text.splice(place..place, generate::nest(dice, DEPTH));
        let text = String::from_utf8(text).unwrap_or_default();
        if passes(&text) == DEPTH && plain::read(text.as_bytes()).number() == 0 {
            return text;
        }
    }
}

#[cfg(test)]
mod tests {
    use super::*;

    #[test]
    fn passes_are_counted() {
        assert_eq!(passes("token"), 0);
        assert_eq!(passes(&format!("token{MARK}{MARK}")), 1);
        let (front, back) = MARK.split_at(9);
        assert_eq!(passes(&format!("token{front}{front}{back}{back}")), 2);
    }

    #[test]
    fn one_mark_more_has_no_room() {
        assert!(DEPTH * MARK.len() + "token".len() <= 1024);
        assert!((DEPTH + 1) * MARK.len() > 1024);
    }
}
