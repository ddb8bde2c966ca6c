//! The groups of texts that are measured, and what each says of its texts.

use crate::dice::Dice;
use crate::flat::Flat;
use crate::{long, marks, refused, typical};

/// Every text comes from this seed.
const SEED: u64 = 20261115;

/// What every text of a group gets: one of these numbers from the ordinary and the strict
/// reader, 0 for accepted; whether `Type::parse` accepts, where all get the same.
#[derive(Clone, Copy)]
pub struct Says {
    pub ordinary: &'static [u8],
    pub strict: &'static [u8],
    pub theirs: Option<bool>,
}

pub struct Group {
    pub key: &'static str,
    pub name: &'static str,
    pub says: Says,
    pub texts: Vec<String>,
    /// The records of the texts, where writing is measured.
    pub records: Vec<Flat>,
}

pub fn group(key: &'static str, name: &'static str, says: Says, texts: Vec<String>) -> Group {
    let records = Vec::new();
    Group {
        key,
        name,
        says,
        texts,
        records,
    }
}

const fn says(ordinary: &'static [u8], strict: &'static [u8], theirs: Option<bool>) -> Says {
    Says {
        ordinary,
        strict,
        theirs,
    }
}

fn some(count: usize, dice: &mut Dice, make: fn(&mut Dice) -> String) -> Vec<String> {
    (0..count).map(|_| make(dice)).collect()
}

/// (a) to (e), with the parts of (a) and (e) that are printed apart.
pub fn all() -> Vec<Group> {
    let mut dice = Dice::new(SEED);
    let yes = Some(true);
    let strict = some(200, &mut dice, typical::strict_one);
    let loose = some(200, &mut dice, typical::loose_one);
    let typical = [strict.clone(), loose].concat();
    let mut groups = vec![
        group("a", "typical", says(&[0], &[0, 5], yes), typical),
        group(
            "a strict",
            "the strict ones of a",
            says(&[0], &[0], yes),
            strict,
        ),
    ];
    let texts = some(100, &mut dice, long::strict_one);
    groups.push(group("b", "long strict", says(&[0], &[0], yes), texts));
    let texts = some(100, &mut dice, long::loose_one);
    groups.push(group("c", "long loose", says(&[0], &[5], yes), texts));
    let texts = some(100, &mut dice, marks::nested_one);
    groups.push(group("d", "37 nested marks", says(&[0], &[5], yes), texts));
    groups.extend(all_refused(&mut dice));
    groups
}

/// (e), of each refusal a quarter, then the quarters.
fn all_refused(dice: &mut Dice) -> Vec<Group> {
    let too_long = some(100, dice, refused::too_long);
    let not_ascii = some(100, dice, refused::not_ascii);
    let misses = some(50, dice, refused::near_miss);
    let no_type = [misses, some(50, dice, refused::no_type)].concat();
    let nine = some(100, dice, refused::nine);
    let each = [&too_long[..], &not_ascii, &no_type, &nine].concat();
    let any = says(&[1, 2, 3, 4], &[1, 2, 4, 5], None);
    vec![
        group("e", "refused", any, each),
        group(
            "e1",
            "over 1,024 bytes",
            says(&[1], &[1], Some(true)),
            too_long,
        ),
        group("e2", "beyond ASCII", says(&[2], &[2], None), not_ascii),
        group("e3", "no type", says(&[3], &[5], Some(false)), no_type),
        group("e4", "a list of nine", says(&[4], &[4], Some(true)), nine),
    ]
}

/// The groups of the goal: (a) to (e).
pub fn is_goal(group: &Group) -> bool {
    group.key.len() == 1
}

#[cfg(test)]
mod tests {
    use super::*;
    use crate::{plain, strict};

    #[test]
    fn each_text_gets_what_its_group_says() {
        for group in all() {
            assert!(group.texts.len() >= 100);
            for text in group.texts.iter().map(String::as_bytes) {
                let (ordinary, strict) = (plain::read(text).number(), strict::read(text).number());
                assert!(group.says.ordinary.contains(&ordinary), "{}", group.key);
                assert!(group.says.strict.contains(&strict), "{}", group.key);
            }
        }
    }

    #[test]
    fn lengths_are_those_of_the_goal() {
        for group in all() {
            let range = match group.key {
                "a" | "a strict" => 5..=130,
                "b" => 600..=773,
                "c" => 976..=1024,
                "d" => 999..=1024,
                "e1" => 1025..=2048,
                _ => 0..=2048,
            };
            let fits = |text: &String| range.contains(&text.len());
            assert!(group.texts.iter().all(fits), "{}", group.key);
        }
    }

    #[test]
    fn nested_marks_are_37_deep() {
        let groups = all();
        let nested = groups.iter().find(|group| group.key == "d").unwrap();
        assert!(nested.texts.iter().all(|text| marks::passes(text) == 37));
    }

    #[test]
    fn texts_are_the_same_in_every_run() {
        let (one, two) = (all(), all());
        assert!(one.iter().zip(&two).all(|(x, y)| x.texts == y.texts));
    }
}
