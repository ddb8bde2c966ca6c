//! `oracle strict`: our strict reader beside the plain recogniser, and each strict text beside
//! the ordinary readings.

use crate::agree::started;
use crate::answer::Answer;
use crate::compare::{settled_by_ours, shrunk};
use crate::damage::damage;
use crate::dice::Dice;
use crate::escape::escape;
use crate::exhaust::{Exhaust, FRAMES};
use crate::list::Texts;
use crate::nearly::nearly;
use crate::spell::spelled;
use crate::{forms, original, ours, plain, strict};
use std::io::{self, Write};

/// The strict answer, once all agree: our reader on the whole answer; and the ordinary readings,
/// where the text is strict, on its type with zero counts.
pub fn settled(text: &[u8]) -> Result<Answer, String> {
    let answer = strict::read(text);
    match ours::read_strict(text) {
        Some(Ok(ours)) if ours == answer => {}
        Some(_) => return Err(told("our strict reader differs", text, ours_differs)),
        None => {}
    }
    // Whatever is no refusal 5 has the same ordinary answer.
    if answer.number() != 5 && settled_by_ours(text)? != answer {
        return Err(told("the ordinary reading differs", text, ordinary_differs));
    }
    Ok(answer)
}

fn ours_differs(text: &[u8]) -> bool {
    ours::read_strict(text).is_some_and(|ours| ours != Ok(strict::read(text)))
}

fn ordinary_differs(text: &[u8]) -> bool {
    let answer = strict::read(text);
    answer.number() != 5 && answer != plain::read(text)
}

/// The smallest such text, and what each says of it.
fn told(what: &str, text: &[u8], bad: fn(&[u8]) -> bool) -> String {
    let text = shrunk(text, bad);
    let ours = match ours::read_strict(&text) {
        Some(Ok(answer)) => answer.to_string(),
        Some(Err(why)) => why,
        None => "absent".to_string(),
    };
    let original = original::read(&text).map(|answer| answer.to_string());
    format!(
        "{what} on this text of {} bytes:\n  text     {}\n  ours     {ours}\n  strict   {}\n  ordinary {}\n  original {}",
        text.len(),
        escape(&text),
        strict::read(&text),
        plain::read(&text),
        original.unwrap_or("absent".to_string()),
    )
}

/// Makes a text and gives its answer.
type Turn = fn(&mut Dice) -> Result<Answer, String>;

const GROUPS: [(&str, Turn); 4] = [
    ("spelled", |dice| held_to_record(dice)),
    ("strict", |dice| settled(&forms::strict(dice))),
    ("nearly strict", |dice| altered(dice, nearly)),
    ("damaged", |dice| altered(dice, damage)),
];

/// The recogniser has to find the record that the text was spelled from, of any rank.
fn held_to_record(dice: &mut Dice) -> Result<Answer, String> {
    let (record, text) = spelled(dice);
    match strict::whole(&text) {
        Some(found) if found == record => settled(&text),
        _ => Err(format!(
            "the recogniser differs from what the text was spelled from:\n  text     {}\n  record   {record}\n  strict   {}",
            escape(&text),
            strict::read(&text)
        )),
    }
}

fn altered(dice: &mut Dice, alter: fn(&mut Dice, &mut Vec<u8>)) -> Result<Answer, String> {
    let mut text = match dice.once_in(2) {
        true => spelled(dice).1,
        false => forms::strict(dice),
    };
    alter(dice, &mut text);
    settled(&text)
}

/// How many texts got each number: 0 for accepted, 1 to 5 for refused.
type Totals = [u64; 6];

fn counted(answers: impl Iterator<Item = Result<Answer, String>>) -> Result<Totals, String> {
    let mut totals = Totals::default();
    for answer in answers {
        totals[usize::from(answer?.number())] += 1;
    }
    Ok(totals)
}

/// A text of each group in turn.
fn generated(count: u64, seed: u64) -> Result<Vec<(&'static str, Totals)>, String> {
    let mut dice = Dice::new(seed);
    let mut all = GROUPS.map(|(name, _)| (name, Totals::default()));
    for turn in 0..count {
        let place = (turn % GROUPS.len() as u64) as usize;
        let answer = GROUPS[place].1(&mut dice)?;
        all[place].1[usize::from(answer.number())] += 1;
    }
    Ok(all.to_vec())
}

/// Short texts of up to so many bytes stand in each frame.
const LONGEST: usize = 4;

pub fn run(out: &mut dyn Write, count: u64, seed: u64) -> Result<(), String> {
    started(out, count, "generated texts", seed)?;
    let mut all = generated(count, seed)?;
    let listed = Texts::new();
    all.push(("recorded", counted(listed.all().map(|text| settled(text)))?));
    let short = FRAMES
        .iter()
        .flat_map(|frame| Exhaust::new(*frame, LONGEST));
    all.push(("in frames", counted(short.map(|text| settled(&text)))?));
    shown(out, &all).map_err(|error| error.to_string())
}

fn shown(out: &mut dyn Write, all: &[(&str, Totals)]) -> io::Result<()> {
    writeln!(
        out,
        "group               texts   accepted refusal 1         2          5         4"
    )?;
    let mut sum = Totals::default();
    for (name, totals) in all {
        line(out, name, totals)?;
        for (total, more) in sum.iter_mut().zip(totals) {
            *total += more;
        }
    }
    line(out, "all", &sum)?;
    let original = match original::PRESENT {
        true => ", and Type::parse on all but refusal 5",
        false => "; the original source is absent",
    };
    writeln!(
        out,
        "no difference between our strict reader and the recogniser, and none to both ordinary readings{original}"
    )
}

fn line(out: &mut dyn Write, name: &str, totals: &Totals) -> io::Result<()> {
    let all: u64 = totals.iter().sum();
    let [accepted, one, two, _, four, five] = totals;
    writeln!(
        out,
        "{name:14} {all:>10} {accepted:>10} {one:>9} {two:>9} {five:>10} {four:>9}"
    )
}

#[cfg(test)]
mod tests {
    use super::*;

    /// Each group of texts in turn; our own reader is held too, where it is there.
    #[test]
    fn recogniser_and_ordinary_readings_agree_on_strict_texts() {
        let count = if cfg!(debug_assertions) {
            20_000
        } else {
            100_000
        };
        let all = generated(count, 17).unwrap_or_else(|why| panic!("{why}"));
        for (name, [accepted, one, _, three, four, five]) in all {
            let spelled = matches!(name, "spelled" | "strict");
            assert!(accepted > 0 && four > 0 && three == 0, "{name}");
            assert_eq!(spelled, five == 0, "{name}");
            assert!(name != "spelled" || one > 0);
        }
    }

    #[test]
    fn the_recorded_texts_agree() {
        let listed = Texts::new();
        let totals = counted(listed.all().map(|text| settled(text)));
        let totals = totals.unwrap_or_else(|why| panic!("{why}"));
        assert!(totals[0] > 100 && totals[5] > 100);
    }
}
