//! `oracle fragments`: our collector beside the plain one, on texts in pieces; and each end beside the
//! readings of the joined text.

mod smallest;
#[cfg(test)]
mod tests;

use crate::agree::started;
use crate::answer::Answer;
use crate::collector::{block_of, joined, step_done, Run, Step};
use crate::compare::settled_by_ours;
use crate::cuts::SORTS;
use crate::dice::Dice;
use crate::{original, ours, plain};
use smallest::smallest;
use std::io::{self, Write};

/// A collector's calls: ours, or in the tests one with a slip.
#[derive(Clone, Copy)]
struct Calls {
    feed: fn(&mut [u8], &[u8]) -> Option<u8>,
    end: fn(&mut [u8]) -> Option<Result<Answer, String>>,
}

const OURS: Calls = Calls {
    feed: ours::feed,
    end: ours::end,
};

/// Bytes before and after the block, which have to stay.
const MARGIN: usize = 16;
const UNTOUCHED: u8 = 0xA5;

/// The block as it is lent.
struct Lent(Vec<u8>);

impl Lent {
    fn new(block: &[u8]) -> Lent {
        Lent([&[UNTOUCHED; MARGIN], block, &[UNTOUCHED; MARGIN]].concat())
    }

    fn block(&mut self) -> &mut [u8] {
        let size = self.0.len() - 2 * MARGIN;
        &mut self.0[MARGIN..MARGIN + size]
    }

    /// What is wrong with it, if it should hold this.
    fn wrong(&self, block: &[u8]) -> Option<String> {
        let expected = Lent::new(block).0;
        if self.0 == expected {
            return None; // at once, as pieces are many
        }
        let mut places = self.0.iter().zip(&expected).enumerate();
        let (place, (found, expected)) = places.find(|(_, (one, two))| one != two)?;
        let place = place as i64 - MARGIN as i64;
        Some(format!(
            "the byte at {place} of the block is {found}, not {expected}"
        ))
    }
}

/// What differs at this step, if something does. The text is what the plain collector has joined
/// so far.
fn step_differs(
    step: &Step,
    text: &Option<Vec<u8>>,
    lent: &mut Lent,
    calls: Calls,
) -> Option<String> {
    match step {
        Step::Feed(piece) => {
            let number = (calls.feed)(lent.block(), piece)?;
            let plain = if text.is_some() { 0 } else { 6 };
            (number != plain).then(|| format!("the piece is answered {number}, not {plain}"))
        }
        Step::End => {
            let plain = match text {
                Some(text) => plain::read(text),
                None => Answer::refused(6),
            };
            match (calls.end)(lent.block())? {
                Ok(answer) if answer == plain => None,
                Ok(answer) => Some(format!("the end is answered {answer}, not {plain}")),
                Err(why) => Some(format!("the end is answered with {why}, not {plain}")),
            }
        }
    }
}

/// The first step that differs from the plain collector, in its answer or in the block it leaves.
fn difference(run: &Run, calls: Calls) -> Option<String> {
    let mut lent = Lent::new(&run.block);
    let mut text = joined(&run.block);
    for (place, step) in run.steps.iter().enumerate() {
        let answered = step_differs(step, &text, &mut lent, calls);
        step_done(step, &mut text);
        let left = || match &text {
            Some(text) => lent.wrong(&block_of(text)),
            None => lent.wrong(&run.block),
        };
        if let Some(what) = answered.or_else(left) {
            return Some(format!("at step {}: {what}", place + 1));
        }
    }
    None
}

/// The answer at each end, once our collector has agreed with the plain one and every reader on
/// the joined text.
fn settled(run: &Run) -> Result<Vec<Answer>, String> {
    let mut answers = Vec::new();
    let mut text = joined(&run.block);
    for step in &run.steps {
        if let Step::End = step {
            answers.push(match &text {
                Some(text) => settled_by_ours(text)?,
                None => Answer::refused(6),
            });
        }
        step_done(step, &mut text);
    }
    if ours::PRESENT && difference(run, OURS).is_some() {
        return Err(told(run, OURS));
    }
    Ok(answers)
}

/// The smallest such run, and what differs in it.
fn told(run: &Run, calls: Calls) -> String {
    let run = smallest(run, |run| difference(run, calls).is_some());
    let what = difference(&run, calls).unwrap_or_default();
    format!("our collector differs {what}\n{run}")
}

/// Runs and pieces; how many ends got each number: 0 for accepted, 1 to 4 and 6 for refused.
#[derive(Clone, Copy, Default)]
struct Totals {
    runs: u64,
    pieces: u64,
    ends: [u64; 7],
}

/// A run of each sort in turn.
fn generated(count: u64, seed: u64) -> Result<Vec<(&'static str, Totals)>, String> {
    let mut dice = Dice::new(seed);
    let mut all = SORTS.map(|(name, _)| (name, Totals::default()));
    for turn in 0..count {
        let place = (turn % SORTS.len() as u64) as usize;
        let run = SORTS[place].1(&mut dice);
        let answers = settled(&run)?;
        let totals = &mut all[place].1;
        totals.runs += 1;
        totals.pieces += (run.steps.len() - answers.len()) as u64;
        for answer in answers {
            totals.ends[usize::from(answer.number())] += 1;
        }
    }
    Ok(all.to_vec())
}

pub fn run(out: &mut dyn Write, count: u64, seed: u64) -> Result<(), String> {
    started(out, count, "runs of a collector", seed)?;
    let all = generated(count, seed)?;
    shown(out, &all).map_err(|error| error.to_string())
}

fn shown(out: &mut dyn Write, all: &[(&str, Totals)]) -> io::Result<()> {
    writeln!(
        out,
        "sort                 runs     pieces   accepted refusal 1         2          3         4         6"
    )?;
    let mut sum = Totals::default();
    for (name, totals) in all {
        line(out, name, totals)?;
        sum.runs += totals.runs;
        sum.pieces += totals.pieces;
        for (total, more) in sum.ends.iter_mut().zip(totals.ends) {
            *total += more;
        }
    }
    line(out, "all", &sum)?;
    let original = match original::PRESENT {
        true => " and Type::parse",
        false => "; the original source is absent",
    };
    writeln!(
        out,
        "no difference between our collector and the plain one, blocks included, and none to our reader, the plain one{original} on the joined bytes"
    )
}

fn line(out: &mut dyn Write, name: &str, totals: &Totals) -> io::Result<()> {
    let Totals { runs, pieces, ends } = totals;
    let [accepted, one, two, three, four, _, six] = ends;
    writeln!(
        out,
        "{name:14} {runs:>10} {pieces:>10} {accepted:>10} {one:>9} {two:>9} {three:>10} {four:>9} {six:>9}"
    )
}
