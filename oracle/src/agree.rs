//! `oracle agree` and `oracle compare`: many texts, several readings, totals per group and refusal.

use crate::answer::Answer;
use crate::compare::{settled, settled_by_ours};
use crate::dice::Dice;
use crate::exhaust::{Exhaust, FORMS, FRAMES};
use crate::generate::GROUPS;
use std::io::{self, Write};

/// Short texts of up to so many bytes stand in each frame.
const LONGEST: usize = 4;

/// How many texts got each number: 0 for accepted, 1 to 4 for refused.
type Totals = [u64; 5];

fn line(out: &mut dyn Write, name: &str, totals: &Totals) -> io::Result<()> {
    let all: u64 = totals.iter().sum();
    let [accepted, one, two, three, four] = totals;
    writeln!(
        out,
        "{name:14} {all:>10} {accepted:>10} {one:>9} {two:>9} {three:>10} {four:>9}"
    )
}

/// What a text is held against: the answer that all readings agreed on.
type Hold = fn(&[u8]) -> Result<Answer, String>;

/// Every text of every group in turn; an error names the smallest text that differs.
fn generated(count: u64, seed: u64, hold: Hold) -> Result<Vec<(&'static str, Totals)>, String> {
    let mut dice = Dice::new(seed);
    let mut all: Vec<_> = GROUPS.iter().map(|g| (g.name, Totals::default())).collect();
    for turn in 0..count {
        let place = (turn % GROUPS.len() as u64) as usize;
        let text = (GROUPS[place].make)(&mut dice);
        all[place].1[usize::from(hold(&text)?.number())] += 1;
    }
    Ok(all)
}

/// All texts of up to `longest` bytes in each frame.
fn exhausted(
    frames: &[(&'static str, &'static str)],
    longest: usize,
    hold: Hold,
) -> Result<Totals, String> {
    let mut short = Totals::default();
    for text in frames
        .iter()
        .flat_map(|frame| Exhaust::new(*frame, longest))
    {
        short[usize::from(hold(&text)?.number())] += 1;
    }
    Ok(short)
}

/// Original and plain reading.
pub fn agree(out: &mut dyn Write, count: u64, seed: u64) -> Result<(), String> {
    started(out, count, "generated texts", seed)?;
    let mut all = generated(count, seed, settled)?;
    all.push(("exhaustive", exhausted(&FRAMES, LONGEST, settled)?));
    ended(out, &all, "no difference in type, refusal or place")
}

/// All texts of up to so many bytes stand bare.
const LONGEST_BARE: usize = 6;

/// Original, plain and our own reading, counts included.
pub fn compare(out: &mut dyn Write, count: u64, seed: u64, quick: bool) -> Result<(), String> {
    started(out, count, "generated texts", seed)?;
    let hold = settled_by_ours;
    let mut all = generated(count, seed, hold)?;
    let (bare, framed) = if quick {
        (3, 2)
    } else {
        (LONGEST_BARE, LONGEST)
    };
    all.push(("all short", exhausted(&FRAMES[..1], bare, hold)?));
    all.push(("in each form", exhausted(&FORMS, framed, hold)?));
    all.push(("in frames", exhausted(&FRAMES[1..], framed, hold)?));
    ended(out, &all, "no difference in type, refusal, place or counts")
}

/// A command's first line, seen before its work begins.
pub fn started(out: &mut dyn Write, count: u64, what: &str, seed: u64) -> Result<(), String> {
    let told = |error: io::Error| error.to_string();
    writeln!(out, "seed {seed}, {count} {what}").map_err(told)?;
    out.flush().map_err(told)
}

fn ended(out: &mut dyn Write, all: &[(&str, Totals)], last: &str) -> Result<(), String> {
    let told = |error: io::Error| error.to_string();
    let mut sum = Totals::default();
    writeln!(
        out,
        "group               texts   accepted refusal 1         2          3         4"
    )
    .map_err(told)?;
    for (name, totals) in all {
        line(out, name, totals).map_err(told)?;
        for (total, more) in sum.iter_mut().zip(totals) {
            *total += more;
        }
    }
    line(out, "all", &sum).map_err(told)?;
    writeln!(out, "{last}").map_err(told)
}
