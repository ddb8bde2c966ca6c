//! `oracle sheets`: our totals and our walk beside plain ones, written from request C-11 and
//! docs/ABI.md alone, on sheets of texts.

mod made;
#[cfg(test)]
mod tests;

use crate::agree::started;
use crate::answer::Answer;
use crate::compare::shrunk;
use crate::dice::Dice;
use crate::escape::escape;
use crate::ours::{self, Row, Totals};
use crate::plain;
pub use made::SORTS;
use std::io::{self, Write};

/// "sheet over 65,536 bytes"
pub const LONGEST_SHEET: usize = 65536;

/// "Rows end with byte 10; a last row without it counts if it has a byte." "9, sheet over 65,536
/// bytes; no row is yielded"
pub fn rows(sheet: &[u8]) -> Vec<&[u8]> {
    if sheet.len() > LONGEST_SHEET {
        return Vec::new();
    }
    let mut rows: Vec<&[u8]> = sheet.split(|byte| *byte == 10).collect();
    if rows.last() == Some(&&b""[..]) {
        rows.pop();
    }
    rows
}

fn refusal(sheet: &[u8]) -> u8 {
    match sheet.len() > LONGEST_SHEET {
        true => 9,
        false => 0,
    }
}

fn totals(sheet: &[u8]) -> Totals {
    let mut totals = Totals {
        refusal: refusal(sheet),
        ..Totals::default()
    };
    for row in rows(sheet) {
        totals.rows += 1;
        match plain::read(row) {
            Answer::Refused { number, .. } => totals.refused[usize::from(number) - 1] += 1,
            Answer::Accepted(_, counts) => {
                let counts = counts.unwrap_or_default();
                let counts = [counts.a, counts.b, counts.c, counts.d];
                totals.accepted += 1;
                for (total, more) in totals.counts.iter_mut().zip(counts) {
                    *total += more as usize;
                }
            }
        }
    }
    totals
}

/// The row that begins at this place.
pub fn row_at(sheet: &[u8], place: usize) -> Row {
    let refusal = refusal(sheet);
    if refusal != 0 || place >= sheet.len() {
        return Row {
            first: place,
            end: place,
            next: place,
            found: 0,
            refusal,
        };
    }
    let feed = sheet[place..].iter().position(|byte| *byte == 10);
    let (end, next) = match feed {
        Some(len) => (place + len, place + len + 1),
        None => (sheet.len(), sheet.len()),
    };
    Row {
        first: place,
        end,
        next,
        found: 1,
        refusal,
    }
}

/// A sheet's calls: ours, or in the tests some with a slip.
#[derive(Clone, Copy)]
struct Calls {
    totals: fn(&[u8]) -> Option<Totals>,
    next_row: fn(&[u8], usize) -> Option<Row>,
}

const OURS: Calls = Calls {
    totals: ours::totals,
    next_row: ours::next_row,
};

/// Stands before and after the sheet: what isn't of the sheet must not count.
const BESIDE: &[u8] = b"token\ntoken\n";

/// Places that no walk comes to: within rows, at line feeds, at the end and past it.
fn places(len: usize) -> impl Iterator<Item = usize> {
    let near = [
        len / 3,
        len / 2,
        len.saturating_sub(1),
        len,
        len + 1,
        len + 2,
    ];
    let far = [LONGEST_SHEET, LONGEST_SHEET + 1, usize::MAX];
    (0..len.min(9)).chain(near).chain(far)
}

/// What differs, if anything does: in the totals, in a row of the walk, or at some place.
fn difference(sheet: &[u8], calls: Calls) -> Option<String> {
    let lent = [BESIDE, sheet, BESIDE].concat();
    let lent = &lent[BESIDE.len()..BESIDE.len() + sheet.len()];
    let (ours, plain) = ((calls.totals)(lent)?, totals(sheet));
    if ours != plain {
        return Some(format!(
            "in the totals\n  ours     {ours:?}\n  plain    {plain:?}"
        ));
    }
    let mut walked = Vec::new();
    let mut place = 0;
    while let Some(row) = (calls.next_row)(lent, place).filter(|row| row.found == 1) {
        let inside = row.first <= row.end && row.end <= sheet.len() && row.next > place;
        if !inside {
            return Some(format!("at place {place}: {row:?} is no row of the sheet"));
        }
        walked.push(&sheet[row.first..row.end]);
        place = row.next;
    }
    if walked != rows(sheet) {
        return Some(format!(
            "in the rows of the walk, of which it has {}",
            walked.len()
        ));
    }
    places(sheet.len()).find_map(|place| {
        let (ours, plain) = ((calls.next_row)(lent, place)?, row_at(sheet, place));
        let told = || format!("at place {place}\n  ours     {ours:?}\n  plain    {plain:?}");
        (ours != plain).then(told)
    })
}

/// A long sheet loses rows first, many at once, as trying every byte of it would take hours.
fn smallest(sheet: &[u8], bad: impl Fn(&[u8]) -> bool) -> Vec<u8> {
    let mut best: Vec<Vec<u8>> = sheet
        .split_inclusive(|byte| *byte == 10)
        .map(Vec::from)
        .collect();
    let mut size = best.len();
    while size > 0 {
        let mut start = 0;
        while start + size <= best.len() {
            let mut fewer = best.clone();
            fewer.drain(start..start + size);
            match bad(&fewer.concat()) {
                true => best = fewer,
                false => start += size,
            }
        }
        size /= 2;
    }
    let best = best.concat();
    match best.len() < 3000 {
        true => shrunk(&best, bad),
        false => best,
    }
}

fn told(sheet: &[u8], calls: Calls) -> String {
    let sheet = smallest(sheet, |sheet| difference(sheet, calls).is_some());
    let what = difference(&sheet, calls).unwrap_or_default();
    let (len, shown) = (sheet.len(), escape(&sheet[..sheet.len().min(400)]));
    format!("our sheet differs {what}\n  sheet    of {len} bytes: {shown}")
}

/// How many sheets there were, how many of them were refused, and the sums of their totals.
#[derive(Debug, Clone, Copy, Default)]
struct Seen {
    sheets: usize,
    over: usize,
    sums: Totals,
}

impl Seen {
    fn add(&mut self, other: &Seen) {
        self.sheets += other.sheets;
        self.over += other.over;
        self.sums.rows += other.sums.rows;
        self.sums.accepted += other.sums.accepted;
        for (sum, more) in self.sums.refused.iter_mut().zip(other.sums.refused) {
            *sum += more;
        }
    }
}

/// A sheet of each sort in turn.
fn generated(count: u64, seed: u64, calls: Calls) -> Result<Vec<(&'static str, Seen)>, String> {
    let mut dice = Dice::new(seed);
    let mut all = SORTS.map(|(name, _)| (name, Seen::default()));
    for turn in 0..count {
        let place = (turn % SORTS.len() as u64) as usize;
        let sheet = SORTS[place].1(&mut dice);
        if difference(&sheet, calls).is_some() {
            return Err(told(&sheet, calls));
        }
        let sums = totals(&sheet);
        all[place].1.add(&Seen {
            sheets: 1,
            over: usize::from(sums.refusal == 9),
            sums,
        });
    }
    Ok(all.to_vec())
}

pub fn run(out: &mut dyn Write, count: u64, seed: u64) -> Result<(), String> {
    started(out, count, "sheets", seed)?;
    let all = generated(count, seed, OURS)?;
    shown(out, &all).map_err(|error| error.to_string())
}

fn shown(out: &mut dyn Write, all: &[(&str, Seen)]) -> io::Result<()> {
    writeln!(
        out,
        "sort               sheets  refused 9       rows   accepted refusal 1         2          3         4"
    )?;
    let mut sum = Seen::default();
    for (name, seen) in all {
        line(out, name, seen)?;
        sum.add(seen);
    }
    line(out, "all", &sum)?;
    writeln!(
        out,
        "no difference between our totals, our rows and the plain ones, at any place that was asked for"
    )
}

fn line(out: &mut dyn Write, name: &str, seen: &Seen) -> io::Result<()> {
    let Seen { sheets, over, sums } = seen;
    let (rows, accepted, [one, two, three, four]) = (sums.rows, sums.accepted, sums.refused);
    writeln!(
        out,
        "{name:14} {sheets:>10} {over:>10} {rows:>10} {accepted:>10} {one:>9} {two:>9} {three:>10} {four:>9}"
    )
}
