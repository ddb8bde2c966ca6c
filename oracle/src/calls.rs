//! `oracle calls`: jobs for the Rattle program of `calls/`, which makes the calls that the C face doesn't
//! have, and what it has to print: the plain rows, the plain collector, the plain reading and the
//! scalars, which the original confirms where it is there.

use crate::answer::{Answer, LONGEST_TEXT};
use crate::collector::{block_of, joined, step_done, Run, Step, BLOCK};
use crate::cuts;
use crate::dice::Dice;
use crate::facts::confirmed;
use crate::plain;
use crate::sheets::{row_at, rows, LONGEST_SHEET, SORTS};

/// As many as the program's room holds.
const LONGEST_INPUT: usize = 262144;

/// How many sheets, and runs of a collector, of each sort. The interpreter that runs the program takes ten
/// million steps and no more, so they are few, sheets as long as may be are made apart, and runs are short.
const EACH: usize = 2;
const LONG: [&str; 2] = ["full", "over"];
const MOST_STEPS: usize = 6;

/// What the program reads, and what it has to print.
#[derive(Default)]
pub struct Jobs {
    pub input: Vec<u8>,
    pub output: Vec<u8>,
}

impl Jobs {
    pub fn new(seed: u64) -> Result<Jobs, String> {
        let mut jobs = Jobs::default();
        let mut dice = Dice::new(seed);
        jobs.scalars()?;
        for (_, make) in SORTS.iter().filter(|sort| !LONG.contains(&sort.0)) {
            (0..EACH).for_each(|_| jobs.sheet(&make(&mut dice)));
        }
        jobs.sheet(&long_sheet(LONGEST_SHEET));
        jobs.sheet(&long_sheet(LONGEST_SHEET + 1));
        for (_, make) in cuts::SORTS {
            let runs = (0..).map(|_| make(&mut dice)).filter(is_short);
            runs.take(EACH).for_each(|run| jobs.run(&run));
        }
        match jobs.input.len() <= LONGEST_INPUT {
            true => Ok(jobs),
            false => Err(format!("{} bytes of jobs are too many", jobs.input.len())),
        }
    }

    fn job(&mut self, which: u8, bytes: &[u8]) {
        self.input.push(which);
        self.input.extend(&(bytes.len() as u32).to_be_bytes()[1..]);
        self.input.extend(bytes);
    }

    fn line(&mut self, parts: &[&[u8]]) {
        self.output.extend(parts.join(&b' '));
        self.output.push(b'\n');
    }

    fn scalars(&mut self) -> Result<(), String> {
        for (scalar, (width, integer, float, bits)) in confirmed()? {
            let name = scalar.name().as_bytes();
            let (integer, float) = (u8::from(integer), u8::from(float));
            self.job(b'n', name);
            self.line(&[name, format!("{width} {integer} {float} {bits}").as_bytes()]);
        }
        Ok(())
    }

    /// Every row with its reading, and twice that there is no further one.
    fn sheet(&mut self, sheet: &[u8]) {
        self.job(b's', sheet);
        let mut place = 0;
        for row in rows(sheet) {
            place = self.cut("row", sheet, place);
            self.line(&[row, plain::read(row).to_string().as_bytes()]);
        }
        for _ in 0..2 {
            self.cut("none", sheet, place);
        }
        self.line(&[b"place", place.to_string().as_bytes()]);
    }

    /// Where the row at a place lies; answers where the next one begins.
    fn cut(&mut self, what: &str, sheet: &[u8], place: usize) -> usize {
        let row = row_at(sheet, place);
        let said = format!("{} {} {} {}", row.found, row.first, row.end, row.next);
        self.line(&[what.as_bytes(), said.as_bytes()]);
        row.next
    }

    /// The answer of each step, and what the collector holds after it.
    fn run(&mut self, run: &Run) {
        let fresh = run.block.iter().all(|byte| *byte == 0);
        self.job(b'b', if fresh { b"" } else { &run.block });
        self.held(&run.block);
        let mut text = joined(&run.block);
        for step in &run.steps {
            match step {
                Step::Feed(piece) => {
                    self.job(b'+', piece);
                    let number: &[u8] = if text.is_some() { b"0" } else { b"6" };
                    self.line(&[b"fed", number]);
                }
                Step::End => {
                    self.job(b'.', b"");
                    let answer = text.as_deref().map_or(Answer::refused(6), plain::read);
                    self.line(&[b"end", answer.to_string().as_bytes()]);
                }
            }
            step_done(step, &mut text);
            match &text {
                Some(text) => self.held(&block_of(text)),
                None => self.held(&run.block),
            }
        }
    }

    /// The number, the mark, and a sum in which every byte counts by its place.
    fn held(&mut self, block: &[u8]) {
        let (bytes, rest) = block.split_at(LONGEST_TEXT);
        let number = usize::from(rest[0]) * 256 + usize::from(rest[1]);
        let sum: usize = (1..)
            .zip(bytes)
            .map(|(n, byte)| n * usize::from(*byte))
            .sum();
        let said = format!("{number} {} {sum}", rest[2]);
        self.line(&[b"held", said.as_bytes()]);
    }
}

/// A short run of a collector: a block of another size, or with another mark than 0 and 1, is none.
fn is_short(run: &Run) -> bool {
    run.block.len() == BLOCK && run.block[BLOCK - 1] < 2 && run.steps.len() <= MOST_STEPS
}

/// So many bytes, in two rows.
fn long_sheet(len: usize) -> Vec<u8> {
    let mut sheet = b"token\n".to_vec();
    sheet.resize(len, b'f');
    sheet
}

#[cfg(test)]
mod tests {
    use super::*;

    #[test]
    fn jobs_and_lines() {
        let mut jobs = Jobs::default();
        jobs.sheet(b"f32\n\n");
        assert_eq!(jobs.input, b"s\x00\x00\x05f32\n\n");
        let f32 = plain::read(b"f32").to_string();
        let wanted = format!(
            "row 1 0 3 4\nf32 {f32}\nrow 1 4 4 5\n 3\nnone 0 5 5 5\nnone 0 5 5 5\nplace 5\n"
        );
        assert_eq!(String::from_utf8(jobs.output).unwrap(), wanted);
    }

    /// Each refusal of an end, and both answers of a piece, are among them.
    #[test]
    fn all_sorts() {
        let jobs = Jobs::new(1).unwrap();
        let lines: Vec<_> = jobs.output.split(|byte| *byte == b'\n').collect();
        for wanted in [
            "fed 0", "fed 6", "end 0 ", "end 1", "end 2 ", "end 3", "end 6", "row 1 ",
        ] {
            assert!(
                lines.iter().any(|line| line.starts_with(wanted.as_bytes())),
                "{wanted}"
            );
        }
        assert!(lines.iter().any(|line| line.starts_with(b"held 0 1 0")));
    }
}
