//! The fixed list: texts with the original's answers and the plain counts, one per line.

use crate::compare::settled;
use crate::dice::Dice;
use crate::escape::{escape, unescape};
use crate::exhaust::{Exhaust, FRAMES};
use crate::generate::GROUPS;
use crate::{nasty, original, plain, rows};
use std::collections::HashSet;

const SEED: u64 = 722;

/// Texts from each group, and how many of them may be no type at all.
const EACH: usize = 80;
const MOST_UNREAD: usize = 25;

/// The list's texts in order, without repetition.
pub struct Texts {
    pub document: Vec<Vec<u8>>,
    pub nasty: Vec<Vec<u8>>,
    /// One entry for each group, the exhaustive short ones last.
    pub generated: Vec<Vec<Vec<u8>>>,
}

impl Texts {
    pub fn new() -> Texts {
        let mut seen = HashSet::new();
        let mut fresh = |texts: Vec<Vec<u8>>| -> Vec<Vec<u8>> {
            texts
                .into_iter()
                .filter(|text| seen.insert(text.clone()))
                .collect()
        };
        let document = fresh(rows::ROWS.iter().map(|row| row.0.into()).collect());
        let nasty = fresh(nasty::all());
        let mut dice = Dice::new(SEED);
        let mut generated = Vec::new();
        for group in &GROUPS {
            generated.push(chosen(
                &mut seen,
                (0..100_000).map(|_| (group.make)(&mut dice)),
            ));
        }
        // A step that shares no factor with the alphabet's size spreads over all first bytes.
        let short = FRAMES
            .iter()
            .flat_map(|frame| Exhaust::new(*frame, 4).step_by(1999));
        generated.push(chosen(&mut seen, short));
        Texts {
            document,
            nasty,
            generated,
        }
    }

    pub fn all(&self) -> impl Iterator<Item = &Vec<u8>> {
        let generated = self.generated.iter().flatten();
        self.document.iter().chain(&self.nasty).chain(generated)
    }
}

/// The first fresh texts of a group, so many that all refusals and acceptance have room.
fn chosen(seen: &mut HashSet<Vec<u8>>, texts: impl Iterator<Item = Vec<u8>>) -> Vec<Vec<u8>> {
    let mut taken = Vec::new();
    let mut unread = 0;
    for text in texts {
        let none = plain::read(&text).number() == 3;
        if (none && unread == MOST_UNREAD) || !seen.insert(text.clone()) {
            continue;
        }
        unread += usize::from(none);
        taken.push(text);
        if taken.len() == EACH {
            break;
        }
    }
    taken
}

/// The whole file, and how many rows it has.
pub fn written() -> Result<(String, usize), String> {
    let texts = Texts::new();
    let document = texts.document.len();
    let by_hand = document + texts.nasty.len();
    let count = texts.all().count();
    let mut file = format!(
        "# Texts with the answers of the original Type::parse, and default counts worked out apart.\n\
         # Written by `oracle list`, seed {SEED}. A row is TEXT, a tab, ANSWER.\n\
         # TEXT: bytes 0x20 to 0x7e as they are, backslash as \\\\, every other byte as \\xHH, and a # at the front as \\x23.\n\
         # Rows 1 to {document} are document 01's, to {by_hand} chosen by hand, to {count} generated in groups.\n"
    );
    for text in texts.all() {
        file.push_str(&format!("{}\t{}\n", escape(text), settled(text)?));
    }
    Ok((file, count))
}

/// A part fits into the buffer of the program that replays the list.
const LONGEST_PART: usize = 65_000;

/// The file's lines in parts, in order.
pub fn parts(file: &str) -> Vec<String> {
    let mut parts = vec![String::new()];
    for line in file.split_inclusive('\n') {
        if parts[parts.len() - 1].len() + line.len() > LONGEST_PART {
            parts.push(String::new());
        }
        let last = parts.len() - 1;
        parts[last].push_str(line);
    }
    parts
}

/// Every row against the plain reading and, where present, the original; then the file as a whole.
pub fn check(file: &str) -> Result<usize, String> {
    let mut count = 0;
    for (place, line) in file.lines().enumerate() {
        if !line.starts_with('#') {
            check_row(line).map_err(|why| format!("line {}: {why}", place + 1))?;
            count += 1;
        }
    }
    if written()?.0 != file {
        return Err("the rows are right, but `oracle list` writes another list".to_string());
    }
    Ok(count)
}

fn check_row(line: &str) -> Result<(), String> {
    let (text, answer) = line.split_once('\t').ok_or("the row has no tab")?;
    let text = unescape(text.as_bytes())?;
    let plain = plain::read(&text);
    if plain.to_string() != answer {
        return Err(format!("listed  {answer}\n  plain   {plain}"));
    }
    match original::read(&text) {
        Some(original) if !original.agrees(&plain) => {
            Err(format!("listed  {answer}\n  original {original}"))
        }
        _ => Ok(()),
    }
}

#[cfg(test)]
mod tests {
    use super::*;

    #[test]
    fn the_list_is_long_varied_and_without_repetition() {
        let texts = Texts::new();
        let all: Vec<_> = texts.all().collect();
        assert!(all.len() > 1900);
        assert_eq!(all.iter().collect::<HashSet<_>>().len(), all.len());
        for number in 0..=4 {
            let count = all
                .iter()
                .filter(|text| plain::read(text).number() == number)
                .count();
            assert!(count >= 20, "{count} texts with number {number}");
        }
    }
}
