//! One run: check, time, print, and write what was asked for.

use crate::clock::{self, Call, SHEETS, TEXTS};
use crate::dice::Dice;
use crate::groups::{self, Group};
use crate::lengths::{self, LENGTHS, WAYS};
use crate::over::Over;
use crate::report::{self, Measured};
use crate::stats::least;
use crate::table::Table;
use crate::{calls, check, insert, machine, plot, sheets};
use std::env::consts::ARCH;
use std::fs;
use std::io::{self, ErrorKind, Write};
use std::path::{Path, PathBuf};

#[derive(Default)]
pub struct Wanted {
    pub quick: bool,
    pub markdown: Option<PathBuf>,
    pub svg: Option<PathBuf>,
    pub over: Option<Over>,
}

const ROUNDS: usize = 1001;
const QUICK: usize = 101;

/// From 128 to 1,024 bytes a linear cost grows 8 times at most, a square one 64 times.
const LINEAR: f64 = 12.0;

pub fn run(wanted: &Wanted) -> Result<(), String> {
    let page = wanted.markdown.as_deref().map(read_page).transpose()?;
    wanted.svg.as_deref().map(can_store).transpose()?;
    let rounds = if wanted.quick { QUICK } else { ROUNDS };
    let mut all = groups::all();
    for group in &mut all {
        if group.says.strict == [0] {
            group.records = group.texts.iter().map(|text| calls::record(text)).collect();
        }
    }
    let lines = lengths::all(&mut Dice::new(9));
    all.iter().chain(&lines).try_for_each(check::answers)?;
    let sheets = sheets::all(&mut Dice::new(11));
    sheets.iter().try_for_each(check::sheets)?;
    eprintln!("bench: every text has its answer; timing {rounds} rounds");
    let (all, lines) = (timed(all, &TEXTS, rounds), timed(lines, &TEXTS, rounds));
    let sheets = timed(sheets, &SHEETS, rounds);
    let machine = format!("Measured on {}; {rounds} rounds.", machine::line());
    let tables = [
        report::texts(&all),
        report::reading(&all),
        report::strict(&all),
        report::writing(&all),
        report::sheets(&sheets),
        report::lengths(&lines),
    ];
    say(&format!("{machine}\n"))?;
    for table in &tables {
        say(&table.plain())?;
    }
    if let (Some(path), Some(page)) = (&wanted.markdown, page) {
        let page = insert::between(&page, ARCH, &markdown(&machine, &tables));
        store(path, &page?)?;
    }
    if let Some(path) = &wanted.svg {
        store(path, &plot::drawn(&all, &lines))?;
    }
    linear(&lines)
}

fn timed(groups: Vec<Group>, calls: &[Call], rounds: usize) -> Vec<Measured> {
    let times = clock::measure(&groups, calls, rounds);
    let pairs = groups.into_iter().zip(times);
    pairs
        .map(|(group, times)| Measured { group, times })
        .collect()
}

fn markdown(machine: &str, tables: &[Table]) -> String {
    let tables: Vec<String> = tables.iter().map(Table::markdown).collect();
    format!("{machine}\n\n{}", tables.join("\n"))
}

/// By the best round of each length, which other work on the machine disturbs least.
fn linear(lines: &[Measured]) -> Result<(), String> {
    for (way, four) in WAYS.iter().zip(lines.chunks(LENGTHS.len())) {
        for (call, name) in [(Call::Ordinary, "ordinary"), (Call::Strict, "strict")] {
            let best = |place: usize| least(four[place].times.of(call));
            grown(best(0), best(LENGTHS.len() - 1))
                .map_err(|why| format!("texts longer by {}, {name} reader: {why}", way.name))?;
        }
    }
    say(&format!(
        "Linear: 1,024 bytes cost at most {LINEAR} times what 128 do, with both readers."
    ))
}

/// From 128 bytes to 1,024.
fn grown(first: f64, last: f64) -> Result<(), String> {
    let times = last / first;
    if times <= LINEAR {
        return Ok(());
    }
    Err(format!(
        "the cost isn't linear: 1,024 bytes cost {times:.1} times what 128 do, over {LINEAR}"
    ))
}

/// The page with its markers, before anything is measured in vain.
fn read_page(path: &Path) -> Result<String, String> {
    let told = |why: String| format!("{}: {why}", path.display());
    let page = fs::read_to_string(path).map_err(|why| told(why.to_string()))?;
    insert::between(&page, ARCH, "").map_err(told)?;
    Ok(page)
}

fn store(path: &Path, text: &str) -> Result<(), String> {
    fs::write(path, text).map_err(|why| format!("{}: {why}", path.display()))?;
    say(&format!("written: {}", path.display()))
}

/// Said before anything is measured in vain; a file that stands stays as it is.
fn can_store(path: &Path) -> Result<(), String> {
    let opened = fs::OpenOptions::new().create(true).append(true).open(path);
    opened
        .map(|_| ())
        .map_err(|why| format!("{}: {why}", path.display()))
}

/// A line on standard output; that its reader has gone is no failure.
fn say(line: &str) -> Result<(), String> {
    match writeln!(io::stdout(), "{line}") {
        Err(why) if why.kind() != ErrorKind::BrokenPipe => Err(why.to_string()),
        _ => Ok(()),
    }
}

#[cfg(test)]
mod tests {
    use super::grown;

    #[test]
    fn a_square_cost_is_told_from_a_linear_one() {
        assert!(grown(100.0, 800.0).is_ok());
        assert!(grown(100.0, 6400.0).is_err());
        assert!(grown(500.0, 400.0).is_ok());
    }
}
