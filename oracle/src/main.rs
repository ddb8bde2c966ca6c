//! The original `Type::parse`, run beside a plain second reading of the same texts.

mod agree;
mod answer;
#[cfg(has_source)]
mod bytecode;
mod calls;
mod clauses;
mod collector;
mod compare;
mod cuts;
mod damage;
mod dice;
#[cfg(test)]
mod differences;
mod escape;
mod exhaust;
mod facts;
mod flat;
mod forms;
mod fragments;
mod generate;
#[cfg(has_source)]
mod ir;
mod list;
#[rustfmt::skip]
mod nasty;
mod nearly;
mod original;
mod ours;
#[rustfmt::skip]
mod pieces;
mod plain;
mod records;
#[cfg(has_source)]
mod requirements;
#[rustfmt::skip]
mod rows;
mod round;
mod scalar;
mod sheets;
mod shown;
mod spell;
mod strict;
mod strictly;
mod table;
mod write;

use std::env;
use std::fs;
use std::io::{self, Write};
use std::path::{Path, PathBuf};
use std::process::ExitCode;

const HELP: &str = "\
oracle: the original Type::parse, run beside a plain second reading of the same texts; our readers,
our writer, our collector and our sheets beside plain ones

  oracle answer [--plain|--original]   answers for the texts of standard input, one per line
                                       (escapes \\\\ and \\xHH); by default both are read, and a
                                       difference is noted
  oracle agree COUNT [SEED]            both readings on COUNT generated texts and all short ones
  oracle compare COUNT [SEED|--quick]  our reader beside both, counts included, on COUNT generated
                                       texts, all short ones and all short contents of each form
  oracle strict COUNT [SEED]           our strict reader beside a plain recogniser, on COUNT strict,
                                       nearly strict and damaged texts and on the list; each strict
                                       text beside the ordinary readings
  oracle round COUNT [SEED]            our writer beside a plain one on COUNT records in rooms of
                                       several sizes; what is written is read back by every reader
  oracle fragments COUNT [SEED]        our collector on COUNT runs of texts in pieces, and on blocks
                                       that are not in order, beside a plain one; each end beside
                                       our reader and both readings on the joined bytes
  oracle sheets COUNT [SEED]           our totals and our rows on COUNT sheets of texts beside plain
                                       ones, sheets about as long as one may be included
  oracle calls DIR [SEED]              writes DIR/stdin and DIR/stdout: jobs for the Rattle program of
                                       calls/ and what it has to print, by the plain versions
  oracle list [DIR]                    writes the fixed list anew: DIR/list1.txt, DIR/list2.txt, ...
  oracle check-list [DIR]              checks every row of the list, and that it would be written so
  oracle table DIR                     writes DIR/Part1.antt, DIR/Part2.antt, ...
  oracle check-table DIR               checks that the parts in DIR are what `table` writes
  oracle scalars                       widths, kinds and bits of the 16 scalars

The list's DIR is crates/replay/data unless named. `--original`, `agree` and `list` need the
original source, found at build time: CUTILE_IR_SRC names the folder that holds src/ir/types.rs.
The other commands also hold it beside the plain reading where it is there. `compare`, `strict`,
`round`, `fragments` and `sheets` need our library: TYPETEXT_LIB names the folder that holds libcapi.a.
Exit: 0 all is well, 1 something differs or can't be done, 2 the command isn't understood.
";

/// What went wrong, and so which number the program ends with.
enum Failure {
    Usage(String),
    Failed(String),
}

impl From<String> for Failure {
    fn from(why: String) -> Failure {
        Failure::Failed(why)
    }
}

impl From<io::Error> for Failure {
    fn from(why: io::Error) -> Failure {
        Failure::Failed(why.to_string())
    }
}

fn main() -> ExitCode {
    let words: Vec<String> = env::args().skip(1).collect();
    let words: Vec<&str> = words.iter().map(String::as_str).collect();
    let mut out = io::BufWriter::new(io::stdout().lock());
    let done = run(&words, &mut out).and_then(|()| Ok(out.flush()?));
    match done {
        Ok(()) => ExitCode::SUCCESS,
        Err(Failure::Failed(why)) => {
            let _ = out.flush();
            eprintln!("oracle: {why}");
            ExitCode::from(1)
        }
        Err(Failure::Usage(why)) => {
            eprintln!("oracle: {why}; `oracle --help` lists the commands");
            ExitCode::from(2)
        }
    }
}

fn run(words: &[&str], out: &mut dyn Write) -> Result<(), Failure> {
    if words.iter().any(|word| matches!(*word, "--help" | "-h")) {
        return Ok(out.write_all(HELP.as_bytes())?);
    }
    match words {
        ["answer"] => shown::answers(out, shown::Which::Both)?,
        ["answer", "--plain"] => shown::answers(out, shown::Which::Plain)?,
        ["answer", "--original"] => shown::answers(out, shown::Which::Original)?,
        ["agree", count] => agree(out, count, "1")?,
        ["agree", count, seed] => agree(out, count, seed)?,
        ["compare", count] => compare(out, count, "1", false)?,
        ["compare", count, "--quick"] => compare(out, count, "1", true)?,
        ["compare", count, seed] => compare(out, count, seed, false)?,
        ["strict", count] => strict(out, count, "1")?,
        ["strict", count, seed] => strict(out, count, seed)?,
        ["round", count] => round(out, count, "1")?,
        ["round", count, seed] => round(out, count, seed)?,
        ["fragments", count] => fragments(out, count, "1")?,
        ["fragments", count, seed] => fragments(out, count, seed)?,
        ["sheets", count] => sheets(out, count, "1")?,
        ["sheets", count, seed] => sheets(out, count, seed)?,
        ["calls", folder] => calls(out, Path::new(folder), "1")?,
        ["calls", folder, seed] => calls(out, Path::new(folder), seed)?,
        ["list"] => list(out, &list_path())?,
        ["list", folder] => list(out, Path::new(folder))?,
        ["check-list"] => check_list(out, &list_path())?,
        ["check-list", folder] => check_list(out, Path::new(folder))?,
        ["table", folder] => table(out, Path::new(folder), false)?,
        ["check-table", folder] => table(out, Path::new(folder), true)?,
        ["scalars"] => shown::scalars(out)?,
        [] => return Err(Failure::Usage("no command".to_string())),
        _ => {
            return Err(Failure::Usage(format!(
                "`{}` isn't understood",
                words.join(" ")
            )))
        }
    }
    Ok(())
}

fn list_path() -> PathBuf {
    Path::new(env!("CARGO_MANIFEST_DIR")).join("../crates/replay/data")
}

fn number(word: &str) -> Result<u64, Failure> {
    let told = |_| Failure::Usage(format!("`{word}` isn't a number"));
    word.parse().map_err(told)
}

fn agree(out: &mut dyn Write, count: &str, seed: &str) -> Result<(), Failure> {
    let (count, seed) = (number(count)?, number(seed)?);
    original::needed()?;
    Ok(agree::agree(out, count, seed)?)
}

fn compare(out: &mut dyn Write, count: &str, seed: &str, quick: bool) -> Result<(), Failure> {
    let (count, seed) = (number(count)?, number(seed)?);
    ours::needed()?;
    Ok(agree::compare(out, count, seed, quick)?)
}

fn strict(out: &mut dyn Write, count: &str, seed: &str) -> Result<(), Failure> {
    let (count, seed) = (number(count)?, number(seed)?);
    ours::needed()?;
    Ok(strictly::run(out, count, seed)?)
}

fn round(out: &mut dyn Write, count: &str, seed: &str) -> Result<(), Failure> {
    let (count, seed) = (number(count)?, number(seed)?);
    ours::needed()?;
    Ok(round::run(out, count, seed)?)
}

fn fragments(out: &mut dyn Write, count: &str, seed: &str) -> Result<(), Failure> {
    let (count, seed) = (number(count)?, number(seed)?);
    ours::needed()?;
    Ok(fragments::run(out, count, seed)?)
}

fn sheets(out: &mut dyn Write, count: &str, seed: &str) -> Result<(), Failure> {
    let (count, seed) = (number(count)?, number(seed)?);
    ours::needed()?;
    Ok(sheets::run(out, count, seed)?)
}

fn calls(out: &mut dyn Write, folder: &Path, seed: &str) -> Result<(), Failure> {
    let jobs = calls::Jobs::new(number(seed)?)?;
    for (name, bytes) in [("stdin", &jobs.input), ("stdout", &jobs.output)] {
        let path = folder.join(name);
        fs::write(&path, bytes).map_err(|why| format!("{}: {why}", path.display()))?;
    }
    let lines = jobs.output.iter().filter(|byte| **byte == b'\n').count();
    Ok(writeln!(
        out,
        "{} bytes of jobs and {lines} lines of answers written",
        jobs.input.len()
    )?)
}

/// The n-th part of the list, from 1.
fn part_path(folder: &Path, n: usize) -> PathBuf {
    folder.join(format!("list{n}.txt"))
}

fn list(out: &mut dyn Write, folder: &Path) -> Result<(), Failure> {
    original::needed()?;
    let (file, rows) = list::written()?;
    let parts = list::parts(&file);
    for (place, part) in parts.iter().enumerate() {
        let path = part_path(folder, place + 1);
        fs::write(&path, part).map_err(|why| format!("{}: {why}", path.display()))?;
    }
    Ok(writeln!(
        out,
        "{rows} rows written in {} parts",
        parts.len()
    )?)
}

/// Which readings a check has held its rows against.
fn against() -> &'static str {
    match original::PRESENT {
        true => "against the plain reading and the original",
        false => "against the plain reading alone, as the original source is absent",
    }
}

fn check_list(out: &mut dyn Write, folder: &Path) -> Result<(), Failure> {
    let mut file = String::new();
    for n in 1.. {
        match fs::read_to_string(part_path(folder, n)) {
            Ok(part) => file.push_str(&part),
            Err(_) if n > 1 => break,
            Err(why) => return Err(format!("{}: {why}", part_path(folder, n).display()).into()),
        }
    }
    let rows = list::check(&file)?;
    Ok(writeln!(out, "{rows} rows checked {}", against())?)
}

fn table(out: &mut dyn Write, folder: &Path, check: bool) -> Result<(), Failure> {
    let table = table::Table::new()?;
    let done = if check {
        table.check(folder)?;
        "checked"
    } else {
        table.write(folder)?;
        "written"
    };
    let (rows, files) = (table.rows, table.files.len());
    Ok(writeln!(
        out,
        "{rows} rows in {files} files {done} {}",
        against()
    )?)
}
