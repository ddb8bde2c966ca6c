//! Our readers, our writer and our totals, timed beside the original `Type::parse` in one run.

mod check;
mod clock;
mod entries;
mod groups;
mod insert;
mod lengths;
mod long;
mod machine;
mod marks;
mod over;
mod plot;
mod refused;
mod report;
mod run;
mod sheets;
mod stats;
mod svg;
mod table;
mod typical;

#[cfg(all(has_source, has_library))]
mod calls;
#[cfg(not(all(has_source, has_library)))]
#[path = "absent.rs"]
mod calls;

/// The oracle's own files: the original, our library's calls, plain readings, makers of texts.
#[allow(dead_code, unused_imports)]
#[path = "../../oracle/src"]
mod oracle {
    pub mod answer;
    #[cfg(has_source)]
    pub mod bytecode;
    pub mod clauses;
    pub mod damage;
    pub mod dice;
    pub mod flat;
    pub mod forms;
    pub mod generate;
    #[cfg(has_source)]
    pub mod ir;
    pub mod original;
    pub mod ours;
    #[rustfmt::skip]
    pub mod pieces;
    pub mod plain;
    pub mod records;
    #[cfg(has_source)]
    pub mod requirements;
    // Their tests come along, and name these two.
    #[cfg(test)]
    #[rustfmt::skip]
    pub mod rows;
    pub mod scalar;
    pub mod spell;
    pub mod strict;
    #[cfg(test)]
    pub mod write;
}

// Under the names by which they call each other.
use oracle::{
    answer, clauses, damage, dice, flat, forms, generate, original, ours, pieces, plain, records,
    scalar, spell, strict,
};
#[cfg(has_source)]
use oracle::{bytecode, ir, requirements};
#[cfg(test)]
use oracle::{rows, write};

use std::env;
use std::process::ExitCode;

const HELP: &str = "\
bench: our readers, our writer and our totals of sheets, timed beside the original Type::parse in
one run

  bench [--quick] [--markdown FILE] [--svg FILE]
  bench --over GROUP CALL ROUNDS

  --quick          fewer rounds: some seconds, with a wider spread
  --markdown FILE  puts the tables into FILE as well, between its lines
                   `<!-- bench: begin -->` and `<!-- bench: end -->`
  --svg FILE       writes the plot
  --over ..        one CALL (theirs, ordinary, strict) over the texts of one group, so many times,
                   with nothing timed, for what counts instructions; prints how many texts it has

First every text is read once by each reader, and its answer is held to what its group says; then
all groups are timed, and the tables printed. The texts are made from a fixed seed.

It needs the original source and our library, both found at build time: CUTILE_IR_SRC names the
folder that holds src/ir/types.rs, TYPETEXT_LIB the one that holds libcapi.a. `bash tools/bench`
builds both and runs this program; docs/PERFORMANCE.md says what is measured.
Exit: 0 all was measured, 1 an answer is wrong, the cost isn't linear or something can't be done,
2 the words aren't understood. How fast anything is doesn't count.
";

fn main() -> ExitCode {
    let words: Vec<String> = env::args().skip(1).collect();
    let words: Vec<&str> = words.iter().map(String::as_str).collect();
    if words.iter().any(|word| matches!(*word, "--help" | "-h")) {
        print!("{HELP}");
        return ExitCode::SUCCESS;
    }
    let wanted = match wanted(&words) {
        Ok(wanted) => wanted,
        Err(why) => {
            eprintln!("bench: {why}; `bench --help` says what there is");
            return ExitCode::from(2);
        }
    };
    let done = original::needed()
        .and_then(|()| ours::needed())
        .and_then(|()| match &wanted.over {
            Some(over) => over::run(over),
            None => run::run(&wanted),
        });
    match done {
        Ok(()) => ExitCode::SUCCESS,
        Err(why) => {
            eprintln!("bench: {why}");
            ExitCode::from(1)
        }
    }
}

fn wanted(words: &[&str]) -> Result<run::Wanted, String> {
    let mut wanted = run::Wanted::default();
    let mut words = words.iter();
    while let Some(word) = words.next() {
        let mut file = || match words.next() {
            Some(file) if !file.starts_with("--") => Ok(Some(file.into())),
            _ => Err(format!("`{word}` needs a file")),
        };
        match *word {
            "--quick" => wanted.quick = true,
            "--markdown" => wanted.markdown = file()?,
            "--svg" => wanted.svg = file()?,
            "--over" => {
                let needs = || "`--over` needs a group, a call and a number".to_string();
                let mut next = || words.next().copied().ok_or_else(needs);
                wanted.over = Some(over::over(next()?, next()?, next()?)?);
            }
            _ => return Err(format!("`{word}` isn't understood")),
        }
    }
    Ok(wanted)
}

#[cfg(test)]
mod tests {
    use super::wanted;

    #[test]
    fn words_are_understood_or_refused() {
        let both = wanted(&["--svg", "a.svg", "--quick"]).unwrap();
        assert!(both.quick && both.svg.is_some() && both.markdown.is_none());
        assert!(wanted(&["--over", "e3", "ordinary", "1"]).is_ok_and(|it| it.over.is_some()));
        for wrong in [
            &["--svg"][..],
            &["--svg", "--quick"],
            &["quick"],
            &["--over", "e3"],
        ] {
            assert!(wanted(wrong).is_err(), "{wrong:?}");
        }
    }
}
