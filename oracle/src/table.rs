//! The table for the prover: a part of the list as rows of the proof language, in several files.

use crate::answer::{Answer, Counts, Kind, Padding, Record, DYNAMIC};
use crate::compare::settled;
use crate::facts::{confirmed, Facts};
use crate::list::Texts;
use crate::scalar::Scalar;
use std::fs;
use std::path::Path;

/// Rows to a file, and the generated texts taken from each group.
const PART: usize = 100;
const EACH: usize = 4;
const LONGEST_GENERATED: usize = 160;

/// File names with their contents, and the number of rows in all.
pub struct Table {
    pub files: Vec<(String, String)>,
    pub rows: usize,
}

impl Table {
    pub fn new() -> Result<Table, String> {
        let texts = chosen();
        let parts = texts.len().div_ceil(PART);
        let mut files = Vec::new();
        for (place, part) in texts.chunks(texts.len().div_ceil(parts)).enumerate() {
            let number = place + 1;
            files.push((format!("Part{number}.antt"), file(number, part)?));
        }
        files.push(("Scalars.antt".to_string(), scalars()?));
        let rows = texts.len();
        Ok(Table { files, rows })
    }

    pub fn write(&self, folder: &Path) -> Result<(), String> {
        for (name, content) in &self.files {
            let path = folder.join(name);
            fs::write(&path, content).map_err(|why| format!("{}: {why}", path.display()))?;
        }
        Ok(())
    }

    /// The folder's parts are these, and there is none beyond them.
    pub fn check(&self, folder: &Path) -> Result<(), String> {
        for (name, content) in &self.files {
            let path = folder.join(name);
            let found =
                fs::read_to_string(&path).map_err(|why| format!("{}: {why}", path.display()))?;
            if found != *content {
                return Err(format!(
                    "{} isn't what `oracle table` writes",
                    path.display()
                ));
            }
        }
        let beyond = folder.join(format!("Part{}.antt", self.files.len()));
        match beyond.exists() {
            true => Err(format!("{} is one part too many", beyond.display())),
            false => Ok(()),
        }
    }
}

/// Widths, classes and bits of the scalars, which the original must confirm where it is there.
fn scalars() -> Result<String, String> {
    let all = confirmed()?;
    let listed = |text: fn((Scalar, Facts)) -> String| {
        let all = all.map(text);
        format!("{} ∷ []", all.join(" ∷ "))
    };
    Ok(format!(
        "\
-- The scalars' widths and classes as the Rust gives them, and their bits. Written by `oracle table`.
use mathlib.Core.Path.{{◌≡◌, refl}}
use mathlib.Core.Bool.{{true, false, not}}
use mathlib.Core.List as L
use mathlib.Core.List.{{List, [], ◌∷◌}}
use Rattle.scalars.specs.Names.{{byte_width, integer, bit_width}}
use Rattle.scalars.specs.declared.scalar.Scalar.{{Scalar}}
use Rattle.scalars.specs.declared.scalar.Scalar.TheVariants as S

abbrev all : List Scalar
all = {}

pub widths : L.map byte_width all ≡ {}
widths = refl

pub integers : L.map integer all ≡ {}
integers = refl

pub floats : L.map (λ s. not (integer s)) all ≡ {}
floats = refl

pub bits : L.map bit_width all ≡ {}
bits = refl
",
        listed(|(scalar, _)| format!("S.{scalar:?}")),
        listed(|(_, (width, ..))| width.to_string()),
        listed(|(_, (_, integer, ..))| integer.to_string()),
        listed(|(_, (_, _, float, _))| float.to_string()),
        listed(|(_, (.., bits))| bits.to_string()),
    ))
}

/// All of the document, all chosen by hand, and short ones of each group.
fn chosen() -> Vec<Vec<u8>> {
    let texts = Texts::new();
    let mut all = [texts.document, texts.nasty].concat();
    for group in texts.generated {
        let short = group
            .into_iter()
            .filter(|text| text.len() <= LONGEST_GENERATED);
        all.extend(short.take(EACH));
    }
    all
}

fn file(number: usize, texts: &[Vec<u8>]) -> Result<String, String> {
    let mut content = format!(
        "-- Part {number} of the recorded list: texts with the Rust's answers, and counts worked out apart. Written by `oracle table`.
use mathlib.Core.List.{{List, [], ◌∷◌}}
use lib.IntN.{{pos, negsuc}}
use Rattle.meaning.proofs.Answers.{{Row, row, refused, type, DYN}}
use Rattle.meaning.specs.declared.Kind.TheVariants as K
use Rattle.scalars.specs.declared.scalar.Scalar.TheVariants as S
use Rattle.meaning.specs.declared.Padding.TheVariants as P
use Rattle.meaning.specs.declared.Refusal.TheVariants as R
use mathlib.Core.Bool.{{true, false}}

abbrev pub part_{number} : List Row
part_{number} =
"
    );
    for text in texts {
        let answer = answer(&settled(text)?);
        content.push_str(&format!("    row {} ({answer}) ∷\n", quoted(text)));
    }
    content.push_str("    []\n");
    Ok(content)
}

/// Each byte is one character; Rust's escapes, as the formatter of the proof language lays them out.
fn quoted(text: &[u8]) -> String {
    let characters: String = text.iter().copied().map(char::from).collect();
    format!("{characters:?}")
}

fn answer(answer: &Answer) -> String {
    match answer {
        Answer::Accepted(record, counts) => accepted(record, counts.unwrap_or_default()),
        Answer::Refused { number, place } => {
            let refusal = ["TooLong", "HighByte", "NoType", "TooMany"][usize::from(*number) - 1];
            format!("refused R.{refusal} {place}")
        }
    }
}

fn accepted(record: &Record, counts: Counts) -> String {
    let wide = |values: &[i64]| list(values.iter().copied());
    let narrow = |values: &[i32]| list(values.iter().copied().map(i64::from));
    let words = [
        format!("type K.{} S.{:?}", kind(record.kind), record.element),
        format!("{} {}", record.pointer, record.attribute),
        wide(&record.shape),
        wide(&record.strides),
        narrow(&record.tile),
        narrow(&record.map),
        narrow(&record.traversal),
        format!(
            "({}) P.{}",
            integer(record.sparse.into()),
            padding(record.padding)
        ),
        format!("{} {} {} {}", counts.a, counts.b, counts.c, counts.d),
    ];
    words.join(" ")
}

fn list(values: impl Iterator<Item = i64>) -> String {
    let entries: Vec<String> = values.map(|value| integer(value) + " ∷ ").collect();
    match entries.is_empty() {
        true => "[]".to_string(),
        false => format!("({}[])", entries.concat()),
    }
}

fn integer(value: i64) -> String {
    match value {
        DYNAMIC => "DYN".to_string(),
        0.. => format!("pos {value}"),
        _ => format!("negsuc {}", -(value + 1)),
    }
}

fn kind(kind: Kind) -> &'static str {
    match kind {
        Kind::Scalar => "Scalar",
        Kind::Pointer => "Pointer",
        Kind::Tile => "Tile",
        Kind::TensorView => "TensorView",
        Kind::Partition => "Partition",
        Kind::GatherScatter => "GatherScatter",
        Kind::Strided => "Strided",
        Kind::Token => "Token",
    }
}

fn padding(padding: Option<Padding>) -> &'static str {
    match padding {
        None => "Absent",
        Some(Padding::Zero) => "Zero",
        Some(Padding::NegZero) => "NegZero",
        Some(Padding::Nan) => "Nan",
        Some(Padding::PosInf) => "PosInf",
        Some(Padding::NegInf) => "NegInf",
    }
}

#[cfg(test)]
mod tests {
    use super::*;

    #[test]
    fn quoting_escapes_what_isnt_printed() {
        let text = b"a\"\\'\t\x0b\x80\xe9";
        assert_eq!(quoted(text), "\"a\\\"\\\\'\\t\\u{b}\\u{80}\u{e9}\"");
    }

    #[test]
    fn integers_have_their_two_forms() {
        let shown = [0, 7, -1, -3, i64::MAX, i64::MIN + 1, i64::MIN].map(integer);
        let expected = [
            "pos 0",
            "pos 7",
            "negsuc 0",
            "negsuc 2",
            "pos 9223372036854775807",
            "negsuc 9223372036854775806",
            "DYN",
        ];
        assert_eq!(shown, expected);
    }
}
