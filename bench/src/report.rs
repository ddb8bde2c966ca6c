//! The tables, from the groups and their times.

use crate::calls;
use crate::clock::{Call, Times};
use crate::groups::{is_goal, Group};
use crate::lengths::{LENGTHS, WAYS};
use crate::sheets::rows;
use crate::stats::{median, ratio, Spread};
use crate::table::Table;

/// "At least 2 times as fast as `Type::parse` on each of (a) to (e)".
pub const GOAL: f64 = 2.0;

pub struct Measured {
    pub group: Group,
    pub times: Times,
}

impl Measured {
    pub fn ns(&self, call: Call) -> f64 {
        median(self.times.of(call))
    }

    /// How many times as fast `call` is as `than`.
    pub fn faster(&self, call: Call, than: Call) -> Spread {
        ratio(self.times.of(than), self.times.of(call))
    }

    fn mean_length(&self) -> f64 {
        let bytes: usize = self.group.texts.iter().map(String::len).sum();
        bytes as f64 / self.group.texts.len() as f64
    }
}

fn ns(value: f64) -> String {
    match value < 100.0 {
        true => format!("{value:.1}"),
        false => format!("{value:.0}"),
    }
}

fn range(spread: Spread) -> String {
    format!("{:.2} to {:.2}", spread.low, spread.high)
}

fn numbers(list: &[u8]) -> String {
    let words = list.iter().map(|number| match number {
        0 => "accepted".to_string(),
        other => other.to_string(),
    });
    words.collect::<Vec<_>>().join(", ")
}

/// What each group is.
pub fn texts(all: &[Measured]) -> Table {
    let head = [
        "group",
        "texts are",
        "ordinary",
        "strict",
        "count",
        "bytes",
        "mean",
        "Type::parse accepts",
    ];
    let mut table = Table::new("The texts", 4, &head);
    for one in all {
        let group = &one.group;
        let lengths = || group.texts.iter().map(String::len);
        let (least, most) = (lengths().min().unwrap_or(0), lengths().max().unwrap_or(0));
        let accepted = group.texts.iter().filter(|text| calls::theirs_accept(text));
        table.row(vec![
            group.key.to_string(),
            group.name.to_string(),
            numbers(group.says.ordinary),
            numbers(group.says.strict),
            group.texts.len().to_string(),
            format!("{least} to {most}"),
            format!("{:.0}", one.mean_length()),
            accepted.count().to_string(),
        ]);
    }
    let note = "(e) holds the texts of e1 to e4, a quarter each.";
    table.notes.push(note.to_string());
    table
}

/// Both readers beside `Type::parse`.
pub fn reading(all: &[Measured]) -> Table {
    let head = [
        "group",
        "one pass ns",
        "Type::parse ns",
        "ordinary ns",
        "times as fast",
        "5 to 95 %",
        "strict ns",
        "times as fast",
        "5 to 95 %",
    ];
    let mut table = Table::new("Reading, beside Type::parse", 1, &head);
    for one in all {
        let ordinary = one.faster(Call::Ordinary, Call::Theirs);
        let strict = one.faster(Call::Strict, Call::Theirs);
        table.row(vec![
            one.group.key.to_string(),
            ns(one.ns(Call::Floor)),
            ns(one.ns(Call::Theirs)),
            ns(one.ns(Call::Ordinary)),
            format!("{:.2}", ordinary.median),
            range(ordinary),
            ns(one.ns(Call::Strict)),
            format!("{:.2}", strict.median),
            range(strict),
        ]);
    }
    let goals = all.iter().filter(|one| is_goal(&one.group));
    let met = met(goals, Call::Ordinary, Call::Theirs, GOAL);
    table.notes.push(format!(
        "Goal: the ordinary reader at least {GOAL} times as fast: {met}."
    ));
    table
}

/// Where `call` is so many times as fast as `than`, in words.
fn met<'m>(all: impl Iterator<Item = &'m Measured>, call: Call, than: Call, goal: f64) -> String {
    let each = all.map(|one| match one.faster(call, than).median >= goal {
        true => format!("({}) met", one.group.key),
        false => format!("({}) not met", one.group.key),
    });
    each.collect::<Vec<_>>().join(", ")
}

/// Both readers on the same texts, which both accept.
pub fn strict(all: &[Measured]) -> Table {
    let head = [
        "group",
        "ordinary ns",
        "strict ns",
        "strict is times as fast",
        "5 to 95 %",
    ];
    let mut table = Table::new("Strict beside ordinary, on strict texts", 1, &head);
    let strict = || all.iter().filter(|one| one.group.says.strict == [0]);
    for one in strict() {
        let faster = one.faster(Call::Strict, Call::Ordinary);
        table.row(vec![
            one.group.key.to_string(),
            ns(one.ns(Call::Ordinary)),
            ns(one.ns(Call::Strict)),
            format!("{:.2}", faster.median),
            range(faster),
        ]);
    }
    let met = met(strict(), Call::Strict, Call::Ordinary, 1.0);
    table
        .notes
        .push(format!("Goal: strict reading faster: {met}."));
    table
}

pub fn writing(all: &[Measured]) -> Table {
    let head = ["records of", "bytes written, mean", "write ns", "a byte"];
    let mut table = Table::new("Writing", 1, &head);
    for one in all.iter().filter(|one| !one.group.records.is_empty()) {
        let records = &one.group.records;
        let texts = records.iter().filter_map(calls::written);
        let bytes = texts.map(|text| text.len()).sum::<usize>() as f64 / records.len() as f64;
        let time = one.ns(Call::Write);
        table.row(vec![
            one.group.key.to_string(),
            format!("{bytes:.0}"),
            ns(time),
            format!("{:.2}", time / bytes),
        ]);
    }
    let note = "The original prints no types, so that there is nothing to lay beside it.";
    table.notes.push(note.to_string());
    table
}

/// `typetext_totals` beside a loop over `Type::parse`.
pub fn sheets(all: &[Measured]) -> Table {
    let head = [
        "rows are",
        "rows a sheet",
        "Type::parse, million rows a second",
        "totals, million rows a second",
        "times as fast",
        "5 to 95 %",
    ];
    let mut table = Table::new("Sheets of 64 KiB, counted", 1, &head);
    for one in all {
        let (rows, faster) = (
            rows(&one.group),
            one.faster(Call::Counted, Call::TheirsCounted),
        );
        let millions = |call: Call| format!("{:.2}", rows / one.ns(call) * 1000.0);
        table.row(vec![
            one.group.key.to_string(),
            format!("{rows:.0}"),
            millions(Call::TheirsCounted),
            millions(Call::Counted),
            format!("{:.2}", faster.median),
            range(faster),
        ]);
    }
    let met = met(all.iter(), Call::Counted, Call::TheirsCounted, GOAL);
    table.notes.push(format!(
        "Goal: at least {GOAL} times as many rows a second: {met}."
    ));
    table
}

/// Nanoseconds and nanoseconds a byte, length by length.
pub fn lengths(all: &[Measured]) -> Table {
    let head = [
        "longer by",
        "bytes",
        "one pass ns",
        "Type::parse ns",
        "a byte",
        "ordinary ns",
        "a byte",
        "strict ns",
        "a byte",
    ];
    let mut table = Table::new("Cost by length, texts without marks", 1, &head);
    for (place, one) in all.iter().enumerate() {
        let length = LENGTHS[place % LENGTHS.len()];
        let mut row = vec![
            WAYS[place / LENGTHS.len()].name.to_string(),
            length.to_string(),
        ];
        row.push(ns(one.ns(Call::Floor)));
        for call in [Call::Theirs, Call::Ordinary, Call::Strict] {
            row.push(ns(one.ns(call)));
            row.push(format!("{:.2}", one.ns(call) / length as f64));
        }
        table.row(row);
    }
    table
}
