//! docs/DIFFERENCES.md, row by row: each comment stands in `types.rs` where the page says so, and each text
//! is read as it says.

use crate::answer::Answer;
use crate::escape::unescape;
use crate::flat::Flat;
use crate::{original, plain, write};

const PAGE: &str = include_str!("../../docs/DIFFERENCES.md");

struct Row<'p> {
    line: Option<usize>,
    comment: &'p str,
    text: Vec<u8>,
    /// None where the type has no text.
    written: Option<&'p str>,
}

/// What stands between two marks, if anything does.
fn within<'c>(cell: &'c str, mark: char) -> Option<&'c str> {
    let (_, rest) = cell.split_once(mark)?;
    Some(rest.rsplit_once(mark)?.0)
}

fn rows() -> Vec<Row<'static>> {
    let (_, table) = PAGE.split_once("| Line |").expect("the page has the table");
    let rows = table
        .lines()
        .skip(2)
        .take_while(|line| line.starts_with('|'));
    let row = |line: &'static str| {
        let cells: Vec<&str> = line
            .trim_matches('|')
            .split(" |")
            .map(str::trim_start)
            .collect();
        let [line, comment, _, text, written] = cells[..] else {
            panic!("{line}: not five cells");
        };
        Row {
            line: line.trim().parse().ok(),
            comment,
            text: unescape(within(text, '`').expect(text).as_bytes()).expect(text),
            written: within(written, '`'),
        }
    };
    rows.map(row).collect()
}

#[test]
fn texts_are_read_so() {
    assert!(rows().len() > 40);
    for row in rows() {
        let shown = String::from_utf8_lossy(&row.text);
        let answer = plain::read(&row.text);
        assert!(
            original::read(&row.text).map_or(true, |theirs| theirs.agrees(&answer)),
            "{shown}"
        );
        let Answer::Accepted(record, _) = answer else {
            panic!("{shown} is refused");
        };
        let written = write::whole(&Flat::of(&record).expect(&shown));
        assert_eq!(written.as_deref(), row.written.ok_or(&7), "{shown}");
    }
}

#[cfg(has_source)]
#[test]
fn comments_stand_there() {
    let source = std::fs::read_to_string(env!("ORIGINAL_TYPES")).unwrap();
    let lines: Vec<&str> = source.lines().collect();
    for row in rows() {
        match row.line {
            Some(number) => {
                let said = within(row.comment, '"').expect(row.comment);
                let line = lines[number - 1];
                assert!(
                    line.contains("//") && line.contains(said),
                    "{number}: {said}"
                );
            }
            None => assert!(row.comment.starts_with("none at"), "{}", row.comment),
        }
    }
}
