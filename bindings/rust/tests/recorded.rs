//! The recorded list (crates/replay/data, its format in oracle/README.md): each text's type, refusal and counts, seen
//! through this crate; and each type written and read again.

use std::fmt::Display;
use std::fs;
use typetext::{Defaults, Error, Kind, Padding, Scalar, Type, DYNAMIC};

const DATA: &str = concat!(env!("CARGO_MANIFEST_DIR"), "/../../crates/replay/data");

/// Text and answer of each row.
fn rows() -> Vec<(Vec<u8>, String)> {
    let mut rows = Vec::new();
    for file in fs::read_dir(DATA).expect("the recorded list is there") {
        let all = fs::read_to_string(file.unwrap().path()).expect("it is text");
        for line in all.lines().filter(|line| !line.starts_with('#')) {
            let (text, answer) = line.split_once('\t').expect("a row has two columns");
            rows.push((unescape(text), answer.to_string()));
        }
    }
    rows
}

/// `\\` and `\xHH` back to bytes.
fn unescape(line: &str) -> Vec<u8> {
    let mut text = Vec::new();
    let mut rest = line;
    while let Some((before, after)) = rest.split_once('\\') {
        text.extend(before.bytes());
        if let Some(hex) = after.strip_prefix('x') {
            text.push(u8::from_str_radix(&hex[..2], 16).expect("two hex digits"));
            rest = &hex[2..];
        } else {
            text.push(b'\\');
            rest = &after[1..];
        }
    }
    text.extend(rest.bytes());
    text
}

fn answer(read: &Result<(Type, Defaults), Error>) -> String {
    match read {
        Ok((kind, defaults)) => format!("0 {} {}", shown(kind), counts(defaults)),
        Err(error) => match error.place() {
            Some(place) => format!("{} @{place}", error.number()),
            None => error.number().to_string(),
        },
    }
}

fn shown(of: &Type) -> String {
    [
        kind_name(of.kind()).to_string(),
        of.element().unwrap_or(Scalar::I1).to_string(),
        format!(
            "pointer={}",
            u8::from(of.kind() == Kind::Tile && of.is_pointer())
        ),
        format!("attribute={}", u8::from(of.has_attribute())),
        format!("shape=[{}]", dims(of.shape())),
        format!("strides=[{}]", dims(of.strides())),
        format!("tile=[{}]", joined(of.tile_shape())),
        format!("map=[{}]", joined(of.dim_map())),
        format!("traversal=[{}]", joined(of.traversal_strides())),
        format!("sparse={}", of.sparse_dim().unwrap_or(0)),
        format!("padding={}", of.padding().map_or("none", Padding::name)),
    ]
    .join(" ")
}

fn kind_name(kind: Kind) -> &'static str {
    match kind {
        Kind::Scalar => "scalar",
        Kind::Pointer => "pointer",
        Kind::Tile => "tile",
        Kind::TensorView => "tensor_view",
        Kind::Partition => "partition_view",
        Kind::GatherScatter => "gather_scatter_view",
        Kind::Strided => "strided_view",
        Kind::Token => "token",
    }
}

fn joined<T: Display>(list: &[T]) -> String {
    let entries: Vec<String> = list.iter().map(T::to_string).collect();
    entries.join(",")
}

fn dims(list: &[i64]) -> String {
    joined(list).replace(&DYNAMIC.to_string(), "?")
}

fn counts(of: &Defaults) -> String {
    let Defaults {
        shape_or_strides: a,
        tile: b,
        lists: c,
        clauses: d,
    } = of;
    format!("counts={a},{b},{c},{d}")
}

#[test]
fn every_row_is_read_as_recorded() {
    let rows = rows();
    assert!(rows.len() > 1900);
    for (text, expected) in rows {
        let text_shown = text.escape_ascii();
        let read = Type::parse_ordinary(&text);
        assert_eq!(answer(&read), expected, "{text_shown}");
    }
}

#[test]
fn what_is_strict_is_read_alike() {
    let mut strict = 0;
    for (text, _) in rows() {
        let Ok(read) = Type::parse_strict(&text) else {
            continue;
        };
        strict += 1;
        assert_eq!(
            Type::parse_ordinary(&text),
            Ok((read, Defaults::default())),
            "{}",
            text.escape_ascii()
        );
    }
    assert!(strict > 100, "{strict}");
}

#[test]
fn every_type_is_written_and_read_again() {
    let mut written = 0;
    for (text, _) in rows() {
        let Ok((read, _)) = Type::parse_ordinary(&text) else {
            continue;
        };
        match read.to_text() {
            Ok(text) => {
                written += 1;
                assert_eq!(text.parse(), Ok(read), "{text}");
                assert_eq!(read.to_string(), *text);
            }
            Err(error) => assert!(error.number() == 7 && read.has_attribute(), "{read:?}"),
        }
    }
    assert!(written > 1000, "{written}");
}
