//! `oracle answer` and `oracle scalars`: what the readings say, shown line by line.

use crate::answer::Answer;
use crate::escape::unescape;
use crate::facts::confirmed;
use crate::{original, plain};
use std::io::{self, BufRead, Write};

#[derive(Clone, Copy, PartialEq)]
pub enum Which {
    Plain,
    Original,
    Both,
}

const ALONE: &str = "oracle: the original source is absent, so nothing was held against it";

pub fn answers(out: &mut dyn Write, which: Which) -> Result<(), String> {
    if which == Which::Original {
        original::needed()?;
    }
    if which == Which::Both && !original::PRESENT {
        eprintln!("{ALONE}");
    }
    let mut differences = 0;
    for (place, line) in io::stdin().lock().split(b'\n').enumerate() {
        let line = line.map_err(|why| why.to_string())?;
        let text = unescape(&line).map_err(|why| format!("line {}: {why}", place + 1))?;
        let (shown, differs) = shown(&text, which);
        writeln!(out, "{shown}").map_err(|why| why.to_string())?;
        differences += usize::from(differs);
    }
    match differences {
        0 => Ok(()),
        _ => Err(format!("original and plain differ on {differences} texts")),
    }
}

/// The answer's line, and whether the two readings differ.
fn shown(text: &[u8], which: Which) -> (String, bool) {
    let plain = plain::read(text);
    let original = match which {
        Which::Plain => None,
        _ => original::read(text),
    };
    match original {
        Some(original) if which == Which::Original => (original.to_string(), false),
        Some(original) if !original.agrees(&plain) => (differing(&plain, &original), true),
        _ => (plain.to_string(), false),
    }
}

fn differing(plain: &Answer, original: &Answer) -> String {
    format!("{plain} DIFFERS original: {original}")
}

pub fn scalars(out: &mut dyn Write) -> Result<(), String> {
    for (scalar, (width, integer, float, bits)) in confirmed()? {
        writeln!(
            out,
            "{} width={width} integer={} float={} bits={bits}",
            scalar.name(),
            u8::from(integer),
            u8::from(float),
        )
        .map_err(|why| why.to_string())?;
    }
    if !original::PRESENT {
        eprintln!("{ALONE}");
    }
    Ok(())
}
