//! `oracle round`: our writer beside the plain one on random records, and what is written read
//! back by every reader.

use crate::agree::started;
use crate::answer::{kind_name, Answer, Counts};
use crate::dice::Dice;
use crate::escape::escape;
use crate::flat::{Flat, KINDS};
use crate::write::{self, LONGEST_WRITTEN};
use crate::{original, ours, records, strictly};
use std::io::{self, Write};

/// What a writer did: the text, or the refusal.
type Done = Result<String, u8>;

/// Bytes before and after the room, which have to stay.
const MARGIN: usize = 16;

/// No text has a byte of 128 or more, so that every byte stored is seen.
fn untouched(place: usize) -> u8 {
    128 | (place % 127) as u8
}

/// What our writer did in a room of this size; an error where it touched more than it may.
fn ours_done(flat: &Flat, room: usize) -> Option<Result<Done, String>> {
    let mut buffer: Vec<u8> = (0..room + 2 * MARGIN).map(untouched).collect();
    let (len, refusal) = ours::write(flat, &mut buffer, MARGIN, room)?;
    Some(judged(&buffer, room, len, refusal))
}

fn judged(buffer: &[u8], room: usize, len: usize, refusal: u8) -> Result<Done, String> {
    if len > room || (refusal != 0 && len != 0) {
        return Err(format!("length {len} with refusal {refusal}"));
    }
    let text = MARGIN..MARGIN + len;
    for (place, byte) in buffer.iter().enumerate() {
        if !text.contains(&place) && *byte != untouched(place) {
            let place = place as i64 - MARGIN as i64;
            return Err(format!(
                "the byte at {place} of the room changed, with length {len} and refusal {refusal}"
            ));
        }
    }
    if refusal != 0 {
        return Ok(Err(refusal));
    }
    String::from_utf8(buffer[text].to_vec())
        .map(Ok)
        .map_err(|_| format!("not all of the text's {len} bytes are stored"))
}

/// The exact room, one too short, larger, and none; without a text any.
fn rooms(dice: &mut Dice, whole: &Done) -> [usize; 4] {
    match whole {
        Ok(text) => {
            let len = text.len();
            [len, len - 1, len + dice.from(1, 60), 0]
        }
        Err(_) => [LONGEST_WRITTEN, dice.below(60), 1024, 0],
    }
}

/// The plain writer's answer in each room, once ours has agreed and the text was read back.
fn settled(dice: &mut Dice, flat: &Flat) -> Result<[Done; 4], String> {
    let whole = write::whole(flat);
    if let Ok(text) = &whole {
        read_back(flat, text)?;
    }
    let rooms = rooms(dice, &whole);
    let done = rooms.map(|room| write::in_room(&whole, room));
    for (room, plain) in rooms.into_iter().zip(&done) {
        match ours_done(flat, room) {
            Some(Ok(ours)) if ours == *plain => {}
            Some(ours) => return Err(told(flat, room, plain, ours)),
            None => {}
        }
    }
    Ok(done)
}

/// Every reader gives the record back, with zero counts.
fn read_back(flat: &Flat, text: &str) -> Result<(), String> {
    let expected = Answer::Accepted(flat.record()?, Some(Counts::default()));
    let found = strictly::settled(text.as_bytes())?;
    match found == expected {
        true => Ok(()),
        false => Err(format!(
            "what is written isn't read back:\n  text     {}\n  written  {expected}\n  read     {found}",
            escape(text.as_bytes())
        )),
    }
}

fn told(flat: &Flat, room: usize, plain: &Done, ours: Result<Done, String>) -> String {
    let ours = match ours {
        Ok(done) => done_shown(&done),
        Err(why) => why,
    };
    let record = match flat.record() {
        Ok(record) => record.to_string(),
        Err(why) => format!("{why}: {flat:?}"),
    };
    format!(
        "our writer differs in a room of {room} bytes:\n  record   {record}\n  ours     {ours}\n  plain    {}",
        done_shown(plain)
    )
}

fn done_shown(done: &Done) -> String {
    match done {
        Ok(text) => format!("0 {}", escape(text.as_bytes())),
        Err(number) => number.to_string(),
    }
}

/// Records; calls that wrote, and that were refused with 6, 7 and 8.
type Totals = [u64; 5];

/// One line for each kind, and the last for what has none.
type Table = [Totals; KINDS.len() + 1];

/// Half of the records have a text, a quarter mostly none, a quarter is odd.
fn table(count: u64, seed: u64) -> Result<Table, String> {
    let mut dice = Dice::new(seed);
    let mut table = Table::default();
    for turn in 0..count {
        let flat = match turn % 4 {
            1 => records::without_text(&mut dice),
            3 => records::odd(&mut dice),
            _ => records::normal(&mut dice),
        };
        let totals = &mut table[usize::from(flat.kind).min(KINDS.len())];
        totals[0] += 1;
        for done in settled(&mut dice, &flat)? {
            let place = done.map_or_else(|number| usize::from(number) - 4, |_| 1);
            totals[place] += 1;
        }
    }
    Ok(table)
}

pub fn run(out: &mut dyn Write, count: u64, seed: u64) -> Result<(), String> {
    started(out, count, "records, four rooms each", seed)?;
    let table = table(count, seed)?;
    shown(out, &table).map_err(|error| error.to_string())
}

fn shown(out: &mut dyn Write, table: &Table) -> io::Result<()> {
    writeln!(
        out,
        "kind                   records    written  refusal 6          7          8"
    )?;
    let mut sum = Totals::default();
    for (place, totals) in table.iter().enumerate() {
        let name = KINDS.get(place).map_or("no kind", |kind| kind_name(*kind));
        line(out, name, totals)?;
        for (total, more) in sum.iter_mut().zip(totals) {
            *total += more;
        }
    }
    line(out, "all", &sum)?;
    let original = if original::PRESENT {
        " and Type::parse"
    } else {
        ""
    };
    writeln!(
        out,
        "no difference between our writer and the plain one; read back by our strict reader, the recogniser, our ordinary reader, the plain one{original}"
    )
}

fn line(out: &mut dyn Write, name: &str, totals: &Totals) -> io::Result<()> {
    let [records, written, six, seven, eight] = totals;
    writeln!(
        out,
        "{name:19} {records:>10} {written:>10} {six:>10} {seven:>10} {eight:>10}"
    )
}

#[cfg(test)]
mod tests {
    use super::*;

    /// Plain writer, recogniser, plain ordinary reading and, where present, the original; and
    /// our own readers, where the library has them.
    #[test]
    fn every_written_text_gives_its_record_back() {
        let mut dice = Dice::new(9);
        for _ in 0..if cfg!(debug_assertions) {
            20_000
        } else {
            300_000
        } {
            let flat = records::normal(&mut dice);
            let text = write::whole(&flat).expect("it has a text");
            read_back(&flat, &text).unwrap_or_else(|why| panic!("{why}"));
        }
    }

    #[test]
    fn every_refusal_is_met_in_every_kind() {
        let table = table(20_000, 5).unwrap_or_else(|why| panic!("{why}"));
        for (place, [records, written, six, seven, eight]) in table.into_iter().enumerate() {
            assert!(records > 0 && six > 0);
            let kind = KINDS.get(place).is_some();
            assert_eq!(kind, written > 0 && eight > 0, "kind {place}");
            // Every pointer has a text.
            assert_eq!(kind && place != 1, seven > 0, "kind {place}");
        }
    }

    #[test]
    fn a_writer_that_touches_too_much_is_told() {
        let clean: Vec<u8> = (0..8 + 2 * MARGIN).map(untouched).collect();
        let with = |place: usize, bytes: &[u8]| {
            let mut buffer = clean.clone();
            buffer[place..place + bytes.len()].copy_from_slice(bytes);
            buffer
        };
        let text = with(MARGIN, b"f32");
        assert_eq!(judged(&text, 8, 3, 0), Ok(Ok("f32".to_string())));
        assert_eq!(judged(&clean, 8, 0, 7), Ok(Err(7)));
        assert!(judged(&clean, 8, 3, 0).is_err(), "nothing stored");
        assert!(judged(&text, 8, 0, 8).is_err(), "stored and refused");
        assert!(judged(&text, 8, 2, 0).is_err(), "one byte too many");
        assert!(judged(&text, 8, 3, 8).is_err(), "a refusal with a length");
        assert!(judged(&clean, 8, 9, 0).is_err(), "longer than the room");
        assert!(judged(&with(MARGIN - 1, b"f"), 8, 0, 7).is_err(), "before");
        assert!(judged(&with(MARGIN + 8, b"f"), 8, 0, 7).is_err(), "after");
    }
}
