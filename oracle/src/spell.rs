//! Strict texts of a record, of any rank: every choice that document 01's 'Strict forms' leaves
//! is made by the dice.

use crate::answer::{dim_text, padding_name, Kind, Record};
use crate::dice::Dice;
use crate::pieces::{MARK, PREFIX};
use crate::records::with_text;

/// A record with a text, and one of its strict texts. Most lists have at most 8 entries.
pub fn spelled(dice: &mut Dice) -> (Record, Vec<u8>) {
    let mut record = with_text(dice, 10);
    if dice.once_in(200) {
        at_the_longest(dice, &mut record);
    }
    let text = text_of(dice, &record);
    (record, text)
}

/// One of the strict texts of a record that has a text.
pub fn text_of(dice: &mut Dice, record: &Record) -> Vec<u8> {
    let mut speller = Speller {
        dice,
        out: String::new(),
    };
    speller.any(record);
    speller.out.into_bytes()
}

/// One list so long that the text has about 1,024 bytes: mostly a shape, as its separators are
/// one byte each and so the text ends close to the limit.
fn at_the_longest(dice: &mut Dice, record: &mut Record) {
    let count = dice.from(300, 510);
    match dice.below(6) {
        0 if !record.strides.is_empty() => record.strides = vec![7; count],
        1 if !record.tile.is_empty() => record.tile = vec![7; count],
        2 if !record.map.is_empty() => record.map = vec![7; count],
        3 if !record.traversal.is_empty() => record.traversal = vec![7; count],
        _ => {
            *record = Record {
                element: record.element,
                pointer: dice.once_in(2),
                shape: vec![7; dice.from(490, 510)],
                ..Record::blank(Kind::Tile)
            }
        }
    }
}

struct Speller<'d> {
    dice: &'d mut Dice,
    out: String,
}

impl Speller<'_> {
    fn put(&mut self, piece: &str) {
        self.out.push_str(piece);
    }

    fn put_one(&mut self, pieces: &[&str]) {
        let piece = self.dice.pick(pieces);
        self.put(piece);
    }

    fn prefix(&mut self) {
        self.put_one(&["", PREFIX]);
    }

    fn comma(&mut self) {
        self.put_one(&[",", ", "]);
    }

    /// The first spelling, or for the narrow floats and I1 the other one.
    fn name(&mut self, record: &Record) {
        let first = record.element.name();
        let other = match first {
            "i1" => "bool".to_string(),
            _ => first.to_ascii_lowercase(),
        };
        self.put_one(&[first, &other]);
    }

    fn mark(&mut self, record: &Record) {
        if record.attribute {
            self.put(MARK);
        }
    }

    fn dims(&mut self, record: &Record) {
        for value in &record.shape {
            self.put(&dim_text(value));
            self.put("x");
        }
    }

    /// Entries parted by commas, each with a space or without, or by `x`.
    fn entries(&mut self, entries: impl Iterator<Item = String>, by_x: bool) {
        for (place, entry) in entries.enumerate() {
            if place > 0 && by_x {
                self.put("x");
            } else if place > 0 {
                self.comma();
            }
            self.put(&entry);
        }
    }

    fn list(&mut self, opening: &str, entries: impl Iterator<Item = String>) {
        self.put(opening);
        self.entries(entries, false);
        self.put("]");
    }

    fn any(&mut self, record: &Record) {
        match record.kind {
            Kind::Scalar => self.name(record),
            Kind::Token => {
                self.prefix();
                self.put("token");
            }
            Kind::Pointer => self.pointer(record),
            Kind::Tile => self.tile(record),
            Kind::TensorView => {
                self.prefix();
                self.tensor_view(record);
            }
            Kind::Partition => self.view("partition_view<", record),
            Kind::GatherScatter => self.view("gather_scatter_view<", record),
            Kind::Strided => self.view("strided_view<", record),
        }
    }

    fn pointer(&mut self, record: &Record) {
        self.prefix();
        self.put("ptr<");
        self.name(record);
        self.mark(record);
        self.put(">");
    }

    fn tile(&mut self, record: &Record) {
        self.prefix();
        self.put("tile<");
        self.dims(record);
        match record.pointer {
            true => self.pointer(record),
            false => self.name(record),
        }
        self.put(">");
    }

    fn tensor_view(&mut self, record: &Record) {
        self.put("tensor_view<");
        self.dims(record);
        self.name(record);
        if !record.strides.is_empty() {
            self.comma();
            self.list("strides=[", record.strides.iter().map(dim_text));
        }
        self.mark(record);
        self.put(">");
    }

    fn view(&mut self, opening: &str, record: &Record) {
        self.prefix();
        self.put(opening);
        self.put("tile=(");
        let by_x = self.dice.once_in(2);
        self.entries(record.tile.iter().map(i32::to_string), by_x);
        self.put(")");
        self.comma();
        if record.kind == Kind::Strided {
            let entries = record.traversal.iter().map(i32::to_string);
            self.list("traversal_strides=[", entries);
            self.comma();
        }
        if record.padding.is_some() {
            self.put("padding_value=");
            self.put(padding_name(record.padding));
            self.comma();
        }
        self.put_one(&["", PREFIX, "tensor_view=!cuda_tile."]);
        self.tensor_view(record);
        self.comma();
        if record.kind == Kind::GatherScatter {
            self.put(&format!("sparse_dim={}", record.sparse));
        } else {
            self.list("dim_map=[", record.map.iter().map(i32::to_string));
        }
        self.put(">");
    }
}
