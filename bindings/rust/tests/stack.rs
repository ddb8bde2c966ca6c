//! Each call on a thread of its own with a small stack: 32 KiB, or the least that the machine allows (128 KiB on Arm).

use std::thread::Builder;
use typetext::{Collector, Kind, Sheet, Type, LONGEST_TEXT};

const MARK: &str = ", #cuda_tile.ptr_attr<none>";

/// Marks in marks, as many as fit: where one is removed, the halves around it form the next.
fn nested() -> String {
    let (half, rest) = MARK.split_at(13);
    let marks = (LONGEST_TEXT - "ptr<f32>".len()) / MARK.len();
    let text = format!("ptr<f32{}{}>", half.repeat(marks), rest.repeat(marks));
    assert!(text.len() > LONGEST_TEXT - MARK.len());
    text
}

fn on_a_small_stack(call: fn(&str)) {
    let text = nested();
    let small = Builder::new().stack_size(32 * 1024);
    small.spawn(move || call(&text)).unwrap().join().unwrap();
}

#[test]
fn parse_ordinary() {
    on_a_small_stack(|text| {
        let (pointer, defaults) = Type::parse_ordinary(text).unwrap();
        assert!(pointer.kind() == Kind::Pointer && pointer.has_attribute() && defaults.is_zero());
    });
}

#[test]
fn parse_strict() {
    on_a_small_stack(|text| assert_eq!(Type::parse_strict(text).unwrap_err().number(), 5));
}

#[test]
fn finish() {
    on_a_small_stack(|text| {
        let mut collector = Collector::new();
        collector.feed(text);
        assert!(collector.finish().is_ok());
    });
}

#[test]
fn totals() {
    on_a_small_stack(|text| assert_eq!(Sheet::new(text).unwrap().totals().accepted, 1));
}

#[test]
fn to_text() {
    on_a_small_stack(|_| {
        let tile = Type::parse_strict("tile<4x8xf32>").unwrap();
        assert_eq!(Type::parse_strict(tile.to_text().unwrap().as_str()), Ok(tile));
    });
}
