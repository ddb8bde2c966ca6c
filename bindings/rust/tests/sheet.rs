//! Sheets: rows, readings and totals beside a plain split of the bytes.

use typetext::{Defaults, Row, Sheet, Totals, Type, LONGEST_SHEET, LONGEST_TEXT};

/// A sheet's rows by the standard library: what follows the last line feed is a row if it has a byte.
fn split(sheet: &[u8]) -> Vec<&[u8]> {
    let mut rows: Vec<&[u8]> = sheet.split(|byte| *byte == b'\n').collect();
    if rows.last().is_some_and(|last| last.is_empty()) {
        rows.pop();
    }
    rows
}

fn counted(rows: &[Row]) -> Totals {
    let mut totals = Totals::default();
    for row in rows {
        totals.rows += 1;
        match &row.reading {
            Ok((_, defaults)) => {
                totals.accepted += 1;
                totals.defaults.shape_or_strides += defaults.shape_or_strides;
                totals.defaults.tile += defaults.tile;
                totals.defaults.lists += defaults.lists;
                totals.defaults.clauses += defaults.clauses;
            }
            Err(refusal) => match refusal.number() {
                1 => totals.too_long += 1,
                2 => totals.not_ascii += 1,
                3 => totals.no_type += 1,
                4 => totals.list_too_long += 1,
                number => panic!("a row is refused with {number}"),
            },
        }
    }
    totals
}

/// Rows, readings and totals are those of the split bytes.
fn held(bytes: &[u8]) -> Totals {
    let sheet = Sheet::new(bytes).expect("a sheet");
    let rows: Vec<Row> = sheet.rows().collect();
    let texts: Vec<&[u8]> = rows.iter().map(|row| row.bytes).collect();
    assert_eq!(texts, split(bytes));
    for row in &rows {
        assert_eq!(row.reading, Type::parse_ordinary(row.bytes));
    }
    assert_eq!(sheet.totals(), counted(&rows));
    sheet.totals()
}

const TEXTS: [&[u8]; 9] = [
    b"",
    b" f32\r",
    b"f31",
    b"tile<04x?xbf16>junk",
    b"tile<\x80\xff>",
    b"tile<1x1x1x1x1x1x1x1x1xf32>",
    b"tile<xxf32>",
    b"partition_view<tile=(q), tensor_view<4xf32>>",
    b"gather_scatter_view<tile=(q), tensor_view<4xf32>, sparse_dim=one>",
];

#[test]
fn the_example_of_the_request() {
    let totals = held(b"f32\ntile<f32\n");
    let wanted = Totals {
        rows: 2,
        accepted: 1,
        no_type: 1,
        ..Totals::default()
    };
    assert_eq!(totals, wanted);
    assert_eq!(held(b"f32\ntile<f32"), wanted);
}

#[test]
fn rows_in_any_order_with_and_without_a_last_line_feed() {
    for first in TEXTS {
        for second in TEXTS {
            for third in TEXTS {
                let mut sheet = [first, second, third].join(&b'\n');
                held(&sheet);
                sheet.push(b'\n');
                assert_eq!(held(&sheet).rows, 3);
            }
        }
    }
}

#[test]
fn empty_sheets_and_rows() {
    assert_eq!(held(b""), Totals::default());
    for count in 0..5 {
        let totals = held(&vec![b'\n'; count]);
        assert_eq!((totals.rows, totals.no_type), (count, count));
    }
    assert!(Sheet::new("").unwrap().rows().next().is_none());
}

#[test]
fn defaults_are_summed() {
    let totals = held(&TEXTS.join(&b'\n'));
    let defaults = Defaults {
        shape_or_strides: 2,
        tile: 2,
        lists: 1,
        clauses: 3,
    };
    assert_eq!(totals.defaults, defaults);
}

#[test]
fn rows_at_the_limit_of_a_text() {
    for (len, accepted) in [(LONGEST_TEXT, 1), (LONGEST_TEXT + 1, 0)] {
        let mut sheet = vec![b' '; len];
        sheet[..5].copy_from_slice(b"token");
        let totals = held(&sheet);
        assert_eq!((totals.accepted, totals.too_long), (accepted, 1 - accepted));
    }
}

#[test]
fn at_the_limit_of_a_sheet_and_past_it() {
    for byte in [b'\n', b' ', 0x80] {
        let bytes = vec![byte; LONGEST_SHEET + 1];
        held(&bytes[1..]);
        for over in [bytes.clone(), bytes.repeat(3)] {
            let refusal = Sheet::new(&over).unwrap_err();
            assert_eq!(refusal.number(), 9);
            assert_eq!(refusal.place(), None);
            assert_eq!(refusal.to_string(), "refusal 9: sheet over 65,536 bytes");
        }
    }
}

#[test]
fn rows_stay_at_their_end() {
    let mut rows = Sheet::new("f32\n\ntoken").unwrap().rows();
    assert_eq!(rows.size_hint(), (1, Some(10)));
    let kept = rows.clone();
    assert_eq!(rows.by_ref().count(), 3);
    assert_eq!(rows.size_hint(), (0, Some(0)));
    for _ in 0..3 {
        assert!(rows.next().is_none());
    }
    assert_eq!(kept.count(), 3);
}

/// A row outlives the sheet and the walk: it is a part of the bytes.
#[test]
fn rows_are_lent_from_the_bytes() {
    let bytes = String::from("f32\ntoken\n");
    let last = Sheet::new(&bytes).unwrap().into_iter().last().unwrap();
    assert_eq!(last.bytes.as_ptr(), bytes[4..].as_ptr());
    assert_eq!(last.reading.unwrap().0.to_string(), "!cuda_tile.token");
}
