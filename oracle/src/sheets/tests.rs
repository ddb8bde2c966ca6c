//! The plain rows and totals sentence by sentence, and calls with a slip, which have to be found.

use super::*;

const PLAIN: Calls = Calls {
    totals: |sheet| Some(totals(sheet)),
    next_row: |sheet, place| Some(row_at(sheet, place)),
};

/// "Rows end with byte 10; a last row without it counts if it has a byte."
#[test]
fn rows_of_a_sheet() {
    let none: [&[u8]; 0] = [];
    assert_eq!(rows(b""), none);
    assert_eq!(rows(b"\n"), [b""]);
    assert_eq!(rows(b"f32"), [b"f32"]);
    assert_eq!(rows(b"f32\n"), [b"f32"]);
    assert_eq!(rows(b"f32\n\n"), [&b"f32"[..], b""]);
    assert_eq!(rows(b"\nf32\r\ni1"), [&b""[..], b"f32\r", b"i1"]);
}

/// "For the two rows `f32` and `tile<f32`", the seven lines of the request.
#[test]
fn the_example_of_the_request() {
    for sheet in [&b"f32\ntile<f32\n"[..], b"f32\ntile<f32"] {
        let wanted = Totals {
            rows: 2,
            accepted: 1,
            refused: [0, 0, 1, 0],
            ..Totals::default()
        };
        assert_eq!(totals(sheet), wanted);
    }
}

/// "9, sheet over 65,536 bytes; no row is yielded, totals are 0."
#[test]
fn over_the_limit() {
    let sheet = vec![b'\n'; LONGEST_SHEET + 1];
    let refused = Totals {
        refusal: 9,
        ..Totals::default()
    };
    assert_eq!(totals(&sheet), refused);
    assert_eq!(rows(&sheet).len(), 0);
    assert_eq!(rows(&sheet[1..]).len(), LONGEST_SHEET);
    for place in [0, 5, usize::MAX] {
        let row = row_at(&sheet, place);
        assert_eq!((row.found, row.refusal, row.next), (0, 9, place));
    }
}

#[test]
fn defaults_are_summed() {
    let sheet = b"tile<xxf32>\npartition_view<tile=(q), tensor_view<4xf32>>\ntile<zxf32>";
    assert_eq!(totals(sheet).counts, [3, 1, 0, 2]);
}

/// Every sort in turn; our own calls are held too, where they are there.
#[test]
fn every_refusal_is_met() {
    let all = generated(900, 11, OURS).unwrap_or_else(|why| panic!("{why}"));
    for (name, seen) in all {
        assert_eq!(
            seen.over,
            if name == "over" { seen.sheets } else { 0 },
            "{name}"
        );
        let [one, two, three, four] = seen.sums.refused;
        let sorted = ["texts", "empty rows", "full"].contains(&name);
        assert!(!sorted || one.min(two).min(three).min(four) > 0, "{name}");
        assert!(name != "long rows" || (one > 0 && seen.sums.accepted > 0));
    }
}

#[test]
fn the_plain_calls_do_not_differ_from_themselves() {
    generated(180, 3, PLAIN).unwrap_or_else(|why| panic!("{why}"));
}

/// What is told of the first sheet that shows the slip.
fn found(calls: Calls) -> String {
    generated(10_000, 5, calls).expect_err("the slip is found")
}

#[test]
fn slips_are_found_and_made_small() {
    // A last row without a line feed is forgotten.
    let told = found(Calls {
        totals: |sheet| {
            let end = sheet.iter().rposition(|byte| *byte == 10);
            Some(totals(&sheet[..end.map_or(0, |end| end + 1)]))
        },
        ..PLAIN
    });
    assert!(
        told.contains("differs in the totals") && told.ends_with("of 1 bytes: 1"),
        "{told}"
    );
    // An empty row is passed over.
    let told = found(Calls {
        next_row: |sheet, place| {
            let row = row_at(sheet, place);
            Some(if row.first == row.end {
                row_at(sheet, row.next)
            } else {
                row
            })
        },
        ..PLAIN
    });
    assert!(told.ends_with("of 1 bytes: \\x0a"), "{told}");
    // The limit is one too high.
    let told = found(Calls {
        next_row: |sheet, place| Some(row_at(&sheet[..sheet.len().min(LONGEST_SHEET)], place)),
        ..PLAIN
    });
    assert!(told.contains("of 65537 bytes"), "{told}");
    // A place past the end is trusted.
    let told = found(Calls {
        next_row: |sheet, place| Some(row_at(sheet, place.min(sheet.len()))),
        ..PLAIN
    });
    assert!(
        told.contains("differs at place 1\n") && told.ends_with("of 0 bytes: "),
        "{told}"
    );
}
