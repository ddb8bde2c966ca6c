//! A second ordinary reading, of any rank, with the default counts. Written from document 01
//! alone; where a comment quotes, it quotes that document.

use crate::answer::{Answer, Counts, Kind, Padding, Record, DYNAMIC, LONGEST_TEXT};
use crate::scalar::{Scalar, ALL};

type Found = Option<(Record, Counts)>;

/// Order of refusals: 1, 2, 3, 4.
pub fn read(text: &[u8]) -> Answer {
    if text.len() > LONGEST_TEXT {
        return Answer::refused(1);
    }
    for (place, byte) in text.iter().enumerate() {
        if *byte >= 128 {
            return Answer::Refused { number: 2, place };
        }
    }
    match whole(text) {
        None => Answer::refused(3),
        Some((record, _)) if record.too_many() => Answer::refused(4),
        Some((record, counts)) => Answer::Accepted(record, Some(counts)),
    }
}

// Module 1: numerals and trimming.

fn white(byte: u8) -> bool {
    (9..=13).contains(&byte) || byte == 32
}

fn trim(mut part: &[u8]) -> &[u8] {
    while !part.is_empty() && white(part[0]) {
        part = &part[1..];
    }
    while !part.is_empty() && white(part[part.len() - 1]) {
        part = &part[..part.len() - 1];
    }
    part
}

/// "an optional `+` or `-`, then one or more digits, in range"
fn numeral(part: &[u8], least: i64, most: i64) -> Option<i64> {
    let (negative, digits) = match part.first() {
        Some(b'-') => (true, &part[1..]),
        Some(b'+') => (false, &part[1..]),
        _ => (false, part),
    };
    if digits.is_empty() {
        return None;
    }
    let mut size: i128 = 0;
    for digit in digits {
        if !digit.is_ascii_digit() {
            return None;
        }
        // Held at a value past every range, so that long numerals can't overflow.
        size = (size * 10 + i128::from(digit - b'0')).min(1 << 100);
    }
    let value = if negative { -size } else { size };
    (i128::from(least) <= value && value <= i128::from(most)).then_some(value as i64)
}

/// A 64-bit entry; (a) counts those "neither `?` nor a readable numeral".
fn dim(part: &[u8], counts: &mut Counts) -> i64 {
    let part = trim(part);
    match numeral(part, i64::MIN, i64::MAX) {
        Some(value) => value,
        None => {
            counts.a += u32::from(part != b"?");
            DYNAMIC
        }
    }
}

/// A 32-bit entry, which gives `default` and adds to `fallen` if it can't be read.
fn small(part: &[u8], default: i32, fallen: &mut u32) -> i32 {
    match numeral(trim(part), i64::from(i32::MIN), i64::from(i32::MAX)) {
        Some(value) => value as i32,
        None => {
            *fallen += 1;
            default
        }
    }
}

// Module 2: scalar names.

/// The first spellings, "lower-case forms of the five narrow floats, and `bool` for I1".
fn scalar(part: &[u8]) -> Option<Scalar> {
    let name = trim(part);
    if name == b"bool" {
        return Some(Scalar::I1);
    }
    for (scalar, spelling) in ALL {
        let spelling = spelling.as_bytes();
        let lower = spelling.iter().map(u8::to_ascii_lowercase);
        if name == spelling || lower.eq(name.iter().copied()) {
            return Some(scalar);
        }
    }
    None
}

// Searching.

fn find(part: &[u8], sought: &[u8]) -> Option<usize> {
    let mut place = 0;
    while place + sought.len() <= part.len() {
        if part[place] == sought[0] && &part[place..place + sought.len()] == sought {
            return Some(place);
        }
        place += 1;
    }
    None
}

/// What follows the first occurrence.
fn after<'t>(part: &'t [u8], sought: &[u8]) -> Option<&'t [u8]> {
    find(part, sought).map(|place| &part[place + sought.len()..])
}

/// What stands before the first occurrence of the byte.
fn until(part: &[u8], byte: u8) -> Option<&[u8]> {
    find(part, &[byte]).map(|place| &part[..place])
}

fn split(part: &[u8], byte: u8) -> Vec<&[u8]> {
    let mut parts = Vec::new();
    let mut start = 0;
    for (place, found) in part.iter().enumerate() {
        if *found == byte {
            parts.push(&part[start..place]);
            start = place + 1;
        }
    }
    parts.push(&part[start..]);
    parts
}

// Module 3: bracket cutting.

/// "the part up to the matching `>`, counting `<` and `>`"
fn matched(part: &[u8]) -> Option<&[u8]> {
    let mut open = 1;
    for (place, byte) in part.iter().enumerate() {
        if *byte == b'<' {
            open += 1;
        }
        if *byte == b'>' {
            open -= 1;
        }
        if open == 0 {
            return Some(&part[..place]);
        }
    }
    None
}

/// "With no match, a final `>` is dropped; without one the form doesn't apply."
fn content(part: &[u8]) -> Option<&[u8]> {
    if let Some(inside) = matched(part) {
        return Some(inside);
    }
    match part.last() {
        Some(b'>') => Some(&part[..part.len() - 1]),
        _ => None,
    }
}

// Modules 4 and 5: tile and tensor view.

/// "split at `x`; the last part is the scalar"
fn dims_and_scalar(part: &[u8], kind: Kind) -> Found {
    let parts = split(part, b'x');
    let (last, dims) = parts.split_last()?;
    let mut counts = Counts::default();
    let mut record = Record::blank(kind);
    record.element = scalar(last)?;
    record.shape = dims.iter().map(|part| dim(part, &mut counts)).collect();
    Some((record, counts))
}

fn tile(part: &[u8]) -> Found {
    let Some(place) = find(part, b"ptr<") else {
        return dims_and_scalar(part, Kind::Tile);
    };
    let mut counts = Counts::default();
    let mut record = Record::blank(Kind::Tile);
    // "trimmed, then loses every trailing `!cuda_tile.`"
    let mut before = trim(&part[..place]);
    while before.ends_with(b"!cuda_tile.") {
        before = &before[..before.len() - b"!cuda_tile.".len()];
    }
    if !before.is_empty() {
        while before.last() == Some(&b'x') {
            before = &before[..before.len() - 1];
        }
        let dims = split(before, b'x');
        record.shape = dims.iter().map(|part| dim(part, &mut counts)).collect();
    }
    record.pointer = true;
    record.element = scalar(until(&part[place + b"ptr<".len()..], b'>')?)?;
    Some((record, counts))
}

fn tensor_view(part: &[u8]) -> Found {
    let clauses: [&[u8]; 2] = [b", strides=", b",strides="];
    let Some(clause) = clauses.into_iter().find(|c| find(part, c).is_some()) else {
        let (mut record, mut counts) = dims_and_scalar(part, Kind::TensorView)?;
        // "Without the clause, one DYNAMIC per dimension"; (d): "strides at rank above 0".
        record.strides = vec![DYNAMIC; record.shape.len()];
        counts.d += u32::from(!record.shape.is_empty());
        return Some((record, counts));
    };
    let place = find(part, clause)?;
    let (mut record, mut counts) = dims_and_scalar(&part[..place], Kind::TensorView)?;
    let mut list = &part[place + clause.len()..];
    while list.first() == Some(&b'[') {
        list = &list[1..];
    }
    while list.last() == Some(&b']') {
        list = &list[..list.len() - 1];
    }
    let entries = split(list, b',');
    record.strides = entries.iter().map(|part| dim(part, &mut counts)).collect();
    Some((record, counts))
}

// Module 6: views.

/// The tile shape and what follows its `)`.
fn tile_shape<'t>(part: &'t [u8], counts: &mut Counts) -> Option<(Vec<i32>, &'t [u8])> {
    let start = after(part, b"tile=(")?;
    let inside = until(start, b')')?;
    let by = if inside.contains(&b'x') { b'x' } else { b',' };
    let entries = split(inside, by);
    let shape = entries
        .iter()
        .map(|part| small(part, 1, &mut counts.b))
        .collect();
    Some((shape, &start[inside.len() + 1..]))
}

/// Three searches, of which only the last begins after the tile's `)`.
fn inner_tensor_view(part: &[u8], rest: &[u8]) -> Found {
    let start = after(part, b"tensor_view=!cuda_tile.tensor_view<")
        .or_else(|| after(part, b"!cuda_tile.tensor_view<"))
        .or_else(|| after(rest, b"tensor_view<"))?;
    tensor_view(matched(start).unwrap_or(b""))
}

/// "Padding is looked for only if `padding_value` occurs", its names "anywhere in the part".
fn padding(part: &[u8]) -> Option<Padding> {
    let has = |name: &[u8]| find(part, name).is_some();
    if !has(b"padding_value") {
        return None;
    }
    if has(b"zero") && !has(b"neg_zero") {
        return Some(Padding::Zero);
    }
    let others: [(&[u8], Padding); 4] = [
        (b"neg_zero", Padding::NegZero),
        (b"nan", Padding::Nan),
        (b"pos_inf", Padding::PosInf),
        (b"neg_inf", Padding::NegInf),
    ];
    let found = others.into_iter().find(|(name, _)| has(name));
    found.map(|(_, value)| value)
}

/// How a bracketed clause stands in the part.
enum Clause<'t> {
    Absent,
    Unclosed,
    Closed(&'t [u8]),
}

fn clause<'t>(part: &'t [u8], opening: &[u8]) -> Clause<'t> {
    match after(part, opening) {
        None => Clause::Absent,
        Some(start) => match until(start, b']') {
            None => Clause::Unclosed,
            Some(inside) => Clause::Closed(inside),
        },
    }
}

/// "An unclosed list refuses a partition view but counts as absent in a strided view."
fn list(
    found: Clause,
    partition: bool,
    filled: impl Fn() -> Vec<i32>,
    counts: &mut Counts,
) -> Option<Vec<i32>> {
    match found {
        Clause::Closed(inside) => {
            let entries = split(inside, b',');
            let values = entries.iter().map(|part| small(part, 0, &mut counts.c));
            Some(values.collect())
        }
        Clause::Unclosed if partition => None,
        Clause::Unclosed | Clause::Absent => {
            counts.d += 1;
            Some(filled())
        }
    }
}

/// "`sparse_dim=` runs to `,`, `>` or the end; unreadable or absent is 0."
fn sparse(part: &[u8], counts: &mut Counts) -> i32 {
    let Some(start) = after(part, b"sparse_dim=") else {
        counts.d += 1;
        return 0;
    };
    let end = start.iter().position(|byte| matches!(byte, b',' | b'>'));
    small(&start[..end.unwrap_or(start.len())], 0, &mut counts.c)
}

fn view(part: &[u8], kind: Kind) -> Found {
    let mut own = Counts::default();
    let (shape, rest) = tile_shape(part, &mut own)?;
    let rank = shape.len();
    let (mut record, mut counts) = inner_tensor_view(part, rest)?;
    record.kind = kind;
    record.tile = shape;
    record.padding = padding(part);
    if kind == Kind::GatherScatter {
        record.sparse = sparse(part, &mut own);
    } else {
        let partition = kind == Kind::Partition;
        let order = || (0..rank as i32).collect();
        record.map = list(clause(part, b"dim_map=["), partition, order, &mut own)?;
    }
    if kind == Kind::Strided {
        let found = clause(part, b"traversal_strides=[");
        record.traversal = list(found, false, || vec![1; rank], &mut own)?;
    }
    counts.b += own.b;
    counts.c += own.c;
    counts.d += own.d;
    Some((record, counts))
}

// Module 7: the whole text.

const MARK: &[u8] = b", #cuda_tile.ptr_attr<none>";

/// One pass: "remove all occurrences from left to right". None if there is none.
fn pass(text: &[u8]) -> Option<Vec<u8>> {
    find(text, MARK)?;
    let mut shorter = Vec::with_capacity(text.len());
    let mut place = 0;
    while place < text.len() {
        if text[place..].starts_with(MARK) {
            place += MARK.len();
        } else {
            shorter.push(text[place]);
            place += 1;
        }
    }
    Some(shorter)
}

/// "passes repeat on the shorter text until none is left", and each reading again trims again.
fn whole(text: &[u8]) -> Found {
    let text = trim(text);
    match pass(text) {
        None => form(text),
        Some(shorter) => {
            let (mut record, counts) = whole(&shorter)?;
            record.attribute = true;
            Some((record, counts))
        }
    }
}

/// "A form that applies decides". No form's opening begins another's, so their order is free.
fn form(text: &[u8]) -> Found {
    let name = text.strip_prefix(b"!cuda_tile.").unwrap_or(text);
    if name == b"token" {
        return Some((Record::blank(Kind::Token), Counts::default()));
    }
    let openings: [(&[u8], Kind); 6] = [
        (b"tile<", Kind::Tile),
        (b"tensor_view<", Kind::TensorView),
        (b"partition_view<", Kind::Partition),
        (b"gather_scatter_view<", Kind::GatherScatter),
        (b"strided_view<", Kind::Strided),
        (b"ptr<", Kind::Pointer),
    ];
    for (opening, kind) in openings {
        let inside = name.strip_prefix(opening).and_then(content);
        if let Some(inside) = inside {
            return of_kind(inside, kind);
        }
    }
    bare(text, Kind::Scalar)
}

fn of_kind(inside: &[u8], kind: Kind) -> Found {
    match kind {
        Kind::Tile => tile(inside),
        Kind::TensorView => tensor_view(inside),
        Kind::Pointer => bare(inside, kind),
        _ => view(inside, kind),
    }
}

fn bare(part: &[u8], kind: Kind) -> Found {
    let mut record = Record::blank(kind);
    record.element = scalar(part)?;
    Some((record, Counts::default()))
}
