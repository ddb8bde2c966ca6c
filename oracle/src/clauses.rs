//! Groups of random texts that press on clauses, lists and numerals.

use crate::dice::Dice;
use crate::forms::{Maker, Width};
use crate::pieces::*;

/// Clauses of all views, repeated, in any order, some unclosed.
pub fn clauses(dice: &mut Dice) -> Vec<u8> {
    let mut maker = Maker::new(dice, true);
    maker.prefix();
    let opening = maker.dice.pick(&OPENINGS[1..5]);
    maker.put(opening);
    if maker.dice.once_in(2) {
        maker.tile_clause();
        maker.comma();
        maker.inner();
    }
    for _ in 0..maker.dice.from(1, 5) {
        maker.comma();
        match maker.dice.below(8) {
            0 => maker.tile_clause(),
            1 | 2 => maker.inner(),
            3 => maker.list("dim_map=["),
            4 => maker.list("traversal_strides=["),
            5 => maker.sparse(),
            6 => maker.padding(),
            _ => {
                let piece = maker.dice.pick(CLAUSES);
                maker.put(piece);
            }
        }
    }
    maker.put(">");
    maker.done()
}

/// Padding names beside, inside and before each other, with the keyword and without.
pub fn padding(dice: &mut Dice) -> Vec<u8> {
    let mut maker = Maker::new(dice, true);
    let opening = maker.dice.pick(&OPENINGS[2..5]);
    maker.put(opening);
    maker.put("tile=(4), ");
    for place in 0..maker.dice.from(1, 4) {
        if place == 0 && !maker.dice.once_in(6) {
            maker.put("padding_value=");
        }
        let odd = maker.dice.once_in(3);
        let piece = maker.dice.pick(if odd { ODD_PADDINGS } else { PADDINGS });
        maker.put(piece);
        let parted = maker.dice.pick(&["", ", ", " ", "_"]);
        maker.put(parted);
    }
    maker.put(", tensor_view<4xf32, strides=[1]>");
    let last = maker.dice.pick(&[
        "",
        ", neg_zero",
        ", zero",
        ", dim_map=[0]",
        "nan",
        "padding_value",
    ]);
    maker.put(last);
    maker.put(">");
    maker.done()
}

/// Every list at 0, 1, 7, 8, 9 and 17 entries.
pub fn lists(dice: &mut Dice) -> Vec<u8> {
    let slips = dice.once_in(4);
    let mut maker = Maker::new(dice, slips);
    // Most lists are short, so that one alone can pass the capacity.
    let mut counts = [1; 5];
    for _ in 0..2 {
        counts[maker.dice.below(5)] = [0, 1, 7, 8, 9, 17][maker.dice.below(6)];
    }
    match maker.dice.below(5) {
        0 => counted_tile(&mut maker, counts[0]),
        1 => counted_tensor_view(&mut maker, &counts),
        kind => counted_view(&mut maker, OPENINGS[kind], &counts),
    }
    maker.done()
}

fn counted_tile(maker: &mut Maker, count: usize) {
    maker.put("tile<");
    maker.dims(count);
    match maker.dice.once_in(2) {
        true => maker.pointer(9),
        false => maker.name(),
    }
    maker.put(">");
}

fn counted_tensor_view(maker: &mut Maker, counts: &[usize; 5]) {
    maker.put("tensor_view<");
    maker.dims(counts[0]);
    maker.name();
    counted_list(maker, ", strides=[", counts[1], Width::Wide);
    maker.put(">");
}

fn counted_view(maker: &mut Maker, opening: &str, counts: &[usize; 5]) {
    maker.put(opening);
    maker.put("tile=(");
    let by_x = maker.dice.once_in(2);
    maker.entries(counts[2], by_x, Width::Narrow);
    maker.put("), ");
    counted_tensor_view(maker, counts);
    counted_list(maker, ", dim_map=[", counts[3], Width::Narrow);
    counted_list(maker, ", traversal_strides=[", counts[4], Width::Narrow);
    maker.put(">");
}

/// Now and then the clause is left out.
fn counted_list(maker: &mut Maker, opening: &str, count: usize, width: Width) {
    if !maker.dice.once_in(8) {
        maker.put(opening);
        maker.entries(count, false, width);
        maker.put("]");
    }
}

/// Where the inner tensor view is found: its three openings, before and after the tile.
pub fn inner(dice: &mut Dice) -> Vec<u8> {
    let mut maker = Maker::new(dice, false);
    let opening = maker.dice.pick(&OPENINGS[2..5]);
    maker.put(opening);
    let tile_at = maker.dice.below(3);
    for place in 0..3 {
        if place == tile_at {
            maker.put("tile=(2)");
        }
        if !maker.dice.once_in(3) {
            let start = maker.dice.pick(&[
                "tensor_view=!cuda_tile.tensor_view<",
                "!cuda_tile.tensor_view<",
                "tensor_view<",
                "tensor_view=tensor_view<",
                "tensor_view= !cuda_tile.tensor_view<",
                "tensor_view =",
            ]);
            maker.put(start);
            maker.tensor_inside();
            let end = maker.dice.pick(&[">", ">", ">", ">", "", ">>", "<>"]);
            maker.put(end);
        }
        maker.comma();
    }
    let end = maker
        .dice
        .pick(&["dim_map=[0]>", "sparse_dim=1>", ">", "", ">>"]);
    maker.put(end);
    maker.done()
}

/// Before and after a numeral, in each place that takes one.
const PLACES: &[(&str, &str)] = &[
    ("tile<", "xf32>"),
    ("tile<4x", "xptr<i8>>"),
    ("tile<", "ptr<i8>>"),
    ("tensor_view<", "xf32, strides=[1]>"),
    ("tensor_view<?xf32,strides=[", ",1]>"),
    ("partition_view<tile=(", "), tensor_view<f32>, dim_map=[0]>"),
    (
        "partition_view<tile=(2x",
        "), tensor_view<f32>, dim_map=[0]>",
    ),
    (
        "partition_view<tile=(2), tensor_view<f32>, dim_map=[1,",
        "]>",
    ),
    (
        "strided_view<tile=(2), traversal_strides=[",
        "], tensor_view<f32>, dim_map=[0]>",
    ),
    (
        "strided_view<tile=(2), traversal_strides=[1], tensor_view<f32>, dim_map=[",
        "]>",
    ),
    (
        "gather_scatter_view<tile=(2), tensor_view<f32>, sparse_dim=",
        ">",
    ),
    (
        "gather_scatter_view<tile=(2), sparse_dim=",
        ", tensor_view<f32>>",
    ),
];

/// Odd numerals in every place that takes one.
pub fn numerals(dice: &mut Dice) -> Vec<u8> {
    let (front, back) = PLACES[dice.below(PLACES.len())];
    let mut text = front.as_bytes().to_vec();
    for _ in 0..dice.from(1, 2) {
        let lists = [ODD_NUMERALS, ODD_NUMERALS, EDGES_32, EDGES_64, SMALL];
        let list = lists[dice.below(lists.len())];
        text.extend(dice.pick(list).bytes());
        text.extend(dice.pick(&["", "", "", " ", "0", "1", ",", "x"]).bytes());
    }
    text.extend(back.bytes());
    text
}
