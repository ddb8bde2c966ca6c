//! The order of refusals, and the sentences of document 01's 'Strict forms' that hold for every
//! form, with what each accepts and what it shuts out.

use super::*;
use crate::pieces::NAMES;
use crate::{original, plain};

/// Each is strict, and the ordinary readings agree on its type with nothing filled in.
pub fn accepted(texts: &[&str]) {
    for text in texts {
        let strict = read(text.as_bytes());
        assert!([0, 4].contains(&strict.number()), "{text}: {strict}");
        assert_eq!(plain::read(text.as_bytes()), strict, "{text}");
        let original = original::read(text.as_bytes());
        assert!(original.is_none_or(|one| one.agrees(&strict)), "{text}");
    }
}

pub fn refused(texts: &[&str]) {
    for text in texts {
        assert_eq!(read(text.as_bytes()), Answer::refused(5), "{text}");
    }
}

pub fn shown(text: &str) -> String {
    read(text.as_bytes()).to_string()
}

#[test]
fn refusals_come_in_the_order_1_2_5_4() {
    let nine = format!("tile<{}f32>", "1x".repeat(9));
    let long = |text: &str| format!("{text}{}", " ".repeat(1025 - text.len()));
    assert_eq!(read(long("token").as_bytes()), Answer::refused(1));
    assert_eq!(read(long("\u{80}").as_bytes()), Answer::refused(1));
    assert_eq!(read(&long("token").as_bytes()[..1024]), Answer::refused(5));
    let high = Answer::Refused {
        number: 2,
        place: 5,
    };
    assert_eq!(read(b"token\x80\x81"), high);
    assert_eq!(read(b" oken\xff"), high);
    assert_eq!(read(b"token\x7f"), Answer::refused(5));
    assert_eq!(read(format!("{nine} ").as_bytes()), Answer::refused(5));
    assert_eq!(read(nine.as_bytes()), Answer::refused(4));
    assert_eq!(read(b""), Answer::refused(5));
}

#[test]
fn a_strict_form_of_1024_bytes_is_read_to_its_end() {
    let text = format!("tile<{}i8>", "1x".repeat(508));
    assert_eq!(text.len(), 1024);
    assert_eq!(read(text.as_bytes()), Answer::refused(4));
    let text = format!("tile<{}i8>", "1x".repeat(507) + "10x");
    assert_eq!(read(text.as_bytes()), Answer::refused(1));
    let text = format!("tile<{}i8>", "1x".repeat(507) + "0");
    assert_eq!(read(text.as_bytes()), Answer::refused(5));
}

/// "The type has a list of over 8 entries": each of the five, eight and nine long.
#[test]
fn every_list_has_its_capacity() {
    let comma = |count| vec!["1"; count].join(",");
    let forms: [fn(&str) -> String; 5] = [
        |list| format!("tile<{}xf32>", list.replace(',', "x")),
        |list| format!("tensor_view<f32,strides=[{list}]>"),
        |list| format!("partition_view<tile=({list}),tensor_view<f32>,dim_map=[0]>"),
        |list| format!("partition_view<tile=(1),tensor_view<f32>,dim_map=[{list}]>"),
        |list| {
            let front = "strided_view<tile=(1),traversal_strides=[";
            format!("{front}{list}],tensor_view<f32>,dim_map=[0]>")
        },
    ];
    for form in forms {
        assert_eq!(read(form(&comma(8)).as_bytes()).number(), 0);
        assert_eq!(read(form(&comma(9)).as_bytes()).number(), 4);
        accepted(&[&form(&comma(8)), &form(&comma(9))]);
    }
}

/// "No byte may stand that isn't named here."
#[test]
fn no_other_byte_stands() {
    accepted(&["tile<4xf32>", "tensor_view<4xf32, strides=[1]>"]);
    refused(&[
        " tile<4xf32>",
        "tile<4xf32> ",
        "tile<4xf32>\n",
        "tile<4xf32>junk",
        "tile<4xf32>>",
        "tile< 4xf32>",
        "tile<4 xf32>",
        "tile<4x f32>",
        "tile<4xf32 >",
        "tile <4xf32>",
        "tile<4xf32",
        "tile<4xf32)",
        "tile<4Xf32>",
        "tile<4xf32,>",
        "tile<x4xf32>",
        "tile<4xxf32>",
        "tensor_view<4xf32 , strides=[1]>",
        "tensor_view<4xf32, strides =[1]>",
        "tensor_view<4xf32, strides=[ 1]>",
        "tensor_view<4xf32, strides=[1 ]>",
        "tensor_view<4xf32, strides=[1] >",
        "tensor_view<4xf32, strides=[1],>",
        "tensor_view<4xf32, strides=[[1]]>",
        "tensor_view<4xf32, strides=(1)>",
        "tensor_view<4xf32; strides=[1]>",
        "token\0",
        "\0token",
        "\x0btoken",
        ", #cuda_tile.ptr_attr<none>",
    ]);
}

/// "After a comma one space may stand or not"
#[test]
fn one_space_after_a_comma() {
    let view = |comma: &str| {
        "strided_view<tile=(1,2),traversal_strides=[3,4],padding_value=nan,tensor_view<5x6xf32,strides=[7,8]>,dim_map=[9,10]>"
            .replace(',', comma)
    };
    assert_eq!(shown(&view(",")), shown(&view(", ")));
    accepted(&[&view(","), &view(", ")]);
    refused(&[&view(",  "), &view(" ,"), &view(" , "), &view(",\t")]);
    let text = view(",");
    for (place, _) in text.match_indices(',') {
        let with = |piece: &str| {
            let mut text = text.clone();
            text.insert_str(place + 1, piece);
            text
        };
        accepted(&[&with(" ")]);
        refused(&[&with("  "), &with("\n"), &with(",")]);
    }
}

/// "except that the mark is exactly the 27 bytes"
#[test]
fn the_mark_is_27_bytes() {
    assert_eq!(MARK.len(), 27);
    accepted(&["ptr<f32, #cuda_tile.ptr_attr<none>>"]);
    refused(&[
        "ptr<f32,#cuda_tile.ptr_attr<none>>",
        "ptr<f32,  #cuda_tile.ptr_attr<none>>",
        "ptr<f32 , #cuda_tile.ptr_attr<none>>",
        "ptr<f32, #cuda_tile.ptr_attr<none> >",
        "ptr<f32, #cuda_tile.ptr_attr<none>",
        "ptr<f32, #cuda_tile.ptr_attr<None>>",
        "ptr<f32, #cuda_tile.ptr_attr<>>",
        "ptr<f32, !cuda_tile.ptr_attr<none>>",
        "ptr<f32#cuda_tile.ptr_attr<none>>",
    ]);
}

/// "Numerals have no `+`, no leading zero, no `-0`", in each place.
#[test]
fn numerals_are_plain() {
    for (front, back) in PLACES {
        let with = |piece: &str| format!("{front}{piece}{back}");
        for numeral in ["0", "1", "9", "10", "-1", "-10", "100", "2147483647"] {
            accepted(&[&with(numeral)]);
        }
        for numeral in ["+1", "+0", "01", "00", "-01", "-0", "-00", "", "-", "+"] {
            refused(&[&with(numeral)]);
        }
        for numeral in ["--1", "1-", "- 1", "\t1", "1 ", "1_0", "0b1", "a", "1.0"] {
            refused(&[&with(numeral)]);
        }
    }
}

/// Before and after a numeral in each place that takes one, and whether it has 64 bits.
const PLACES: [(&str, &str); 8] = [
    ("tile<", "xf32>"),
    ("tensor_view<", "xf32,strides=[1]>"),
    ("tensor_view<f32,strides=[", "]>"),
    ("tensor_view<f32,strides=[1,", "]>"),
    ("partition_view<tile=(", "),tensor_view<f32>,dim_map=[0]>"),
    ("partition_view<tile=(1),tensor_view<f32>,dim_map=[", "]>"),
    (
        "strided_view<tile=(1),traversal_strides=[",
        "],tensor_view<f32>,dim_map=[0]>",
    ),
    (
        "gather_scatter_view<tile=(1),tensor_view<f32>,sparse_dim=",
        ">",
    ),
];

/// "64 bits for shape and strides, 32 for all others; the smallest i64 is written only as `?`,
/// and `?` stands only in shape and strides"
#[test]
fn numerals_lie_in_the_range_of_their_place() {
    for (place, (front, back)) in PLACES.iter().enumerate() {
        let with = |piece: &str| format!("{front}{piece}{back}");
        accepted(&[&with("2147483647"), &with("-2147483648")]);
        for numeral in [
            "?",
            "2147483648",
            "-2147483649",
            "9223372036854775807",
            "-9223372036854775807",
        ] {
            match place < 4 {
                true => accepted(&[&with(numeral)]),
                false => refused(&[&with(numeral)]),
            }
        }
        for numeral in [
            "-9223372036854775808",
            "9223372036854775808",
            "-9223372036854775809",
            "18446744073709551617",
            "10000000000000000000",
            "99999999999999999999999999999999999999999999",
            "340282366920938463463374607431768211457",
            "??",
            "-?",
            "?0",
            "0?",
        ] {
            refused(&[&with(numeral)]);
        }
    }
}

#[test]
fn the_question_mark_is_the_smallest_number() {
    assert!(shown("tile<?xf32>").contains("shape=[?]"));
    assert!(shown("tensor_view<f32,strides=[?]>").contains("strides=[?]"));
}

/// "A scalar in any accepted spelling; `token`."
#[test]
fn scalars_and_token_stand_bare() {
    assert_eq!(NAMES.len(), 22);
    for name in NAMES {
        accepted(&[
            name,
            &format!("ptr<{name}>"),
            &format!("tile<{name}>"),
            &format!("tile<4x{name}>"),
            &format!("tensor_view<{name}>"),
        ]);
    }
    accepted(&["token"]);
    refused(&[
        "F32", "BOOL", "f8E4m3FN", "f8e4M3FN", "i2", "i", "i16i", "tokens", "Token", "TOKEN",
        "index", "f32f32",
    ]);
}

/// "may carry `!cuda_tile.` in front; scalar and padding names may not"
#[test]
fn seven_names_may_carry_the_prefix() {
    for form in [
        "token",
        "ptr<f32>",
        "tile<f32>",
        "tile<4xptr<f32>>",
        "tensor_view<f32>",
        "partition_view<tile=(1),tensor_view<f32>,dim_map=[0]>",
        "gather_scatter_view<tile=(1),tensor_view<f32>,sparse_dim=0>",
        "strided_view<tile=(1),traversal_strides=[1],tensor_view<f32>,dim_map=[0]>",
    ] {
        accepted(&[form, &format!("!cuda_tile.{form}")]);
        refused(&[
            &format!("!cuda_tile.!cuda_tile.{form}"),
            &format!("!cuda_tile{form}"),
            &format!("cuda_tile.{form}"),
            &format!("#cuda_tile.{form}"),
            &format!("!cuda_tile. {form}"),
        ]);
    }
    accepted(&[
        "tile<!cuda_tile.ptr<f32>>",
        "tile<4x!cuda_tile.ptr<f32>>",
        "partition_view<tile=(1),!cuda_tile.tensor_view<f32>,dim_map=[0]>",
    ]);
    refused(&[
        "!cuda_tile.f32",
        "!cuda_tile.bool",
        "ptr<!cuda_tile.f32>",
        "tile<!cuda_tile.f32>",
        "tile<4x!cuda_tile.f32>",
        "tile<!cuda_tile.4xf32>",
        "tensor_view<!cuda_tile.f32>",
        "tensor_view<f32,!cuda_tile.strides=[1]>",
        "partition_view<!cuda_tile.tile=(1),tensor_view<f32>,dim_map=[0]>",
        "partition_view<tile=(1),tensor_view<f32>,!cuda_tile.dim_map=[0]>",
        "partition_view<tile=(1),padding_value=!cuda_tile.nan,tensor_view<f32>,dim_map=[0]>",
        "partition_view<tile=(1),!cuda_tile.padding_value=nan,tensor_view<f32>,dim_map=[0]>",
    ]);
}
