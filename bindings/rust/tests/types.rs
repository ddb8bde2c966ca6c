//! Every refusal, every builder, and what is printed.

use std::collections::HashSet;
use std::error::Error as _;
use std::fmt::Write;
use typetext::{
    Error, Kind, Padding, Scalar, Type, CAPACITY, DYNAMIC, LONGEST_TEXT, LONGEST_WRITTEN,
};

const MARK: &str = ", #cuda_tile.ptr_attr<none>";

fn ordinary(text: impl AsRef<[u8]>) -> Result<Type, Error> {
    Type::parse_ordinary(text).map(|read| read.0)
}

fn number<T: std::fmt::Debug>(refused: Result<T, Error>) -> u8 {
    refused.unwrap_err().number()
}

#[test]
fn one_a_long_text() {
    let text = format!("{:1$}", "f32", LONGEST_TEXT);
    assert!(ordinary(&text).is_ok());
    let longer = text + " ";
    assert_eq!(number(ordinary(&longer)), 1);
    assert_eq!(number(Type::parse_strict(&longer)), 1);
}

#[test]
fn two_a_high_byte() {
    for refused in [
        ordinary(b"tile<\x80\xff>"),
        Type::parse_strict(b"tile<\x80\xff>"),
        "tile<é>".parse(),
    ] {
        let error = refused.unwrap_err();
        assert_eq!((error.number(), error.place()), (2, Some(5)));
        let printed = error.to_string();
        assert_eq!(printed, "refusal 2: a byte of 128 or more, at place 5");
    }
}

#[test]
fn three_no_type() {
    for text in ["", "f31", MARK, "tile<4x>", "partition_view<tile=(4)>"] {
        let error = ordinary(text).unwrap_err();
        assert_eq!((error.number(), error.place()), (3, None), "{text}");
    }
}

#[test]
fn four_a_long_list() {
    let text = |n: usize| format!("tile<{}f32>", "1x".repeat(n));
    assert_eq!(
        text(CAPACITY).parse(),
        Type::tile(&[1; CAPACITY], Scalar::F32)
    );
    assert_eq!(number(ordinary(text(9))), 4);
    assert_eq!(number(Type::parse_strict(text(9))), 4);
}

#[test]
fn five_not_strict() {
    for text in [
        "",
        "tile<f32>junk",
        " f32",
        "tile<04xf32>",
        "tensor_view<4xf32>",
    ] {
        assert_eq!(number(text.parse::<Type>()), 5, "{text}");
    }
}

#[test]
fn six_not_normal() {
    let tensor = Type::tensor_view(&[4], &[1], Scalar::F32).unwrap();
    assert_eq!(number(Type::tile(&[1; 9], Scalar::F32)), 6);
    assert_eq!(number(Type::pointer_tile(&[1; 9], Scalar::F32)), 6);
    assert_eq!(number(Type::tensor_view(&[], &[1; 9], Scalar::F32)), 6);
    assert_eq!(number(Type::partition_view(&[1; 9], &tensor, &[0])), 6);
    assert_eq!(number(Type::partition_view(&[1], &tensor, &[0; 9])), 6);
    assert_eq!(number(Type::strided_view(&[1], &[0; 9], &tensor, &[0])), 6);
    assert_eq!(number(tensor.with_padding(Padding::Zero)), 6);
    let view = Type::gather_scatter_view(&[1], &tensor, 0).unwrap();
    assert_eq!(number(Type::gather_scatter_view(&[1], &view, 0)), 6);
    assert_eq!(number(Type::partition_view(&[1], &Type::token(), &[0])), 6);
}

#[test]
fn seven_no_text() {
    let tensor = Type::tensor_view(&[4], &[1], Scalar::F32).unwrap();
    assert_eq!(number(Type::tensor_view(&[4], &[], Scalar::F32)), 7);
    assert_eq!(number(Type::partition_view(&[], &tensor, &[0])), 7);
    assert_eq!(number(Type::partition_view(&[1], &tensor, &[])), 7);
    assert_eq!(number(Type::gather_scatter_view(&[], &tensor, 0)), 7);
    assert_eq!(number(Type::strided_view(&[1], &[], &tensor, &[0])), 7);
    assert_eq!(number(Type::token().with_attribute()), 7);
    assert_eq!(number(Type::scalar(Scalar::F32).with_attribute()), 7);
    let tile = Type::tile(&[4], Scalar::F32).unwrap();
    assert_eq!(number(tile.with_attribute()), 7);
}

/// Printing such a type is an error, never an empty text.
#[test]
fn a_type_without_text_does_not_print() {
    for text in ["token", "f32", "tile<4xf32>"] {
        let read = ordinary(format!("{text}{MARK}")).unwrap();
        assert!(read.has_attribute());
        assert_eq!(number(read.to_text()), 7);
        assert!(write!(String::new(), "{read}").is_err());
        assert!(format!("{read:?}").contains("has_attribute: true"));
    }
}

#[test]
fn errors_print_and_have_no_cause() {
    let error = "junk".parse::<Type>().unwrap_err();
    assert_eq!(error.to_string(), "refusal 5: not a strict form");
    assert_eq!(error.meaning(), "not a strict form");
    assert!(error.source().is_none());
    let boxed: Box<dyn std::error::Error + Send + Sync> = error.into();
    assert!(boxed.is::<Error>());
}

#[test]
fn every_builder_is_written() {
    let tensor = Type::tensor_view(&[DYNAMIC, -7], &[9, DYNAMIC], Scalar::BF16).unwrap();
    let built = [
        (Ok(Type::token()), "!cuda_tile.token"),
        (Ok(Type::scalar(Scalar::F8E5M2)), "f8E5M2"),
        (
            Type::pointer(Scalar::I4).with_attribute(),
            "!cuda_tile.ptr<i4, #cuda_tile.ptr_attr<none>>",
        ),
        (Type::tile(&[], Scalar::I1), "!cuda_tile.tile<i1>"),
        (
            Type::pointer_tile(&[4, DYNAMIC], Scalar::F32),
            "!cuda_tile.tile<4x?x!cuda_tile.ptr<f32>>",
        ),
        (
            Ok(tensor),
            "!cuda_tile.tensor_view<?x-7xbf16, strides=[9,?]>",
        ),
        (
            Type::partition_view(&[4, 8], &tensor, &[1, 0]),
            "!cuda_tile.partition_view<tile=(4x8), tensor_view<?x-7xbf16, strides=[9,?]>, dim_map=[1,0]>",
        ),
        (
            Type::gather_scatter_view(&[4], &tensor, -1),
            "!cuda_tile.gather_scatter_view<tile=(4), tensor_view<?x-7xbf16, strides=[9,?]>, sparse_dim=-1>",
        ),
        (
            Type::strided_view(&[2], &[3], &tensor, &[0]),
            "!cuda_tile.strided_view<tile=(2), traversal_strides=[3], tensor_view<?x-7xbf16, strides=[9,?]>, dim_map=[0]>",
        ),
    ];
    for (built, text) in built {
        let built = built.unwrap();
        assert_eq!(built.to_string(), text);
        assert_eq!(text.parse(), Ok(built));
        assert_eq!(Type::parse_strict(built.to_text().unwrap()), Ok(built));
    }
}

#[test]
fn every_part_is_seen() {
    let tensor = Type::tensor_view(&[DYNAMIC, 16], &[16, 1], Scalar::F64).unwrap();
    let tensor = tensor.with_attribute().unwrap();
    let view = Type::strided_view(&[2, 3], &[-1, 5], &tensor, &[1, 0]).unwrap();
    let view = view.with_padding(Padding::NegInf).unwrap();
    assert_eq!(view.kind(), Kind::Strided);
    assert_eq!(view.element(), Some(Scalar::F64));
    assert_eq!(view.shape(), [DYNAMIC, 16]);
    assert_eq!(view.strides(), [16, 1]);
    assert_eq!(view.tile_shape(), [2, 3]);
    assert_eq!(view.traversal_strides(), [-1, 5]);
    assert_eq!(view.dim_map(), [1, 0]);
    assert_eq!(view.padding(), Some(Padding::NegInf));
    assert_eq!(view.sparse_dim(), None);
    assert!(view.has_attribute() && !view.is_pointer());
}

#[test]
fn pointers_and_tokens() {
    assert!(Type::pointer(Scalar::F32).is_pointer());
    assert!(Type::pointer_tile(&[2], Scalar::F32).unwrap().is_pointer());
    assert!(!Type::tile(&[2], Scalar::F32).unwrap().is_pointer());
    assert_eq!(Type::token().element(), None);
    assert_eq!(Type::token().kind(), Kind::Token);
}

#[test]
fn names_are_those_written() {
    for scalar in Scalar::ALL {
        let built = Type::scalar(scalar);
        assert_eq!(built.to_string(), scalar.name());
        assert_eq!(scalar.to_string().parse(), Ok(built));
    }
    let tensor = Type::tensor_view(&[], &[], Scalar::F32).unwrap();
    let view = Type::gather_scatter_view(&[4], &tensor, 0).unwrap();
    for padding in [
        Padding::Zero,
        Padding::NegZero,
        Padding::Nan,
        Padding::PosInf,
        Padding::NegInf,
    ] {
        let view = view.with_padding(padding).unwrap();
        assert_eq!(view.padding(), Some(padding));
        assert!(view
            .to_string()
            .contains(&format!("padding_value={padding},")));
    }
}

/// The longest text fills a `Text`.
#[test]
fn longest() {
    let tensor =
        Type::tensor_view(&[i64::MIN + 1; 8], &[i64::MIN + 1; 8], Scalar::F8E8M0FNU).unwrap();
    let view = Type::strided_view(&[i32::MIN; 8], &[i32::MIN; 8], &tensor, &[i32::MIN; 8]);
    let view = view.unwrap().with_padding(Padding::NegZero).unwrap();
    let text = view.with_attribute().unwrap().to_text().unwrap();
    assert_eq!(text.len(), LONGEST_WRITTEN);
    assert_eq!(text.parse::<Type>().unwrap().to_text(), Ok(text));
}

#[test]
fn equal_types_are_one() {
    let texts = ["tile<4xf32>", "!cuda_tile.tile<4xf32>"];
    let types: HashSet<Type> = texts.map(|text| text.parse().unwrap()).into();
    assert_eq!(types.len(), 1);
    assert_eq!(
        format!("{:>30}", Type::token()),
        format!("{:>30}", "!cuda_tile.token")
    );
}
