//! The original's answer: `Type::parse` under document 01's refusals 1, 2, 3, 4, in that order.

use crate::answer::Answer;

pub const PRESENT: bool = cfg!(has_source);

/// One clear line for the commands that can't do without the source.
pub fn needed() -> Result<(), String> {
    if PRESENT {
        return Ok(());
    }
    Err(
        "the original source is absent: set CUTILE_IR_SRC to the folder that holds \
         src/ir/types.rs and build again"
            .to_string(),
    )
}

/// None where the source is absent.
#[cfg(not(has_source))]
pub fn read(_: &[u8]) -> Option<Answer> {
    None
}

#[cfg(has_source)]
pub use with_source::read;

#[cfg(has_source)]
mod with_source {
    use super::Answer;
    use crate::answer::{Kind, Padding, Record, LONGEST_TEXT};
    use crate::ir::types::{
        PaddingValue, ScalarType, TensorViewType, TileElementType, TileType, Type,
    };
    use crate::scalar::Scalar;

    pub fn read(text: &[u8]) -> Option<Answer> {
        if text.len() > LONGEST_TEXT {
            return Some(Answer::refused(1));
        }
        if let Some(place) = text.iter().position(|byte| *byte >= 128) {
            return Some(Answer::Refused { number: 2, place });
        }
        let ascii = std::str::from_utf8(text).expect("bytes below 128 are UTF-8");
        let Some(found) = Type::parse(ascii) else {
            return Some(Answer::refused(3));
        };
        let record = flat(&found);
        if record.too_many() {
            return Some(Answer::refused(4));
        }
        Some(Answer::Accepted(record, None))
    }

    /// The `WithPointerAttribute` box becomes a flag, the vectors stay as they are.
    fn flat(found: &Type) -> Record {
        let mut record = bare(found.without_pointer_attribute());
        record.attribute = found.pointer_attribute().is_some();
        record
    }

    fn bare(found: &Type) -> Record {
        match found {
            Type::Scalar(scalar) => element(Kind::Scalar, *scalar),
            Type::Pointer(pointer) => element(Kind::Pointer, pointer.pointee),
            Type::Tile(tile) => tile_record(tile),
            Type::TensorView(view) => tensor(Kind::TensorView, view),
            Type::PartitionView(view) => Record {
                tile: view.tile_shape.clone(),
                map: view.dim_map.clone(),
                padding: view.padding_value.map(padding),
                ..tensor(Kind::Partition, &view.tensor_view)
            },
            Type::GatherScatterView(view) => Record {
                tile: view.tile_shape.clone(),
                sparse: view.sparse_dim,
                padding: view.padding_value.map(padding),
                ..tensor(Kind::GatherScatter, &view.tensor_view)
            },
            Type::StridedView(view) => Record {
                tile: view.tile_shape.clone(),
                traversal: view.traversal_strides.clone(),
                map: view.dim_map.clone(),
                padding: view.padding_value.map(padding),
                ..tensor(Kind::Strided, &view.tensor_view)
            },
            Type::Token => Record::blank(Kind::Token),
            Type::Func(_) | Type::WithPointerAttribute(..) => {
                unreachable!("no text gives a function, and the attribute is taken off before")
            }
        }
    }

    fn tile_record(tile: &TileType) -> Record {
        let (scalar, pointer) = match &tile.element_type {
            TileElementType::Scalar(scalar) => (*scalar, false),
            TileElementType::Pointer(pointer) => (pointer.pointee, true),
        };
        Record {
            shape: tile.shape.clone(),
            pointer,
            ..element(Kind::Tile, scalar)
        }
    }

    fn element(kind: Kind, scalar: ScalarType) -> Record {
        Record {
            element: ours(scalar),
            ..Record::blank(kind)
        }
    }

    fn tensor(kind: Kind, view: &TensorViewType) -> Record {
        Record {
            shape: view.shape.clone(),
            strides: view.strides.clone(),
            ..element(kind, view.element_type)
        }
    }

    fn padding(value: PaddingValue) -> Padding {
        match value {
            PaddingValue::Zero => Padding::Zero,
            PaddingValue::NegZero => Padding::NegZero,
            PaddingValue::Nan => Padding::Nan,
            PaddingValue::PosInf => Padding::PosInf,
            PaddingValue::NegInf => Padding::NegInf,
        }
    }

    fn ours(scalar: ScalarType) -> Scalar {
        match scalar {
            ScalarType::I1 => Scalar::I1,
            ScalarType::I4 => Scalar::I4,
            ScalarType::I8 => Scalar::I8,
            ScalarType::I16 => Scalar::I16,
            ScalarType::I32 => Scalar::I32,
            ScalarType::I64 => Scalar::I64,
            ScalarType::F16 => Scalar::F16,
            ScalarType::BF16 => Scalar::BF16,
            ScalarType::F32 => Scalar::F32,
            ScalarType::TF32 => Scalar::TF32,
            ScalarType::F64 => Scalar::F64,
            ScalarType::F8E4M3FN => Scalar::F8E4M3FN,
            ScalarType::F8E5M2 => Scalar::F8E5M2,
            ScalarType::F8E8M0FNU => Scalar::F8E8M0FNU,
            ScalarType::F4E2M1FN => Scalar::F4E2M1FN,
            ScalarType::F8E5M3FNU => Scalar::F8E5M3FNU,
        }
    }
}

#[cfg(all(test, has_source))]
mod tests {
    use super::*;
    use crate::ir::types::Type;

    /// docs/DIFFERENCES.md: what the original returns where document 01 refuses with 1, 2 or 4.
    #[test]
    fn refusals_that_the_original_does_not_have() {
        let long = format!("token{}", " ".repeat(1020));
        for (text, number) in [
            (long.as_str(), 1),
            ("token\u{a0}", 2),
            ("tile<1x1x1x1x1x1x1x1x1xf32>", 4),
        ] {
            assert!(Type::parse(text).is_some(), "{text}");
            assert_eq!(
                read(text.as_bytes()).map(|answer| answer.number()),
                Some(number)
            );
        }
    }
}
