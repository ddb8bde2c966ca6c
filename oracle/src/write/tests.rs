//! The written text of each kind, and every refusal of the writer.

use super::*;
use crate::answer::{Answer, Padding, DYNAMIC};
use crate::flat::KINDS;
use crate::scalar::ALL;
use crate::strict;

const ROOM: usize = 1024;

fn write(flat: &Flat, room: usize) -> Result<String, u8> {
    in_room(&whole(flat), room)
}

/// A record of each kind, with everything that it can have.
fn full(kind: Kind) -> Record {
    let mut record = Record {
        element: Scalar::F32,
        attribute: true,
        ..Record::blank(kind)
    };
    match kind {
        Kind::Scalar => record.attribute = false,
        Kind::Token => return Record::blank(kind),
        Kind::Tile => record.pointer = true,
        _ => {}
    }
    if !matches!(kind, Kind::Scalar | Kind::Pointer) {
        record.shape = vec![DYNAMIC, 16];
    }
    if is_view(kind) || kind == Kind::TensorView {
        record.strides = vec![16, DYNAMIC];
    }
    if is_view(kind) {
        record.tile = vec![4, 8];
        record.padding = Some(Padding::NegZero);
    }
    match kind {
        Kind::Partition => record.map = vec![1, 0],
        Kind::GatherScatter => record.sparse = -1,
        Kind::Strided => (record.map, record.traversal) = (vec![1], vec![2, 3]),
        _ => {}
    }
    record
}

fn flat(record: &Record) -> Flat {
    Flat::of(record).expect("its lists are short")
}

fn written(record: &Record) -> Result<String, u8> {
    write(&flat(record), ROOM)
}

#[test]
fn every_kind_has_its_text() {
    let texts = KINDS.map(|kind| written(&full(kind)).expect("it has a text"));
    let expected = [
        "f32",
        "!cuda_tile.ptr<f32, #cuda_tile.ptr_attr<none>>",
        "!cuda_tile.tile<?x16x!cuda_tile.ptr<f32, #cuda_tile.ptr_attr<none>>>",
        "!cuda_tile.tensor_view<?x16xf32, strides=[16,?], #cuda_tile.ptr_attr<none>>",
        "!cuda_tile.partition_view<tile=(4x8), padding_value=neg_zero, tensor_view<?x16xf32, strides=[16,?], #cuda_tile.ptr_attr<none>>, dim_map=[1,0]>",
        "!cuda_tile.gather_scatter_view<tile=(4x8), padding_value=neg_zero, tensor_view<?x16xf32, strides=[16,?], #cuda_tile.ptr_attr<none>>, sparse_dim=-1>",
        "!cuda_tile.strided_view<tile=(4x8), traversal_strides=[2,3], padding_value=neg_zero, tensor_view<?x16xf32, strides=[16,?], #cuda_tile.ptr_attr<none>>, dim_map=[1]>",
        "!cuda_tile.token",
    ];
    assert_eq!(texts, expected);
}

#[test]
fn the_written_row_of_the_document() {
    let read = strict::read(
        b"partition_view<tile=(4x8), tensor_view<?x16xf32, strides=[16, 1]>, dim_map=[1,0]>",
    );
    let Answer::Accepted(record, _) = read else {
        panic!("{read}");
    };
    let text = "!cuda_tile.partition_view<tile=(4x8), tensor_view<?x16xf32, strides=[16,1]>, dim_map=[1,0]>";
    assert_eq!(written(&record), Ok(text.to_string()));
}

#[test]
fn first_spellings_are_written() {
    for (element, name) in ALL {
        let record = Record {
            element,
            ..Record::blank(Kind::Scalar)
        };
        assert_eq!(written(&record), Ok(name.to_string()));
    }
}

#[test]
fn what_may_be_absent_is_left_out() {
    let blank = |kind| Record {
        tile: vec![1],
        map: vec![0],
        ..Record::blank(kind)
    };
    let text = "!cuda_tile.partition_view<tile=(1), tensor_view<i1>, dim_map=[0]>";
    assert_eq!(written(&blank(Kind::Partition)), Ok(text.to_string()));
    let strides = Record {
        strides: vec![-1],
        ..Record::blank(Kind::TensorView)
    };
    let text = "!cuda_tile.tensor_view<i1, strides=[-1]>";
    assert_eq!(written(&strides), Ok(text.to_string()));
    let tile = Record::blank(Kind::Tile);
    assert_eq!(written(&tile), Ok("!cuda_tile.tile<i1>".to_string()));
}

#[test]
fn the_longest_text_has_its_length() {
    let wide = vec![i64::MIN + 1; 8];
    let narrow = vec![i32::MIN; 8];
    let longest = Record {
        element: Scalar::F8E8M0FNU,
        shape: wide.clone(),
        strides: wide,
        tile: narrow.clone(),
        map: narrow.clone(),
        traversal: narrow,
        ..full(Kind::Strided)
    };
    let text = write(&flat(&longest), LONGEST_WRITTEN).expect("it has room");
    assert_eq!(text.len(), LONGEST_WRITTEN);
    assert_eq!(write(&flat(&longest), LONGEST_WRITTEN - 1), Err(8));
}

type Change = fn(&mut Flat);

/// Each field that a kind may leave unused, and the kinds that use it.
#[test]
fn a_field_outside_the_kind_isnt_normal() {
    use Kind::*;
    let views = [Partition, GatherScatter, Strided];
    let fields: [(Change, &[Kind]); 9] = [
        (|flat| flat.element = 1, &KINDS[..7]),
        (|flat| flat.pointer = 1, &[Tile]),
        (|flat| flat.shape_len = 1, &KINDS[2..7]),
        (|flat| flat.strides_len = 1, &KINDS[3..7]),
        (|flat| flat.tile_len = 1, &views),
        (|flat| flat.map_len = 1, &[Partition, Strided]),
        (|flat| flat.traversal_len = 1, &[Strided]),
        (|flat| flat.sparse = 1, &[GatherScatter]),
        (|flat| flat.padding = 1, &views),
    ];
    for kind in KINDS {
        for (place, (change, kinds)) in fields.iter().enumerate() {
            let mut flat = flat(&Record::blank(kind));
            change(&mut flat);
            let refused = write(&flat, ROOM) == Err(6);
            assert_eq!(refused, !kinds.contains(&kind), "{kind:?}, field {place}");
        }
    }
}

#[test]
fn lengths_entries_and_numbers_out_of_range_arent_normal() {
    let changes: [Change; 18] = [
        |flat| flat.shape_len = 9,
        |flat| flat.strides_len = 9,
        |flat| flat.tile_len = 9,
        |flat| flat.map_len = 9,
        |flat| flat.traversal_len = usize::MAX,
        |flat| flat.shape[7] = 1,
        |flat| flat.strides[2] = DYNAMIC,
        |flat| flat.tile[2] = -1,
        |flat| flat.map[1] = 1,
        |flat| flat.traversal[2] = 1,
        |flat| flat.kind = 8,
        |flat| flat.element = 16,
        |flat| flat.padding = 6,
        |flat| flat.pointer = 2,
        |flat| flat.attribute = 2,
        |flat| flat.attribute = 255,
        |flat| flat.kind = 255,
        |flat| flat.shape[2] = 1,
    ];
    for (place, change) in changes.iter().enumerate() {
        let mut flat = flat(&full(Kind::Strided));
        assert!(write(&flat, ROOM).is_ok());
        change(&mut flat);
        assert_eq!(write(&flat, ROOM), Err(6), "change {place}");
    }
}

#[test]
fn some_records_have_no_text() {
    type Change = fn(&mut Record);
    let changes: [(Kind, Change); 14] = [
        (Kind::Partition, |record| record.tile.clear()),
        (Kind::GatherScatter, |record| record.tile.clear()),
        (Kind::Strided, |record| record.tile.clear()),
        (Kind::Partition, |record| record.map.clear()),
        (Kind::Strided, |record| record.map.clear()),
        (Kind::Strided, |record| record.traversal.clear()),
        (Kind::TensorView, |record| record.strides.clear()),
        (Kind::Partition, |record| record.strides.clear()),
        (Kind::GatherScatter, |record| record.strides.clear()),
        (Kind::Strided, |record| record.strides.clear()),
        (Kind::Scalar, |record| record.attribute = true),
        (Kind::Token, |record| record.attribute = true),
        (Kind::Tile, |record| record.pointer = false),
        (Kind::Tile, |record| {
            record.pointer = false;
            record.shape.clear();
        }),
    ];
    for (kind, change) in changes {
        let mut record = full(kind);
        assert!(written(&record).is_ok());
        change(&mut record);
        assert_eq!(written(&record), Err(7), "{record}");
    }
}

#[test]
fn refusals_come_in_the_order_6_7_8() {
    let mut flat = flat(&full(Kind::Scalar));
    assert_eq!(write(&flat, 3), Ok("f32".to_string()));
    assert_eq!(write(&flat, 2), Err(8));
    flat.attribute = 1;
    assert_eq!(write(&flat, 0), Err(7));
    flat.sparse = 1;
    assert_eq!(write(&flat, 0), Err(6));
}
