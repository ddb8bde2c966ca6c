//! The forms of document 01's 'Strict forms', one by one, with what each shuts out.

use super::tests::{accepted, refused, shown};
use crate::pieces::{MARK, PADDINGS};
use crate::strict::read;

/// "`ptr<scalar>`; `tile<` dimensions each followed by `x`, then a scalar or pointer `>`."
#[test]
fn pointers_and_tiles() {
    accepted(&[
        "ptr<i8>",
        "tile<i8>",
        "tile<4x?x-1xi8>",
        "tile<ptr<i8>>",
        "tile<4xptr<i8>>",
    ]);
    assert!(shown("tile<4xptr<i8>>").starts_with("0 tile i8 pointer=1 attribute=0 shape=[4] "));
    refused(&[
        "ptr<>",
        "ptr<ptr<i8>>",
        "ptr<4xi8>",
        "ptr<token>",
        "ptr<i8",
        "tile<>",
        "tile<4>",
        "tile<4x>",
        "tile<4,i8>",
        "tile<xi8>",
        "tile<xptr<i8>>",
        "tile<4ptr<i8>>",
        "tile<4xptr<i8>",
        "tile<ptr<4xi8>>",
        "tile<tile<i8>>",
        "tile<4xtoken>",
        "tile<i8,strides=[1]>",
        "tile<ptr<i8>xi8>",
        "ptr",
        "tile",
        "Tile<i8>",
        "PTR<i8>",
    ]);
}

/// "The strides may be absent at rank 0 only, meaning none. Their number need not equal the rank."
#[test]
fn tensor_views() {
    accepted(&[
        "tensor_view<f32>",
        "tensor_view<f32,strides=[1]>",
        "tensor_view<f32, strides=[1, 2,3]>",
        "tensor_view<4xf32,strides=[1,2]>",
        "tensor_view<4x?xf32,strides=[?]>",
    ]);
    assert!(shown("tensor_view<f32>").contains("shape=[] strides=[] "));
    refused(&[
        "tensor_view<4xf32>",
        "tensor_view<4xf32,strides=[]>",
        "tensor_view<f32,strides=[]>",
        "tensor_view<f32,strides=[,]>",
        "tensor_view<f32,strides=[1,]>",
        "tensor_view<f32,strides=[,1]>",
        "tensor_view<f32,strides=[1x2]>",
        "tensor_view<f32,strides=1>",
        "tensor_view<f32,strides=[1>",
        "tensor_view<f32,strides=[1],strides=[1]>",
        "tensor_view<f32strides=[1]>",
        "tensor_view<4x,strides=[1]>",
        "tensor_view<ptr<f32>>",
        "tensor_view<4xptr<f32>,strides=[1]>",
        "tensor_view<strides=[1],f32>",
        "tensor_view=!cuda_tile.tensor_view<f32>",
        "tensor_view=tensor_view<f32>",
    ]);
}

/// "`tile=(..)`, optional `padding_value=` name, tensor view, `dim_map=[..]`, `>`; commas between."
#[test]
fn partition_views() {
    let text = "partition_view<tile=(4),padding_value=zero,tensor_view<f32>,dim_map=[0]>";
    assert!(shown(text).contains("tile=[4] map=[0] traversal=[] sparse=0 padding=zero "));
    accepted(&[
        text,
        "partition_view<tile=(4),tensor_view<f32>,dim_map=[0]>",
    ]);
    for name in PADDINGS {
        accepted(&[&text.replace("zero", name)]);
    }
    refused(&[
        "partition_view<tile=(4),tensor_view<f32>>",
        "partition_view<tensor_view<f32>,dim_map=[0]>",
        "partition_view<tile=(4),dim_map=[0]>",
        "partition_view<tile=(4)tensor_view<f32>,dim_map=[0]>",
        "partition_view<tile=(4),tensor_view<f32>dim_map=[0]>",
        "partition_view<tile=(4),tensor_view<f32>,padding_value=zero,dim_map=[0]>",
        "partition_view<padding_value=zero,tile=(4),tensor_view<f32>,dim_map=[0]>",
        "partition_view<tile=(4),dim_map=[0],tensor_view<f32>>",
        "partition_view<tile=(4),padding_value=zero,padding_value=zero,tensor_view<f32>,dim_map=[0]>",
        "partition_view<tile=(4),tensor_view<f32>,dim_map=[0],dim_map=[0]>",
        "partition_view<tile=(4),tensor_view<f32>,dim_map=[0],sparse_dim=0>",
        "partition_view<tile=(4),tensor_view<f32>,sparse_dim=0>",
        "partition_view<tile=(4),traversal_strides=[1],tensor_view<f32>,dim_map=[0]>",
        "partition_view<tile=(4),tensor_view<f32>,dim_map=[0]",
        "partition_view<tile=(4),tensor_view<f32>,dim_map=(0)>",
        "partition_view<tile=[4],tensor_view<f32>,dim_map=[0]>",
        "partition_view<tile=4,tensor_view<f32>,dim_map=[0]>",
        "partition_view<tile=(4),tile<f32>,dim_map=[0]>",
        "partition_view<>",
    ]);
    for name in [
        "", "none", "Zero", "nonzero", "zerozero", "neg_", "inf", "0",
    ] {
        refused(&[&text.replace("zero", name)]);
    }
}

/// "Tile entries are parted by `x` throughout or by commas throughout."
#[test]
fn tile_entries_have_one_separator() {
    let view = |tile: &str| format!("partition_view<tile=({tile}),tensor_view<f32>,dim_map=[0]>");
    for tile in ["4", "4x8", "4,8", "4, 8", "4,8, 2", "4x8x-2"] {
        accepted(&[&view(tile)]);
    }
    assert_eq!(shown(&view("4x8")), shown(&view("4, 8")));
    for tile in [
        "4x8,2", "4,8x2", "4x 8", "4x,8", "4xx8", "4,,8", "4x", "4,", "x4", ",4",
    ] {
        refused(&[&view(tile)]);
    }
}

/// "The tensor view may also be introduced by `tensor_view=`, if `!cuda_tile.` follows."
#[test]
fn the_inner_tensor_view_has_three_openings() {
    let view = |inner: &str| format!("partition_view<tile=(4),{inner},dim_map=[0]>");
    for inner in [
        "tensor_view<f32>",
        "!cuda_tile.tensor_view<f32>",
        "tensor_view=!cuda_tile.tensor_view<f32>",
    ] {
        accepted(&[&view(inner)]);
    }
    for inner in [
        "tensor_view=tensor_view<f32>",
        "tensor_view= !cuda_tile.tensor_view<f32>",
        "tensor_view =!cuda_tile.tensor_view<f32>",
        "tensor_view=",
        "tensor_view=!cuda_tile.",
        "!cuda_tile.tensor_view=!cuda_tile.tensor_view<f32>",
        "tensor_view=!cuda_tile.!cuda_tile.tensor_view<f32>",
        "tensor_view=tensor_view=!cuda_tile.tensor_view<f32>",
        "tensor_view=!cuda_tile.tile<f32>",
        "tensor_view=f32",
    ] {
        refused(&[&view(inner)]);
    }
}

/// "the same with `sparse_dim=` numeral for the map"
#[test]
fn gather_scatter_views() {
    let text =
        "gather_scatter_view<tile=(4), padding_value=neg_inf, tensor_view<f32>, sparse_dim=-7>";
    assert!(shown(text).contains("tile=[4] map=[] traversal=[] sparse=-7 padding=neg_inf "));
    accepted(&[
        text,
        "gather_scatter_view<tile=(4x2),tensor_view=!cuda_tile.tensor_view<f32>,sparse_dim=0>",
    ]);
    refused(&[
        "gather_scatter_view<tile=(4),tensor_view<f32>>",
        "gather_scatter_view<tile=(4),tensor_view<f32>,sparse_dim=>",
        "gather_scatter_view<tile=(4),tensor_view<f32>,sparse_dim=[0]>",
        "gather_scatter_view<tile=(4),tensor_view<f32>,sparse_dim=0,1>",
        "gather_scatter_view<tile=(4),tensor_view<f32>,sparse_dim=?>",
        "gather_scatter_view<tile=(4),tensor_view<f32>,dim_map=[0]>",
        "gather_scatter_view<tile=(4),sparse_dim=0,tensor_view<f32>>",
        "gather_scatter_view<tile=(4),traversal_strides=[1],tensor_view<f32>,sparse_dim=0>",
    ]);
}

/// "as partition, with `traversal_strides=[..]` right after the tile"
#[test]
fn strided_views() {
    let text = "strided_view<tile=(4),traversal_strides=[5],padding_value=pos_inf,tensor_view<f32>,dim_map=[6]>";
    assert!(shown(text).contains("tile=[4] map=[6] traversal=[5] sparse=0 padding=pos_inf "));
    accepted(&[
        text,
        "strided_view<tile=(4),traversal_strides=[1,2],tensor_view<f32>,dim_map=[0]>",
    ]);
    refused(&[
        "strided_view<tile=(4),tensor_view<f32>,dim_map=[0]>",
        "strided_view<tile=(4),traversal_strides=[1],tensor_view<f32>>",
        "strided_view<traversal_strides=[1],tile=(4),tensor_view<f32>,dim_map=[0]>",
        "strided_view<tile=(4),padding_value=nan,traversal_strides=[1],tensor_view<f32>,dim_map=[0]>",
        "strided_view<tile=(4),tensor_view<f32>,traversal_strides=[1],dim_map=[0]>",
        "strided_view<tile=(4),tensor_view<f32>,dim_map=[0],traversal_strides=[1]>",
        "strided_view<tile=(4),traversal_strides=[1x2],tensor_view<f32>,dim_map=[0]>",
        "strided_view<tile=(4),traversal_strides=[1],tensor_view<f32>,sparse_dim=0>",
    ]);
}

/// "Lists in brackets or parentheses have at least one entry."
#[test]
fn no_list_is_empty() {
    refused(&[
        "tensor_view<f32,strides=[]>",
        "partition_view<tile=(),tensor_view<f32>,dim_map=[0]>",
        "partition_view<tile=(4),tensor_view<f32>,dim_map=[]>",
        "strided_view<tile=(4),traversal_strides=[],tensor_view<f32>,dim_map=[0]>",
        "strided_view<tile=(4),traversal_strides=[1],tensor_view<f32>,dim_map=[]>",
        "gather_scatter_view<tile=(),tensor_view<f32>,sparse_dim=0>",
    ]);
}

/// "The mark may stand once, before the `>` that closes a pointer or the tensor view. Scalars,
/// scalar tiles and tokens carry none."
#[test]
fn the_mark_has_its_places() {
    for form in [
        "ptr<f32*>",
        "tile<ptr<f32*>>",
        "tile<4x!cuda_tile.ptr<f32*>>",
        "tensor_view<f32*>",
        "tensor_view<4xf32,strides=[1]*>",
        "partition_view<tile=(1),tensor_view<f32*>,dim_map=[0]>",
        "gather_scatter_view<tile=(1),tensor_view<f32,strides=[1]*>,sparse_dim=0>",
        "strided_view<tile=(1),traversal_strides=[1],tensor_view<f32*>,dim_map=[0]>",
    ] {
        let text = form.replace('*', MARK);
        accepted(&[&text]);
        assert!(shown(&text).contains("attribute=1"), "{text}");
        assert!(shown(&form.replace('*', "")).contains("attribute=0"));
        refused(&[
            &form.replace('*', &MARK.repeat(2)),
            &format!("{text}{MARK}"),
        ]);
    }
    for form in [
        "f32*",
        "token*",
        "tile<f32*>",
        "tile<4xf32*>",
        "ptr<f32>*",
        "ptr<*f32>",
        "*ptr<f32>",
        "tile<ptr<f32>*>",
        "tensor_view<4xf32*,strides=[1]>",
        "tensor_view<4xf32*>",
        "tensor_view<f32>*",
        "partition_view<tile=(1)*,tensor_view<f32>,dim_map=[0]>",
        "partition_view<tile=(1),tensor_view<f32>*,dim_map=[0]>",
        "partition_view<tile=(1),tensor_view<f32>,dim_map=[0]*>",
        "partition_view<tile=(1),tensor_view<f32>,dim_map=[0]>*",
        "partition_view<tile=(1),tensor_view<f32*>,dim_map=[0]*>",
    ] {
        refused(&[&form.replace('*', MARK)]);
    }
}

/// Document 01's rows: those marked with a strict answer, and which of the others are strict.
#[test]
fn the_rows_of_the_document() {
    for (text, answer) in crate::rows::ROWS {
        let strict = read(text.as_bytes());
        let expected = match text {
            _ if text.starts_with("tile<1x1x") => answer,
            _ if text.contains("dim_map=[1,0]") => answer,
            _ => "5",
        };
        assert_eq!(strict.to_string(), expected, "{text}");
    }
}
