//! Texts chosen by hand: each rule of document 01's modules 1 to 7 at its edge. All are short
//! but the six of `long`.

type Texts = &'static [&'static [u8]];

/// Every group, in the order of the modules.
pub const GROUPS: [Texts; 17] = [
    TRIMMING, WIDE, NARROW, NAMES, WRONG_NAMES, BRACKETS, TILES, POINTER_TILES, TENSOR_VIEWS,
    TILE_SHAPES, INNER, PARTITIONS, STRIDED, SPARSE, PADDING, MARKS, WHOLE,
];

/// The short groups, the many-entry ones, then the long ones.
pub fn all() -> Vec<Vec<u8>> {
    let short = GROUPS.iter().flat_map(|group| group.iter());
    let mut texts: Vec<Vec<u8>> = short.map(|text| text.to_vec()).collect();
    texts.extend(REFUSED_FIRST.iter().map(|text| text.to_vec()));
    texts.extend(many());
    texts.extend(long());
    texts
}

/// Module 1: bytes 9 to 13 and 32 go at both ends, their neighbours stay.
const TRIMMING: Texts = &[
    b" f32", b"f32 ", b"\x09f32", b"\x0af32", b"\x0bf32", b"\x0cf32", b"\x0df32", b"f32\x0b",
    b"\x09\x0a\x0b\x0c\x0d\x20i1\x20\x0d\x0c\x0b\x0a\x09", b"\x08f32", b"\x0ef32", b"f32\x08",
    b"f32\x0e", b"\x1cf32", b"f32\x1f", b"\x00f32", b"f32\x00", b"f32\x7f", b" ", b"\x0b", b"  \x0c\x0d ",
    b"f 32", b"\x0btile<4xf32>\x0b", b"tile <4xf32>", b"tile< 4 x\x0bf32\x0b>", b"tile<\x0b4\x0bxf32>",
    b"tile<4\x0exf32>", b"tile<\x084xf32>", b"ptr<\x0c i8 \x0d>", b"ptr<i8\x1d>", b" token ", b"to ken",
    b"!cuda_tile. token", b"! cuda_tile.token",
];

/// Module 1 in 64 bits: signs, zeros, and one past each limit.
const WIDE: Texts = &[
    b"tile<9223372036854775807xf32>", b"tile<9223372036854775808xf32>",
    b"tile<+9223372036854775807xf32>", b"tile<+9223372036854775808xf32>",
    b"tile<-9223372036854775807xf32>", b"tile<-9223372036854775809xf32>",
    b"tile<-09223372036854775808xf32>", b"tile<009223372036854775807xf32>",
    b"tile<18446744073709551616xf32>", b"tile<-18446744073709551616xf32>",
    b"tile<18446744073709551620xf32>", b"tile<99999999999999999999xf32>",
    b"tile<00000000000000000000000000000000000007xf32>", b"tile<2147483648xf32>",
    b"tile<+xf32>", b"tile<-xf32>", b"tile<+4xf32>", b"tile<-4xf32>", b"tile<-0xf32>",
    b"tile<+0xf32>", b"tile<00xf32>", b"tile<+-4xf32>", b"tile<--4xf32>", b"tile<4+xf32>",
    b"tile<- 4xf32>", b"tile<+ 4xf32>", b"tile<4 4xf32>", b"tile<?xf32>", b"tile< ? xf32>",
    b"tile<??xf32>", b"tile<+?xf32>", b"tile<?4xf32>", b"tile<4_0xf32>", b"tile<0x10xf32>",
    b"tile<4/xf32>", b"tile<4:xf32>", b"tile<1e3xf32>", b"tile< xf32>",
    b"tensor_view<f32, strides=[-9223372036854775808,9223372036854775807]>",
    b"tensor_view<f32, strides=[-9223372036854775809,9223372036854775808]>",
];

/// Module 1 in 32 bits: out of range is unreadable, in each of the four places.
const NARROW: Texts = &[
    b"partition_view<tile=(2147483647), tensor_view<f32>, dim_map=[2147483647]>",
    b"partition_view<tile=(2147483648), tensor_view<f32>, dim_map=[2147483648]>",
    b"partition_view<tile=(-2147483648), tensor_view<f32>, dim_map=[-2147483648]>",
    b"partition_view<tile=(-2147483649), tensor_view<f32>, dim_map=[-2147483649]>",
    b"partition_view<tile=(+2147483647x+2147483648), tensor_view<f32>, dim_map=[+0,-0]>",
    b"partition_view<tile=(4294967297), tensor_view<f32>, dim_map=[4294967296]>",
    b"partition_view<tile=(?), tensor_view<f32>, dim_map=[?]>",
    b"partition_view<tile=(0002147483647), tensor_view<f32>, dim_map=[-0002147483648]>",
    b"strided_view<tile=(1), traversal_strides=[2147483647,2147483648], tensor_view<f32>, dim_map=[0]>",
    b"strided_view<tile=(1), traversal_strides=[-2147483648,-2147483649], tensor_view<f32>, dim_map=[0]>",
    b"gather_scatter_view<tile=(1), tensor_view<f32>, sparse_dim=2147483647>",
    b"gather_scatter_view<tile=(1), tensor_view<f32>, sparse_dim=2147483648>",
    b"gather_scatter_view<tile=(1), tensor_view<f32>, sparse_dim=-2147483648>",
    b"gather_scatter_view<tile=(1), tensor_view<f32>, sparse_dim=-2147483649>",
    b"gather_scatter_view<tile=(1), tensor_view<f32>, sparse_dim=+>",
];

/// Module 2: the 22 spellings.
const NAMES: Texts = &[
    b"i1", b"i4", b"i8", b"i16", b"i32", b"i64", b"f16", b"bf16", b"f32", b"tf32", b"f64",
    b"f8E4M3FN", b"f8e4m3fn", b"f8E5M2", b"f8e5m2", b"f8E8M0FNU", b"f8e8m0fnu", b"f4E2M1FN",
    b"f4e2m1fn", b"f8E5M3FNU", b"f8e5m3fnu", b"bool",
];

/// Module 2: close to a spelling. `x` never stands in one, so a tile can't cut a name.
const WRONG_NAMES: Texts = &[
    b"I1", b"F32", b"BF16", b"Bool", b"BOOL", b"f8E4m3FN", b"f8e4M3fn", b"F8E4M3FN", b"F8e4m3fn",
    b"f8E5M2FN", b"f8e5m", b"f8E8M0FN", b"f4E2M1", b"f8", b"i2", b"i", b"f", b"i128", b"i1i1",
    b"!cuda_tile.f32", b"f32>", b"<f32>", b"ptr<F32>", b"ptr<bool>", b"ptr<f4e2m1fn>", b"tile<4xBOOL>",
];

/// Module 3: matching, nothing matching, and what follows the match.
const BRACKETS: Texts = &[
    b"tile<f32", b"tile<", b"tile<>", b"tile<<>>", b"tile<f32>>", b"tile<f32><", b"tile<f32>tile<i8>",
    b"tile<f32> , dim", b"tile<<xf32>", b"tile<<xf32>>", b"tile<><xf32>", b"tile<<<xf32>", b"tile<<xf32",
    b"tile<<xf32> ", b"tile<<xf32>a", b"tile<a>xf32>", b"tile<a<b>cxf32>", b"tile<a<b>c>xf32>",
    b"ptr<f32>>", b"ptr<f32", b"ptr<<f32>", b"ptr<>", b"ptr<", b"ptr", b"ptr<f32>junk", b"ptr<ptr<f32>>",
    b"!cuda_tile.ptr<f32>", b"!cuda_tile.ptr<f32", b"tile<ptr<f32>", b"tile<ptr<f32", b"tile<4xptr<f32>",
    b"tensor_view<<f32>", b"tensor_view<f32, strides=[<]>", b"tensor_view<f32, strides=[1>2]>",
    b"partition_view<tile=(2), tensor_view<f32>", b"partition_view<tile=(2), tensor_view<f32",
    b"partition_view<tile=(2<), tensor_view<f32>>", b"partition_view<tile=(2>), tensor_view<f32>>",
];

/// Module 4 without a pointer: the last part is the scalar, every other part an entry.
const TILES: Texts = &[
    b"tile<f32>", b"tile<4xf32>", b"tile<4x8x16xf32>", b"tile<xf32>", b"tile<4xx8xf32>", b"tile<4x>",
    b"tile<x>", b"tile<4>", b"tile<4xf32x>", b"tile<4Xf32>", b"tile<4 x 8 x f32>", b"tile<4,8xf32>",
    b"tile<4x!cuda_tile.f32>", b"tile<[4]xf32>", b"tile<4xtoken>", b"!cuda_tile.tile<?x?xbool>",
    b"!cuda_tile.!cuda_tile.tile<f32>", b"tile<tile<f32>>", b"tile<4xtile<f32>>", b"Tile<f32>",
    b"tiles<f32>", b"tile<-1x0x+1xi4>", b"tile<f32xf32>",
];

/// Module 4 with `ptr<`: what stands before its first occurrence, and the next `>`.
const POINTER_TILES: Texts = &[
    b"tile<ptr<f32>>", b"tile<!cuda_tile.ptr<f32>>", b"tile<4xptr<f32>>", b"tile<4x!cuda_tile.ptr<f32>>",
    b"tile<xptr<f32>>", b"tile<4xxxptr<f32>>", b"tile<4ptr<f32>>", b"tile<4 ptr<f32>>",
    b"tile<4x ptr<f32>>", b"tile< ptr<f32>>", b"tile< x ptr<f32>>", b"tile<x !cuda_tile.ptr<f32>>",
    b"tile<!cuda_tile.!cuda_tile.ptr<f32>>", b"tile<4x!cuda_tile.!cuda_tile.ptr<f32>>",
    b"tile<!cuda_tile. ptr<f32>>", b"tile<4x!cuda_tile. \x0bptr<f32>>", b"tile< !cuda_tile.ptr<f32>>",
    b"tile<!cuda_tile.x!cuda_tile.ptr<f32>>", b"tile<4x!cuda_tile.xptr<f32>>", b"tile<cuda_tile.ptr<f32>>",
    b"tile<4x!cuda_tileptr<f32>>", b"tile<4xptr<f32>junk>", b"tile<4xptr<f32>xptr<i8>>",
    b"tile<4xptr<ptr<f32>>>", b"tile<4xptr<>>", b"tile<4xptr< f32 >>", b"tile<4xptr<f32 >>",
    b"tile<4xptr<F32>>", b"tile<4x8xptr<f32>", b"tile<ptr<f32xf32>", b"tile<xxxxptr<i1>>",
    b"tile<4x?x!cuda_tile.ptr<f8e5m2>>", b"tile<4xptr<f32", b"tile<optr<f32>>", b"tile<4xoptr<f32>>",
];

/// Module 5: the cut, the brackets of the strides, and no pointer here.
const TENSOR_VIEWS: Texts = &[
    b"tensor_view<f32>", b"tensor_view<4x8xf32>", b"tensor_view<xf32>", b"tensor_view<4xf32, strides=[1]>",
    b"tensor_view<4xf32,strides=[1]>", b"tensor_view<4xf32,  strides=[1]>", b"tensor_view<4xf32 ,strides=[1]>",
    b"tensor_view<4xf32, strides =[1]>", b"tensor_view<4xf32, strides= [1]>", b"tensor_view<4xf32, strides=1>",
    b"tensor_view<4xf32, strides=>", b"tensor_view<4xf32, strides=[[1]]>", b"tensor_view<4xf32, strides=[[1>",
    b"tensor_view<4xf32, strides=1]]>", b"tensor_view<4xf32, strides=[1],[2]>", b"tensor_view<4xf32, strides=[1] >",
    b"tensor_view<4xf32, strides=][1>", b"tensor_view<4xf32, strides=[,]>", b"tensor_view<4xf32, strides=[1,,2]>",
    b"tensor_view<4xf32, strides=[ ? , 8 ]>", b"tensor_view<4xf32, strides=[?,a,?]>",
    b"tensor_view<4xf32, strides=[8x1]>", b"tensor_view<f32, strides=[1,2,3]>",
    b"tensor_view<4xf32,strides=[7], strides=[9]>", b"tensor_view<4xf32, strides=[7],strides=[9]>",
    b"tensor_view<4,strides=[2]xf32, strides=[9]>", b"tensor_view<4xf32, strides=[7], strides=[9]>",
    b"tensor_view<4xf32strides=[1]>", b"tensor_view<, strides=[1]>", b"tensor_view<4x, strides=[1]>",
    b"tensor_view<4xptr<f32>>", b"tensor_view<4xptr<f32>, strides=[1]>", b"tensor_view<4xf32,>",
    b"tensor_view<4xf32, dim_map=[1]>", b"!cuda_tile.tensor_view<?xi8, strides=[?]>", b"tensor_view<>",
    b"tensor_view<f32, strides=[\x0b-5\x0c]>", b"tensor_view=!cuda_tile.tensor_view<f32>",
];

/// Module 6: the tile shape, from the first `tile=(` to the next `)`.
const TILE_SHAPES: Texts = &[
    b"partition_view<tile=(4), tensor_view<f32>>", b"partition_view<tile=(4x8), tensor_view<f32>>",
    b"partition_view<tile=(4,8), tensor_view<f32>>", b"partition_view<tile=(4, 8), tensor_view<f32>>",
    b"partition_view<tile=(4x8,2), tensor_view<f32>>", b"partition_view<tile=(4,8x), tensor_view<f32>>",
    b"partition_view<tile=(x), tensor_view<f32>>", b"partition_view<tile=(,), tensor_view<f32>>",
    b"partition_view<tile=( 4 x 8 ), tensor_view<f32>>", b"partition_view<tile=((4), tensor_view<f32>>",
    b"partition_view<tile=(4)), tensor_view<f32>>", b"partition_view<tile=[4], tensor_view<f32>>",
    b"partition_view<tile=4, tensor_view<f32>>", b"partition_view<tile= (4), tensor_view<f32>>",
    b"partition_view<tensor_view<f32>>", b"partition_view<tile=(4, tensor_view<f32>>",
    b"partition_view<tile=(4 tensor_view<f32>)>", b"partition_view<tile=(2), tile=(3), tensor_view<f32>>",
    b"partition_view<tile=(tile=(3), tensor_view<f32>>", b"partition_view<!cuda_tile.tile=(2), tensor_view<f32>>",
    b"partition_view<subtile=(2)tensor_view<f32>>", b"gather_scatter_view<tile=(-1x?), tensor_view<f32>>",
    b"strided_view<tile=(0,+0,-0), tensor_view<f32>>", b"partition_view<>", b"partition_view<tile=(1)>",
];

/// Module 6: three searches for the inner tensor view; only the last begins after the `)`.
const INNER: Texts = &[
    b"partition_view<tile=(2), !cuda_tile.tensor_view<4xf32>>",
    b"partition_view<tile=(2), tensor_view=!cuda_tile.tensor_view<4xf32>>",
    b"partition_view<tile=(2), tensor_view=tensor_view<4xf32>>",
    b"partition_view<!cuda_tile.tensor_view<f32>, tile=(2)>", b"partition_view<tensor_view<f32>, tile=(2)>",
    b"partition_view<tensor_view=!cuda_tile.tensor_view<f32>, tile=(2)>",
    b"partition_view<tensor_view<f32>, tile=(2), tensor_view<i8>>",
    b"partition_view<tile=(2)tensor_view<f32>>", b"partition_view<tile=(2tensor_view<f32>)>",
    b"partition_view<tile=(2), tensor_view<f32>, !cuda_tile.tensor_view<i8>>",
    b"partition_view<tile=(2), !cuda_tile.tensor_view<f32>, tensor_view=!cuda_tile.tensor_view<i8>>",
    b"partition_view<tile=(2), tensor_view<f32>, tensor_view<i8>>",
    b"partition_view<tile=(2), tensor_view=!cuda_tile.tensor_view<f32>, tensor_view=!cuda_tile.tensor_view<i8>>",
    b"partition_view<tile=(2), tensor_view= !cuda_tile.tensor_view<f32>>",
    b"partition_view<tile=(2), !cuda_tile.!cuda_tile.tensor_view<f32>>",
    b"partition_view<tile=(2), !cuda_tile. tensor_view<f32>>", b"partition_view<tile=(2), tensor_view <f32>>",
    b"partition_view<tile=(2), tensor_view<f32, dim_map=[0]>", b"partition_view<tile=(2), tensor_view<>>",
    b"partition_view<tile=(2), tensor_view<<f32>>", b"partition_view<tile=(2), tensor_view<a<b>xf32>>",
    b"partition_view<tile=(2), tensor_view<f32>>>", b"partition_view<tile=(2), tensor_view<f32>, <>",
    b"partition_view<tile=(2), tensor_view<F32>, !tensor_view<i8>>",
    b"partition_view<tile=(2), tensor_view<4xptr<f32>>>", b"partition_view<tile=(2), tensor_view<xf32>>",
    b"gather_scatter_view<tensor_view<f32>, tile=(2)>", b"gather_scatter_view<!cuda_tile.tensor_view<f32>, tile=(2)>",
    b"strided_view<tensor_view<f32>, tile=(2)>", b"strided_view<!cuda_tile.tensor_view<f32>, tile=(2)>",
    b"partition_view<tile=(2), partition_view<tile=(3), tensor_view<f32>>>",
    b"partition_view<tile=(2), tensor_view<4xf32, strides=[1], dim_map=[5]>>",
];

/// Module 6: `dim_map=[` in a partition view; unclosed refuses it.
const PARTITIONS: Texts = &[
    b"partition_view<tile=(2x3x4), tensor_view<f32>>", b"partition_view<tile=(2), tensor_view<f32>, dim_map=[1]>",
    b"partition_view<tile=(2), tensor_view<f32>, dim_map=[]>", b"partition_view<tile=(2), tensor_view<f32>, dim_map=[ ]>",
    b"partition_view<tile=(2), tensor_view<f32>, dim_map=[1>", b"partition_view<tile=(2), tensor_view<f32>, dim_map=[>",
    b"partition_view<tile=(2), tensor_view<f32>, dim_map=1>", b"partition_view<tile=(2), tensor_view<f32>, dim_map= [1]>",
    b"partition_view<tile=(2), dim_map=[1, tensor_view<f32, strides=[7]>>",
    b"partition_view<dim_map=[3], tile=(2), tensor_view<f32>>",
    b"partition_view<tile=(2), tensor_view<f32>, dim_map=[1], dim_map=[2]>",
    b"partition_view<tile=(2), tensor_view<f32>, dim_map=[1], dim_map=[2>",
    b"partition_view<tile=(2), tensor_view<f32>, dim_map=[dim_map=[2]>",
    b"partition_view<tile=(2), tensor_view<f32>, dim_map=[1,a,,-1, 2 ]>",
    b"partition_view<tile=(2), tensor_view<f32>, dim_map=[1x0]>",
    b"partition_view<tile=(2), tensor_view<f32>, dim_map=[[1]]>",
    b"partition_view<tile=(2), tensor_view<f32>>, dim_map=[1]",
    b"partition_view<tile=(2), tensor_view<f32>, traversal_strides=[, sparse_dim=7>",
    b"partition_view<tile=(dim_map=[4]), tensor_view<f32>>",
];

/// Module 6: a strided view; absent and unclosed both fill in, 1 for each tile entry or 0, 1, 2.
const STRIDED: Texts = &[
    b"strided_view<tile=(2x3), tensor_view<f32>>",
    b"strided_view<tile=(2x3), traversal_strides=[4,5], tensor_view<f32>, dim_map=[1,0]>",
    b"strided_view<tile=(2x3), traversal_strides=[4, tensor_view<f32>>",
    b"strided_view<tile=(2x3), tensor_view<f32>, dim_map=[1>",
    b"strided_view<tile=(2x3), tensor_view<f32>, dim_map=[1, traversal_strides=[4>",
    b"strided_view<tile=(2x3), traversal_strides=[4, tensor_view<f32>, dim_map=[1,0]>",
    b"strided_view<tile=(2x3), tensor_view<f32>, dim_map=[1, traversal_strides=[4]>",
    b"strided_view<tile=(2), traversal_strides=[], tensor_view<f32>, dim_map=[]>",
    b"strided_view<tile=(2), traversal_strides=[a,0], tensor_view<f32>, dim_map=[a,0]>",
    b"strided_view<tile=(2), traversal_strides=4, tensor_view<f32>>",
    b"strided_view<tile=(2), traversal_strides=[1],traversal_strides=[2], tensor_view<f32>>",
    b"strided_view<tile=(2), strides=[9], tensor_view<4xf32>>",
    b"strided_view<tile=(2), tensor_view<4xf32, traversal_strides=[3]>, dim_map=[0]>",
    b"strided_view<tile=(2), tensor_view<4xf32,traversal_strides=[3], strides=[3]>>",
    b"!cuda_tile.strided_view<tile=(2), traversal_strides=[3], padding_value=nan, tensor_view<4xf32, strides=[1]>, dim_map=[0]>",
    b"strided_view<traversal_strides=[3], dim_map=[2], tile=(1), tensor_view<i4>>", b"strided_view<tile=(2)>",
    b"strided_view<tile=(2), tensor_view<q>, dim_map=[1>",
];

/// Module 6: `sparse_dim=` runs to `,`, `>` or the end.
const SPARSE: Texts = &[
    b"gather_scatter_view<tile=(2), tensor_view<f32>, sparse_dim=1>", b"gather_scatter_view<tile=(2), tensor_view<f32>>",
    b"gather_scatter_view<tile=(2), tensor_view<f32>, sparse_dim=>",
    b"gather_scatter_view<tile=(2), tensor_view<f32>, sparse_dim= -7 >",
    b"gather_scatter_view<tile=(2), sparse_dim=3, tensor_view<f32>>",
    b"gather_scatter_view<sparse_dim=3, tile=(2), tensor_view<f32>>",
    b"gather_scatter_view<tile=(2), tensor_view<f32, sparse_dim=3>>",
    b"gather_scatter_view<tile=(2), tensor_view<4xf32, strides=[1]sparse_dim=3>>",
    b"gather_scatter_view<tile=(2), tensor_view<f32>, sparse_dim=3<>>",
    b"gather_scatter_view<tile=(2), tensor_view<f32>, <sparse_dim=3>",
    b"gather_scatter_view<tile=(2), tensor_view<f32>, sparse_dim=3 4>",
    b"gather_scatter_view<tile=(2), tensor_view<f32>, sparse_dim=1, sparse_dim=2>",
    b"gather_scatter_view<tile=(2), tensor_view<f32>, sparse_dim=sparse_dim=2>",
    b"gather_scatter_view<tile=(2), tensor_view<f32>, sparse_dim =2>",
    b"gather_scatter_view<tile=(2), tensor_view<f32>, sparse_dim=[2]>",
    b"gather_scatter_view<tile=(2), tensor_view<f32>, sparse_dim=?>",
    b"gather_scatter_view<tile=(2), tensor_view<f32>, dim_map=[1, sparse_dim=1>",
    b"gather_scatter_view<tile=(2), tensor_view<f32>>sparse_dim=1", b"gather_scatter_view<tile=(2), sparse_dim=1>",
];

/// Module 6: padding names, anywhere once `padding_value` occurs anywhere.
const PADDING: Texts = &[
    b"partition_view<tile=(2), padding_value=zero, tensor_view<f32>>",
    b"partition_view<tile=(2), padding_value=neg_zero, tensor_view<f32>>",
    b"partition_view<tile=(2), padding_value=nan, tensor_view<f32>>",
    b"partition_view<tile=(2), padding_value=pos_inf, tensor_view<f32>>",
    b"partition_view<tile=(2), padding_value=neg_inf, tensor_view<f32>>",
    b"partition_view<tile=(2), zero, tensor_view<f32>>", b"partition_view<tile=(2), padding_value, tensor_view<f32>>",
    b"partition_view<tile=(2), padding_value=zero, neg_zero, tensor_view<f32>>",
    b"partition_view<tile=(2), padding_value=neg_zerozero, tensor_view<f32>>",
    b"partition_view<tile=(2), padding_value=nonzero, tensor_view<f32>>",
    b"partition_view<tile=(2), padding_value=neg_ zero, tensor_view<f32>>",
    b"partition_view<tile=(2), padding_value=nan zero, tensor_view<f32>>",
    b"partition_view<tile=(2), padding_value=nan neg_zero, tensor_view<f32>>",
    b"partition_view<tile=(2), padding_value=neg_inf pos_inf, tensor_view<f32>>",
    b"partition_view<tile=(2), padding_value=neg_inf nan, tensor_view<f32>>",
    b"partition_view<tile=(2), padding_value=banana, tensor_view<f32>>",
    b"partition_view<tile=(2), padding_value=inf, tensor_view<f32>>", b"partition_view<tile=(2), padding_value=ZERO, tensor_view<f32>>",
    b"partition_view<tile=(zero), tensor_view<f32>, padding_value>", b"partition_view<padding_valuenan, tile=(2), tensor_view<f32>>",
    b"partition_view<tile=(2), padding_value=nan, tensor_view<zeroxf32>>",
    b"partition_view<tile=(2), padding_value=nan, tensor_view<f32>>zero",
    b"partition_view<tile=(2), padding_valu=nan, tensor_view<f32>>",
    b"gather_scatter_view<tile=(2), padding_value=zero, tensor_view<f32>, sparse_dim=0>",
    b"strided_view<tile=(2), padding_value=neg_zero, tensor_view<f32>, dim_map=[zero]>",
    b"tile<padding_value=zeroxf32>", b"tensor_view<f32, strides=[padding_value=zero]>",
];

/// Module 7: the mark, once, often, nested, nearly, and where it joins what stood apart.
const MARKS: Texts = &[
    b"ptr<f32, #cuda_tile.ptr_attr<none>>", b"tile<4xptr<f32, #cuda_tile.ptr_attr<none>>>",
    b"tensor_view<4xf32, strides=[1], #cuda_tile.ptr_attr<none>>", b"f32, #cuda_tile.ptr_attr<none>",
    b", #cuda_tile.ptr_attr<none>f32", b"f, #cuda_tile.ptr_attr<none>32", b"ptr<f32,#cuda_tile.ptr_attr<none>>",
    b"ptr<f32,  #cuda_tile.ptr_attr<none>>", b"ptr<f32, #cuda_tile.ptr_attr<none>", b"ptr<f32 , #cuda_tile.ptr_attr<none>>",
    b"ptr<f32, #cuda_tile.ptr_attr<>>", b"ptr<f32, #cuda_tile.ptr_attr<None>>", b"ptr<f32, cuda_tile.ptr_attr<none>>",
    b"tile<f32, #cuda_tile.ptr_attr<none>>", b"token, #cuda_tile.ptr_attr<none>",
    b"token, #cuda_tile.ptr_attr<none>, #cuda_tile.ptr_attr<none>",
    b"token, , #cuda_tile.ptr_attr<none>#cuda_tile.ptr_attr<none>",
    b"token,, #cuda_tile.ptr_attr<none> #cuda_tile.ptr_attr<none>",
    b"token, #cuda_tile.ptr_attr<none, #cuda_tile.ptr_attr<none>>",
    b"token, #cuda_tile.ptr_attr<none, #cuda_tile.ptr_attr<none>>, #cuda_tile.ptr_attr<none>",
    b"token, #cuda_tile., #cuda_tile., #cuda_tile.ptr_attr<none>ptr_attr<none>ptr_attr<none>",
    b"token, #cuda_tile.ptr_attr<none>>", b"tok\x0b, #cuda_tile.ptr_attr<none>en",
    b"token \x0b, #cuda_tile.ptr_attr<none> ", b"token , #cuda_tile.ptr_attr<none>junk",
    b", #cuda_tile.ptr_attr<none>, #cuda_tile.ptr_attr<none>", b", #cuda_tile.ptr_attr<none> ",
    b", #cuda_tile.ptr_attr<none", b"tile<1, #cuda_tile.ptr_attr<none>6xf32>",
    b"tile, #cuda_tile.ptr_attr<none><4xf32>", b"tensor_view<f32, stri, #cuda_tile.ptr_attr<none>des=[3]>",
    b"tensor_view<f32, #cuda_tile.ptr_attr<none>, strides=[3]>", b"tensor_view<f32,, #cuda_tile.ptr_attr<none>strides=[3]>",
    b"tile<q, #cuda_tile.ptr_attr<none>>", b"tile<4xptr<f32, #cuda_tile.ptr_attr<none>",
    b"partition_view<tile=(2), tensor_view<4xf32, strides=[1], #cuda_tile.ptr_attr<none>>, dim_map=[0]>",
    b"partition_view<tile=(2), padding_value=neg_, #cuda_tile.ptr_attr<none>zero, tensor_view<f32>>",
    b"partition_view<tile=(2), tensor_view<f32>, dim_map=[1, #cuda_tile.ptr_attr<none>0]>",
    b"partition_view<tile=(2), #cuda_tile.ptr_attr<none>, padding_value=ze, #cuda_tile.ptr_attr<none>ro, tensor_view<f32>>",
    b"gather_scatter_view<tile=(2), tensor_view<f32>, sparse_dim=1, #cuda_tile.ptr_attr<none>2>",
    b"ptr<i8>, #cuda_tile.ptr_attr<none>", b"tile<xptr<i8>, #cuda_tile.ptr_attr<none>x>",
];

/// Module 7: the forms, and that one which applies decides.
const WHOLE: Texts = &[
    b"token", b"!cuda_tile.token", b"token ", b"token>", b"token<>", b"Token", b"!cuda_tile.!cuda_tile.token",
    b"cuda_tile.token", b"!cuda_tile.", b"!cuda_tile", b"!cuda_tile.!cuda_tile.ptr<f32>", b"!cuda_tile.ptr<!cuda_tile.ptr<f32>>",
    b"!cuda_tile.partition_view<tile=(2), tensor_view<f32>>", b"partition_view <tile=(2), tensor_view<f32>>",
    b"!cuda_tile.gather_scatter_view<tile=(2), tensor_view<f32>>", b"scatter_view<tile=(2), tensor_view<f32>>",
    b"partition_view<q>f32", b"tile<q>", b"view<f32>", b"func<f32>", b"x", b"?", b"4", b"<", b">", b"\\", b"\"f32\"",
    b"f32\\x20", b"\"\\u{41}", b"f32\nf32", b"tile<\\xf32>",
];

/// Refusals 1 and 2 come first, whatever else the text holds; 2 has the first place, untrimmed.
const REFUSED_FIRST: Texts = &[
    b"\x80", b"\xff", b"f32\x80", b"\x80f32", b"  \xa0f32", b"f32\xc2\xa0", b"\xc2\x85f32", b"f32\x85 ",
    b"tile<4\xe9xf32>", b"tile<f32>\xe9", b"tile<1x1x1x1x1x1x1x1x1xf32>\xe9\xea", b"junk\xf0\x9f\x98\x80",
    b"ptr<f32, #cuda_tile.ptr_attr<none>\xff>", b"tile<\xd9\xa1xf32>", b"\x7f\x80",
];

fn entries(count: usize, by: &str) -> String {
    vec!["1"; count].join(by)
}

/// Refusal 4: each list at 8, 9 and 17 entries; 3 comes before it.
fn many() -> Vec<Vec<u8>> {
    let mut texts = Vec::new();
    for count in [8, 9, 17] {
        let (by_x, by_comma) = (entries(count, "x"), entries(count, ","));
        texts.push(format!("tile<{by_x}xptr<f32>>"));
        texts.push(format!("tensor_view<{by_x}xf32>"));
        texts.push(format!("tensor_view<f32, strides=[{by_comma}]>"));
        texts.push(format!("partition_view<tile=({by_x}), tensor_view<f32>>"));
        texts.push(format!("gather_scatter_view<tile=({by_comma}), tensor_view<f32>>"));
        texts.push(format!("partition_view<tile=(1), tensor_view<f32>, dim_map=[{by_comma}]>"));
        texts.push(format!("strided_view<tile=(1), traversal_strides=[{by_comma}], tensor_view<f32>>"));
        texts.push(format!("strided_view<tile=(1), tensor_view<{by_x}xf32, strides=[1]>, dim_map=[0]>"));
    }
    texts.push(format!("tile<{}>", "x".repeat(9)));
    texts.push(format!("tile<{}f32>", "x".repeat(9)));
    texts.push(format!("tile<{}ptr<f32>>", "x".repeat(9)));
    texts.push(format!("partition_view<tile=({}), tensor_view<F32>>", entries(9, "x")));
    texts.push(format!("partition_view<tile=({}), tensor_view<f32>, dim_map=[>", entries(9, "x")));
    texts.into_iter().map(String::into_bytes).collect()
}

/// Marks in marks, all cut at one place, with `front` before them.
fn nested(front: &str, depth: usize, cut: usize) -> Vec<u8> {
    let (start, end) = ", #cuda_tile.ptr_attr<none>".split_at(cut);
    format!("{front}{}{}", start.repeat(depth), end.repeat(depth)).into_bytes()
}

/// Two with many passes, of about 300 and 600 bytes; then 1,023, 1,024 and 1,025 bytes; then a
/// high byte at the end of a long one.
pub fn long() -> Vec<Vec<u8>> {
    let numeral = |length: usize| format!("tile<{:0>1$}xf32>", 7, length - 10).into_bytes();
    let mut high = nested("token", 12, 20);
    high.resize(1023, b' ');
    high.push(0x80);
    let filled = |length: usize| [b"tile<4xf32>".to_vec(), vec![b'<'; length - 11]].concat();
    vec![nested("token", 11, 13), nested("ptr<i8>", 22, 2), filled(1023), numeral(1024), numeral(1025), high]
}

#[cfg(test)]
mod tests {
    use super::*;

    #[test]
    fn the_long_ones_have_the_lengths_they_claim() {
        let lengths: Vec<usize> = long().iter().map(Vec::len).collect();
        assert_eq!(lengths, [302, 601, 1023, 1024, 1025, 1024]);
    }

    #[test]
    fn there_are_enough_and_only_six_are_long() {
        let texts = all();
        assert!(texts.len() > 340);
        assert_eq!(texts.iter().filter(|text| text.len() > 300).count(), 6);
    }
}
