//! The dictionary: what texts are put together from.

pub const MARK: &str = ", #cuda_tile.ptr_attr<none>";
pub const PREFIX: &str = "!cuda_tile.";

/// Bytes 9 to 13 and 32, and nothing else, are white.
pub const WHITE: &[u8] = b"\x09\x0a\x0b\x0c\x0d\x20";

/// Bytes that look like white space, or stand beside it, and aren't.
pub const NEARLY_WHITE: &[u8] = b"\x00\x08\x0e\x1c\x1f\x21\x7f";

/// All 22 spellings.
pub const NAMES: &[&str] = &[
    "i1", "i4", "i8", "i16", "i32", "i64", "f16", "bf16", "f32", "tf32", "f64", "f8E4M3FN",
    "f8e4m3fn", "f8E5M2", "f8e5m2", "f8E8M0FNU", "f8e8m0fnu", "f4E2M1FN", "f4e2m1fn", "f8E5M3FNU",
    "f8e5m3fnu", "bool",
];

/// Close to a spelling, and none.
pub const WRONG_NAMES: &[&str] = &[
    "", "F32", "I32", "BOOL", "Bool", "BF16", "TF32", "f8E4m3FN", "f8e4M3fn", "F8E4M3FN", "f8E4M3",
    "f8e5m2fn", "F8e5m2", "f8E5M3FN", "f4e2m1", "i2", "i128", "f8", "bf32", "i 32", "i", "f", "index",
    "none", "token", "ptr", "i1 i1", "f32f32",
];

/// Readable in every place, in strict spelling.
pub const SMALL: &[&str] = &["0", "1", "2", "3", "4", "7", "8", "16", "32", "64", "128", "-1", "-3"];

/// At a range's edge and still inside 32 bits, in strict spelling.
pub const EDGES_32: &[&str] = &["2147483647", "-2147483648", "-2147483647", "2147483646"];

/// Outside 32 bits, inside 64, in strict spelling.
pub const EDGES_64: &[&str] = &[
    "2147483648", "-2147483649", "4294967295", "4294967296", "9223372036854775807",
    "9223372036854775806", "-9223372036854775807",
];

/// Readable or not, but never strict: signs, zeros, ranges passed by one, and no numerals at all.
pub const ODD_NUMERALS: &[&str] = &[
    "", "+", "-", "+1", "+0", "-0", "-00", "00", "01", "007", "-01", "+-1", "-+1", "--1", "++1",
    "1+", "1-", "1 1", "- 1", "+ 1", " 4", "4 ", "\t4\x0b", "1_0", "0b1", "1.0", "1e3", "4a", "a4",
    "??", "?1", "1?", " ?", "? ", "+?", "-?", "[4", "4]", "(4", "<4", "4>", "one", "x", "*",
    "+2147483647", "+2147483648", "-2147483648", "-2147483649", "2147483648", "02147483647",
    "-02147483648", "-02147483649", "4294967297", "+9223372036854775807", "9223372036854775808",
    "+9223372036854775808", "-9223372036854775808", "-9223372036854775809",
    "-09223372036854775808", "09223372036854775807", "18446744073709551615",
    "18446744073709551616", "18446744073709551617", "99999999999999999999999999999999999999999",
    "-99999999999999999999999999999999999999999", "340282366920938463463374607431768211457",
    "00000000000000000000000000000000000000000000000001", "-0000000000000000000000000000000000000",
];

pub const PADDINGS: &[&str] = &["zero", "neg_zero", "nan", "pos_inf", "neg_inf"];

/// Names that hold others, or nearly, or none.
pub const ODD_PADDINGS: &[&str] = &[
    "", "none", "Zero", "nonzero", "zeroneg_zero", "neg_zero zero", "zero, neg_zero", "nan zero",
    "neg_nan", "pos_infneg_inf", "neg_inf pos_inf", "inf", "neg_", "neg_zer", "zer", "nanneg_inf",
    "neg_zero nan", "ne", "-0", "banana",
];

/// Openings of every form, bare.
pub const OPENINGS: &[&str] = &[
    "tile<", "tensor_view<", "partition_view<", "gather_scatter_view<", "strided_view<", "ptr<",
];

/// Clauses and their starts, whole and cut.
pub const CLAUSES: &[&str] = &[
    "tile=(", "tile=(4)", "tile=(4x8)", "tile=(4, 8)", "tile=()", "tile=(x)", "tile= (4)", "tile=",
    ", strides=", ",strides=", ", strides=[1]", ",strides=[8,1]", ", strides=[[1]]", " strides=[1]",
    ",  strides=[1]", ", strides=[", "strides=[2]", "dim_map=[", "dim_map=[0]", ", dim_map=[1,0]",
    ", dim_map=[]", "dim_map=", "traversal_strides=[", ", traversal_strides=[1,2]",
    "traversal_strides=", "sparse_dim=", ", sparse_dim=1", "sparse_dim=0>", "sparse_dim",
    "padding_value", "padding_value=", ", padding_value=zero", "padding_value = nan",
    "tensor_view=!cuda_tile.tensor_view<", "tensor_view=tensor_view<", "!cuda_tile.tensor_view<",
    "tensor_view<", "tensor_view<f32>", "tensor_view<4xf32, strides=[1]>", "ptr<f32>",
    "!cuda_tile.ptr<f32>", "ptr<", "token", "!cuda_tile.token",
];

/// Punctuation that the forms are cut at.
pub const SIGNS: &[&str] = &[
    "<", ">", "(", ")", "[", "]", ",", ", ", "x", "?", "=", " ", ">>", "x ", "xx", ", #", "!", ".",
];

/// Starts and ends of the mark: parts that a removal can bring together.
pub const CUT_MARKS: &[&str] = &[
    ",", ", ", ", #", ", #cuda_tile.", ", #cuda_tile.ptr_attr<none", "#cuda_tile.ptr_attr<none>",
    ",#cuda_tile.ptr_attr<none>", ",  #cuda_tile.ptr_attr<none>", ", #cuda_tile.ptr_attr<>",
    ", #cuda_tile.ptr_attr<None>", "ptr_attr<none>", "<none>", "none>", ">",
];
