//! The numbers of the C face as enums.

use core::fmt;

/// What a type is.
#[derive(Debug, Clone, Copy, PartialEq, Eq, Hash)]
pub enum Kind {
    /// `f32`
    Scalar,
    /// `ptr<f32>`
    Pointer,
    /// `tile<4x8xf32>`, or of pointers: `tile<4xptr<f32>>`
    Tile,
    /// `tensor_view<?x16xf32, strides=[16,1]>`
    TensorView,
    /// `partition_view<tile=(4x8), tensor_view<..>, dim_map=[0,1]>`
    Partition,
    /// `gather_scatter_view<tile=(4), tensor_view<..>, sparse_dim=0>`
    GatherScatter,
    /// `strided_view<tile=(4), traversal_strides=[1], tensor_view<..>, dim_map=[0]>`
    Strided,
    /// `token`
    Token,
}

impl Kind {
    /// By number.
    pub(crate) const ALL: [Kind; 8] = [
        Kind::Scalar,
        Kind::Pointer,
        Kind::Tile,
        Kind::TensorView,
        Kind::Partition,
        Kind::GatherScatter,
        Kind::Strided,
        Kind::Token,
    ];
}

/// What a type's entries are.
#[derive(Debug, Clone, Copy, PartialEq, Eq, Hash)]
#[allow(missing_docs)] // the names say it
pub enum Scalar {
    I1,
    I4,
    I8,
    I16,
    I32,
    I64,
    F16,
    BF16,
    F32,
    TF32,
    F64,
    F8E4M3FN,
    F8E5M2,
    F8E8M0FNU,
    F4E2M1FN,
    F8E5M3FNU,
}

impl Scalar {
    /// All of them, by number.
    pub const ALL: [Scalar; 16] = [
        Scalar::I1,
        Scalar::I4,
        Scalar::I8,
        Scalar::I16,
        Scalar::I32,
        Scalar::I64,
        Scalar::F16,
        Scalar::BF16,
        Scalar::F32,
        Scalar::TF32,
        Scalar::F64,
        Scalar::F8E4M3FN,
        Scalar::F8E5M2,
        Scalar::F8E8M0FNU,
        Scalar::F4E2M1FN,
        Scalar::F8E5M3FNU,
    ];

    /// The name that is written. The readers take a few more spellings.
    pub fn name(self) -> &'static str {
        match self {
            Scalar::I1 => "i1",
            Scalar::I4 => "i4",
            Scalar::I8 => "i8",
            Scalar::I16 => "i16",
            Scalar::I32 => "i32",
            Scalar::I64 => "i64",
            Scalar::F16 => "f16",
            Scalar::BF16 => "bf16",
            Scalar::F32 => "f32",
            Scalar::TF32 => "tf32",
            Scalar::F64 => "f64",
            Scalar::F8E4M3FN => "f8E4M3FN",
            Scalar::F8E5M2 => "f8E5M2",
            Scalar::F8E8M0FNU => "f8E8M0FNU",
            Scalar::F4E2M1FN => "f4E2M1FN",
            Scalar::F8E5M3FNU => "f8E5M3FNU",
        }
    }
}

impl fmt::Display for Scalar {
    fn fmt(&self, f: &mut fmt::Formatter<'_>) -> fmt::Result {
        f.pad(self.name())
    }
}

/// What a view yields outside its tensor.
#[derive(Debug, Clone, Copy, PartialEq, Eq, Hash)]
pub enum Padding {
    /// `zero`
    Zero,
    /// `neg_zero`
    NegZero,
    /// `nan`
    Nan,
    /// `pos_inf`
    PosInf,
    /// `neg_inf`
    NegInf,
}

impl Padding {
    /// By number, from 1; 0 is none.
    pub(crate) const ALL: [Padding; 5] = [
        Padding::Zero,
        Padding::NegZero,
        Padding::Nan,
        Padding::PosInf,
        Padding::NegInf,
    ];

    /// The name that is written.
    pub fn name(self) -> &'static str {
        match self {
            Padding::Zero => "zero",
            Padding::NegZero => "neg_zero",
            Padding::Nan => "nan",
            Padding::PosInf => "pos_inf",
            Padding::NegInf => "neg_inf",
        }
    }
}

impl fmt::Display for Padding {
    fn fmt(&self, f: &mut fmt::Formatter<'_>) -> fmt::Result {
        f.pad(self.name())
    }
}
