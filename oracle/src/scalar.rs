//! The 16 scalars of document 01, module 2, and what is asked of each.

#[rustfmt::skip]
#[derive(Debug, Clone, Copy, PartialEq, Eq)]
pub enum Scalar {
    I1, I4, I8, I16, I32, I64,
    F16, BF16, F32, TF32, F64,
    F8E4M3FN, F8E5M2, F8E8M0FNU, F4E2M1FN, F8E5M3FNU,
}

use Scalar::*;

/// Every scalar with its first spelling, in `parse_scalar`'s order.
pub const ALL: [(Scalar, &str); 16] = [
    (I1, "i1"),
    (I4, "i4"),
    (I8, "i8"),
    (I16, "i16"),
    (I32, "i32"),
    (I64, "i64"),
    (F16, "f16"),
    (BF16, "bf16"),
    (F32, "f32"),
    (TF32, "tf32"),
    (F64, "f64"),
    (F8E4M3FN, "f8E4M3FN"),
    (F8E5M2, "f8E5M2"),
    (F8E8M0FNU, "f8E8M0FNU"),
    (F4E2M1FN, "f4E2M1FN"),
    (F8E5M3FNU, "f8E5M3FNU"),
];

impl Scalar {
    pub fn name(self) -> &'static str {
        ALL[self as usize].1
    }

    /// The size that the name itself gives: its first number.
    fn named_size(self) -> usize {
        let after = self
            .name()
            .trim_start_matches(|c: char| !c.is_ascii_digit());
        let digits = after.bytes().take_while(u8::is_ascii_digit);
        digits.fold(0, |size, digit| size * 10 + usize::from(digit - b'0'))
    }

    /// Whole bytes: anything below one byte takes one.
    pub fn byte_width(self) -> usize {
        self.named_size().div_ceil(8)
    }

    pub fn is_integer(self) -> bool {
        self.name().starts_with('i')
    }

    pub fn is_float(self) -> bool {
        !self.is_integer()
    }

    /// Module 2: "1 for I1, 4 for I4 and F4E2M1FN, else 8 times the byte width".
    pub fn bits(self) -> usize {
        match self {
            I1 => 1,
            I4 | F4E2M1FN => 4,
            _ => 8 * self.byte_width(),
        }
    }
}
