//! What of a text hasn't been taken yet, and what may be taken from its front: bytes, words,
//! numerals and lists. Where a comment quotes, it quotes document 01's 'Strict forms'.

use crate::answer::{Padding, DYNAMIC};
use crate::scalar::{Scalar, ALL};

pub struct Rest<'t>(pub &'t [u8]);

// Bytes, words and numerals.

impl<'t> Rest<'t> {
    /// Takes the piece if it stands here.
    pub fn may(&mut self, piece: &str) -> bool {
        match self.0.strip_prefix(piece.as_bytes()) {
            Some(rest) => {
                self.0 = rest;
                true
            }
            None => false,
        }
    }

    /// The piece has to stand here.
    pub fn must(&mut self, piece: &str) -> Option<()> {
        self.may(piece).then_some(())
    }

    /// Takes all bytes up to the first that isn't of this sort.
    pub fn run(&mut self, sort: impl Fn(u8) -> bool) -> &'t [u8] {
        let end = self.0.iter().position(|byte| !sort(*byte));
        let (taken, rest) = self.0.split_at(end.unwrap_or(self.0.len()));
        self.0 = rest;
        taken
    }

    pub fn word(&mut self) -> &'t [u8] {
        self.run(|byte| byte.is_ascii_alphanumeric() || byte == b'_')
    }

    /// "After a comma one space may stand or not"
    pub fn comma(&mut self) -> Option<()> {
        self.must(",")?;
        self.may(" ");
        Some(())
    }

    /// "no `+`, no leading zero, no `-0`", and in range
    pub fn numeral(&mut self, least: i64, most: i64) -> Option<i64> {
        let negative = self.may("-");
        let digits = self.run(|byte| byte.is_ascii_digit());
        match digits {
            [] | [b'0', _, ..] => return None,
            [b'0'] if negative => return None,
            _ => {}
        }
        // Without leading zeros, what has over 19 digits lies outside of 64 bits.
        if digits.len() > 19 {
            return None;
        }
        let add = |size: i128, digit: &u8| size * 10 + i128::from(digit - b'0');
        let size = digits.iter().fold(0, add);
        let value = if negative { -size } else { size };
        let value = i64::try_from(value).ok()?;
        (least <= value && value <= most).then_some(value)
    }

    /// "the smallest i64 is written only as `?`"
    pub fn wide(&mut self) -> Option<i64> {
        if self.may("?") {
            return Some(DYNAMIC);
        }
        self.numeral(i64::MIN + 1, i64::MAX)
    }

    /// "`?` stands only in shape and strides"
    pub fn narrow(&mut self) -> Option<i32> {
        let value = self.numeral(i32::MIN.into(), i32::MAX.into())?;
        i32::try_from(value).ok()
    }

    /// "A scalar in any accepted spelling": first ones, lower-case ones, and `bool`.
    pub fn scalar(&mut self) -> Option<Scalar> {
        let word = self.word();
        if word == b"bool" {
            return Some(Scalar::I1);
        }
        let spelled = |name: &str| {
            let lower = name.to_ascii_lowercase();
            word == name.as_bytes() || word == lower.as_bytes()
        };
        ALL.iter().find(|(_, name)| spelled(name)).map(|one| one.0)
    }

    pub fn padding(&mut self) -> Option<Padding> {
        match self.word() {
            b"zero" => Some(Padding::Zero),
            b"neg_zero" => Some(Padding::NegZero),
            b"nan" => Some(Padding::Nan),
            b"pos_inf" => Some(Padding::PosInf),
            b"neg_inf" => Some(Padding::NegInf),
            _ => None,
        }
    }
}

// Lists.

impl Rest<'_> {
    /// "dimensions each followed by `x`"; no scalar and no pointer begins like a dimension.
    pub fn dims(&mut self) -> Option<Vec<i64>> {
        let mut dims = Vec::new();
        while let Some(b'?' | b'-' | b'0'..=b'9') = self.0.first() {
            dims.push(self.wide()?);
            self.must("x")?;
        }
        Some(dims)
    }

    /// "Lists in brackets or parentheses have at least one entry."
    pub fn list<T>(&mut self, entry: fn(&mut Self) -> Option<T>) -> Option<Vec<T>> {
        let mut list = vec![entry(self)?];
        while self.0.first() == Some(&b',') {
            self.comma()?;
            list.push(entry(self)?);
        }
        self.must("]")?;
        Some(list)
    }

    /// "Tile entries are parted by `x` throughout or by commas throughout."
    pub fn tile_shape(&mut self) -> Option<Vec<i32>> {
        self.must("tile=(")?;
        let mut list = vec![self.narrow()?];
        let by_x = self.0.first() == Some(&b'x');
        while !self.may(")") {
            match by_x {
                true => self.must("x")?,
                false => self.comma()?,
            }
            list.push(self.narrow()?);
        }
        Some(list)
    }
}
