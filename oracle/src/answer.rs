//! The canonical answer: a refusal with its place, or a flat record with its counts.

use crate::scalar::Scalar;
use std::fmt;

/// "DYNAMIC is the smallest i64, written `?`."
pub const DYNAMIC: i64 = i64::MIN;

/// "text over 1,024 bytes"
pub const LONGEST_TEXT: usize = 1024;

/// "Each list holds at most 8 entries."
pub const LONGEST_LIST: usize = 8;

#[derive(Debug, Clone, Copy, PartialEq, Eq)]
pub enum Kind {
    Scalar,
    Pointer,
    Tile,
    TensorView,
    Partition,
    GatherScatter,
    Strided,
    Token,
}

#[derive(Debug, Clone, Copy, PartialEq, Eq)]
pub enum Padding {
    Zero,
    NegZero,
    Nan,
    PosInf,
    NegInf,
}

#[derive(Debug, Clone, PartialEq, Eq)]
pub struct Record {
    pub kind: Kind,
    pub element: Scalar,
    pub pointer: bool,
    pub attribute: bool,
    pub shape: Vec<i64>,
    pub strides: Vec<i64>,
    pub tile: Vec<i32>,
    pub map: Vec<i32>,
    pub traversal: Vec<i32>,
    pub sparse: i32,
    pub padding: Option<Padding>,
}

impl Record {
    /// A record of this kind with everything else blank: zero, I1, false, no padding.
    pub fn blank(kind: Kind) -> Record {
        Record {
            kind,
            element: Scalar::I1,
            pointer: false,
            attribute: false,
            shape: Vec::new(),
            strides: Vec::new(),
            tile: Vec::new(),
            map: Vec::new(),
            traversal: Vec::new(),
            sparse: 0,
            padding: None,
        }
    }

    /// Refusal 4: "the type has a list of over 8 entries".
    pub fn too_many(&self) -> bool {
        let wide = self.shape.len().max(self.strides.len());
        let narrow = self.tile.len().max(self.map.len());
        wide.max(narrow).max(self.traversal.len()) > LONGEST_LIST
    }
}

/// The four default counts (a) to (d).
#[derive(Debug, Clone, Copy, Default, PartialEq, Eq)]
pub struct Counts {
    pub a: u32,
    pub b: u32,
    pub c: u32,
    pub d: u32,
}

#[derive(Debug, Clone, PartialEq, Eq)]
pub enum Answer {
    Refused {
        number: u8,
        place: usize,
    },
    /// The original gives no counts.
    Accepted(Record, Option<Counts>),
}

impl Answer {
    pub fn refused(number: u8) -> Answer {
        Answer::Refused { number, place: 0 }
    }

    /// 0 for an accepted reading.
    pub fn number(&self) -> u8 {
        match self {
            Answer::Refused { number, .. } => *number,
            Answer::Accepted(..) => 0,
        }
    }

    /// Equal in refusal, place and type; the counts aren't compared.
    pub fn agrees(&self, other: &Answer) -> bool {
        match (self, other) {
            (Answer::Accepted(one, _), Answer::Accepted(two, _)) => one == two,
            _ => self == other,
        }
    }
}

impl fmt::Display for Answer {
    fn fmt(&self, f: &mut fmt::Formatter) -> fmt::Result {
        match self {
            Answer::Refused { number: 2, place } => write!(f, "2 @{place}"),
            Answer::Refused { number, .. } => write!(f, "{number}"),
            Answer::Accepted(record, counts) => {
                write!(f, "0 {record} ")?;
                match counts {
                    Some(n) => write!(f, "counts={},{},{},{}", n.a, n.b, n.c, n.d),
                    None => write!(f, "counts=none"),
                }
            }
        }
    }
}

impl fmt::Display for Record {
    fn fmt(&self, f: &mut fmt::Formatter) -> fmt::Result {
        write!(f, "{} {} ", kind_name(self.kind), self.element.name())?;
        write!(f, "pointer={} ", u8::from(self.pointer))?;
        write!(f, "attribute={} ", u8::from(self.attribute))?;
        write!(f, "shape=[{}] ", listed(&self.shape, dim_text))?;
        write!(f, "strides=[{}] ", listed(&self.strides, dim_text))?;
        write!(f, "tile=[{}] ", listed(&self.tile, i32::to_string))?;
        write!(f, "map=[{}] ", listed(&self.map, i32::to_string))?;
        write!(
            f,
            "traversal=[{}] ",
            listed(&self.traversal, i32::to_string)
        )?;
        write!(f, "sparse={} ", self.sparse)?;
        write!(f, "padding={}", padding_name(self.padding))
    }
}

pub fn kind_name(kind: Kind) -> &'static str {
    match kind {
        Kind::Scalar => "scalar",
        Kind::Pointer => "pointer",
        Kind::Tile => "tile",
        Kind::TensorView => "tensor_view",
        Kind::Partition => "partition_view",
        Kind::GatherScatter => "gather_scatter_view",
        Kind::Strided => "strided_view",
        Kind::Token => "token",
    }
}

pub fn padding_name(padding: Option<Padding>) -> &'static str {
    match padding {
        None => "none",
        Some(Padding::Zero) => "zero",
        Some(Padding::NegZero) => "neg_zero",
        Some(Padding::Nan) => "nan",
        Some(Padding::PosInf) => "pos_inf",
        Some(Padding::NegInf) => "neg_inf",
    }
}

pub fn dim_text(value: &i64) -> String {
    match *value {
        DYNAMIC => "?".to_string(),
        other => other.to_string(),
    }
}

pub fn listed<T>(values: &[T], text: fn(&T) -> String) -> String {
    values.iter().map(text).collect::<Vec<_>>().join(",")
}
