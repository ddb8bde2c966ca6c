//! Reads and writes *type texts*, which tell a GPU tile kernel which way a table lies:
//!
//! ```text
//! !cuda_tile.gather_scatter_view<tile=(4), tensor_view<?x16xf32, strides=[16, 1]>, sparse_dim=0>
//! ```
//!
//! The work is done by a static library whose code is proved to meet its written rules; this crate makes it safe and
//! handy in Rust. It needs neither `std` nor an allocator, and no other crate.
//!
//! [`Type::parse_strict`], also by `str::parse`, takes a text only if every byte of it has its meaning. Use it wherever
//! you can:
//!
//! ```
//! use typetext::{Kind, Type, DYNAMIC};
//!
//! let view: Type = "tensor_view<?x16xf32,strides=[16,1]>".parse()?;
//! assert_eq!(view.kind(), Kind::TensorView);
//! assert_eq!(view.shape(), [DYNAMIC, 16]);
//! assert_eq!(view.to_string(), "!cuda_tile.tensor_view<?x16xf32, strides=[16,1]>");
//! # Ok::<(), typetext::Error>(())
//! ```
//!
//! [`Type::parse_ordinary`] reads what `Type::parse` of the crate cutile-ir reads, the same type from the same text, and
//! counts the entries and clauses that it made up. It passes over much else without counting it ([`Defaults`] shows what),
//! so that only the strict reader vouches for the whole text:
//!
//! ```
//! use typetext::Type;
//!
//! let text = "gather_scatter_view<tile=(4), tensor_view<?x16xf32, strides=[16, 1]>, sparse_dim=one>";
//! let (view, defaults) = Type::parse_ordinary(text)?;
//! assert_eq!(view.sparse_dim(), Some(0)); // not in the text
//! assert!(!defaults.is_zero());
//! assert_eq!(defaults.lists, 1);
//! # Ok::<(), typetext::Error>(())
//! ```
//!
//! [`Collector`] reads so too, a text that comes in pieces, and [`Sheet`] a sheet of texts: it counts them, and yields them
//! row after row.
//!
//! Any bytes get an answer, also on a thread with a small stack: no call of the library takes over [`STACK`] bytes of it.
//!
//! A type can also be built, and then always has a text:
//!
//! ```
//! use typetext::{Padding, Scalar, Type, DYNAMIC};
//!
//! let tracks = Type::tensor_view(&[DYNAMIC, 16], &[16, 1], Scalar::F32)?;
//! let rows = Type::gather_scatter_view(&[4], &tracks, 0)?.with_padding(Padding::Nan)?;
//! assert_eq!(
//!     rows.to_string(),
//!     "!cuda_tile.gather_scatter_view<tile=(4), padding_value=nan, \
//!      tensor_view<?x16xf32, strides=[16,1]>, sparse_dim=0>"
//! );
//! # Ok::<(), typetext::Error>(())
//! ```
#![no_std]
#![deny(missing_docs)]

mod build;
mod collector;
mod error;
mod names;
mod raw;
mod sheet;
mod text;
mod types;

pub use collector::Collector;
pub use error::Error;
pub use names::{Kind, Padding, Scalar};
pub use raw::CAPACITY;
pub use sheet::{Row, Rows, Sheet, Totals};
pub use text::{Text, LONGEST_WRITTEN};
pub use types::{Defaults, Type};

/// An entry of a shape or of strides that is known only when the kernel runs; written `?`.
pub const DYNAMIC: i64 = i64::MIN;

/// The most bytes that the readers take.
pub const LONGEST_TEXT: usize = 1024;

/// The most bytes of stack that a call of the library takes, for threads with a small one: measured on the texts that are
/// hardest on it, not proved. This crate's own part comes on top of it: answers, and copies of them where nothing is
/// optimised.
pub const STACK: usize = 24576;

/// The most bytes of a sheet.
pub const LONGEST_SHEET: usize = 65536;
