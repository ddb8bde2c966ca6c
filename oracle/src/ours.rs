//! Our readers, our writer, our collector and our sheets, over the C face of the static library (docs/ABI.md).

use crate::answer::Answer;
use crate::flat::Flat;

pub const PRESENT: bool = cfg!(has_library);

/// One clear line for the commands that can't do without the library.
pub fn needed() -> Result<(), String> {
    if PRESENT {
        return Ok(());
    }
    Err(
        "our library is absent: set TYPETEXT_LIB to the folder that holds libcapi.a and build again"
            .to_string(),
    )
}

/// None where the library is absent; an error where the reading isn't blank where it must be.
#[cfg(not(has_library))]
pub fn read(_: &[u8]) -> Option<Result<Answer, String>> {
    None
}

/// The same for the strict reader.
#[cfg(not(has_library))]
pub fn read_strict(_: &[u8]) -> Option<Result<Answer, String>> {
    None
}

/// The length and the refusal; None where the library is absent. The room is the part of the
/// buffer from `start` on that has `room` bytes.
#[cfg(not(has_library))]
pub fn write(_: &Flat, _buffer: &mut [u8], _start: usize, _room: usize) -> Option<(usize, u8)> {
    None
}

/// A piece for the collector in this block: 0 or 6. None where the library is absent.
#[cfg(not(has_library))]
pub fn feed(_block: &mut [u8], _piece: &[u8]) -> Option<u8> {
    None
}

/// The end of the text in this block, as `read` gives an answer.
#[cfg(not(has_library))]
pub fn end(_block: &mut [u8]) -> Option<Result<Answer, String>> {
    None
}

/// The totals of a sheet, in the layout of docs/ABI.md: refusals 1 to 4, counts a to d.
#[repr(C)]
#[derive(Debug, Clone, Copy, Default, PartialEq, Eq)]
pub struct Totals {
    pub rows: usize,
    pub accepted: usize,
    pub refused: [usize; 4],
    pub counts: [usize; 4],
    pub refusal: u8,
}

/// Where a row lies, in that layout.
#[repr(C)]
#[derive(Debug, Clone, Copy, PartialEq, Eq)]
pub struct Row {
    pub first: usize,
    pub end: usize,
    pub next: usize,
    pub found: u8,
    pub refusal: u8,
}

/// None where the library is absent.
#[cfg(not(has_library))]
pub fn totals(_sheet: &[u8]) -> Option<Totals> {
    None
}

/// The row at this place. None where the library is absent.
#[cfg(not(has_library))]
pub fn next_row(_sheet: &[u8], _place: usize) -> Option<Row> {
    None
}

#[cfg(has_library)]
pub use with_library::{end, feed, next_row, read, read_strict, totals};
#[cfg(has_library)]
pub use writer::write;

#[cfg(has_library)]
pub mod with_library {
    use super::{Answer, Flat, Row, Totals};
    use crate::answer::{Counts, Kind, Record};
    use std::mem::MaybeUninit;

    /// The defaults taken, in the layout of docs/ABI.md.
    #[repr(C)]
    #[derive(Clone, Copy)]
    struct Note {
        a: usize,
        b: usize,
        c: usize,
        d: usize,
    }

    /// A reading, in that layout.
    #[repr(C)]
    #[derive(Clone, Copy)]
    pub struct Reading {
        pub value: Flat,
        place: usize,
        note: Note,
        pub refusal: u8,
    }

    // A large answer is returned by value: on x86-64 that is a hidden pointer in front, and the
    // archive made for an Arm host takes the same pointer as its first argument.
    type Call<A> = unsafe extern "C" fn(out: *mut A, text: *const u8, len: usize);

    extern "C" {
        fn typetext_parse(out: *mut Reading, text: *const u8, len: usize);
        fn typetext_parse_strict(out: *mut Reading, text: *const u8, len: usize);
        fn typetext_end(out: *mut Reading, block: *mut u8, block_len: usize);
        fn typetext_feed(block: *mut u8, block_len: usize, piece: *const u8, len: usize) -> u8;
        fn typetext_totals(out: *mut Totals, sheet: *const u8, len: usize);
        fn typetext_next_row(out: *mut Row, sheet: *const u8, len: usize, place: usize);
    }

    #[inline]
    fn called<A>(call: Call<A>, text: &[u8]) -> A {
        let mut out = MaybeUninit::uninit();
        unsafe {
            call(out.as_mut_ptr(), text.as_ptr(), text.len());
            out.assume_init()
        }
    }

    /// As it comes back; `bench` measures this call and the next.
    #[inline]
    pub fn parse(text: &[u8]) -> Reading {
        called(typetext_parse, text)
    }

    #[inline]
    pub fn parse_strict(text: &[u8]) -> Reading {
        called(typetext_parse_strict, text)
    }

    pub fn read(text: &[u8]) -> Option<Result<Answer, String>> {
        Some(answered(&parse(text)))
    }

    pub fn read_strict(text: &[u8]) -> Option<Result<Answer, String>> {
        Some(answered(&parse_strict(text)))
    }

    pub fn feed(block: &mut [u8], piece: &[u8]) -> Option<u8> {
        let (start, size) = (block.as_mut_ptr(), block.len());
        Some(unsafe { typetext_feed(start, size, piece.as_ptr(), piece.len()) })
    }

    pub fn end(block: &mut [u8]) -> Option<Result<Answer, String>> {
        let mut out = MaybeUninit::uninit();
        let reading = unsafe {
            typetext_end(out.as_mut_ptr(), block.as_mut_ptr(), block.len());
            out.assume_init()
        };
        Some(answered(&reading))
    }

    pub fn totals(sheet: &[u8]) -> Option<Totals> {
        Some(called(typetext_totals, sheet))
    }

    pub fn next_row(sheet: &[u8], place: usize) -> Option<Row> {
        let mut out = MaybeUninit::uninit();
        Some(unsafe {
            typetext_next_row(out.as_mut_ptr(), sheet.as_ptr(), sheet.len(), place);
            out.assume_init()
        })
    }

    fn counts(note: &Note) -> Counts {
        Counts {
            a: note.a as u32,
            b: note.b as u32,
            c: note.c as u32,
            d: note.d as u32,
        }
    }

    fn answered(reading: &Reading) -> Result<Answer, String> {
        let record = reading.value.record()?;
        let counts = counts(&reading.note);
        if reading.refusal == 0 {
            return match reading.place {
                0 => Ok(Answer::Accepted(record, Some(counts))),
                place => Err(format!("accepted with place {place}")),
            };
        }
        if record != Record::blank(Kind::Token) || counts != Counts::default() {
            return Err("a refusal without the blank record and zero counts".to_string());
        }
        Ok(Answer::Refused {
            number: reading.refusal,
            place: reading.place,
        })
    }
}

/// All that hangs on how the writer's result comes back: it has 16 bytes, and so comes in
/// registers, not through a pointer in front.
#[cfg(has_library)]
mod writer {
    use super::Flat;

    #[repr(C)]
    struct Written {
        len: usize,
        refusal: u8,
    }

    extern "C" {
        fn typetext_write(record: *const Flat, room: *mut u8, len: usize) -> Written;
    }

    pub fn write(flat: &Flat, buffer: &mut [u8], start: usize, room: usize) -> Option<(usize, u8)> {
        assert!(start + room <= buffer.len());
        let written = unsafe { typetext_write(flat, buffer.as_mut_ptr().add(start), room) };
        Some((written.len, written.refusal))
    }
}
