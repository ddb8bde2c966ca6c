//! The C face (docs/ABI.md), and all that is unsafe.

#[cfg(not(any(target_arch = "x86_64", target_arch = "aarch64")))]
compile_error!("the library is there for x86-64 and, to measure with, for 64-bit Arm");

/// The most entries of a list.
pub const CAPACITY: usize = 8;

/// The bytes of a collector's block.
pub const COLLECTOR: usize = 1027;

#[repr(C)]
#[derive(Clone, Copy, Default, PartialEq, Eq, Hash)]
pub struct Record {
    pub shape_len: usize,
    pub strides_len: usize,
    pub tile_len: usize,
    pub map_len: usize,
    pub traversal_len: usize,
    pub shape: [i64; CAPACITY],
    pub strides: [i64; CAPACITY],
    pub tile: [i32; CAPACITY],
    pub map: [i32; CAPACITY],
    pub traversal: [i32; CAPACITY],
    pub sparse: i32,
    pub kind: u8,
    pub element: u8,
    pub padding: u8,
    pub pointer: u8,
    pub attribute: u8,
}

#[repr(C)]
pub struct Note {
    pub a: usize,
    pub b: usize,
    pub c: usize,
    pub d: usize,
}

#[repr(C)]
pub struct Reading {
    pub value: Record,
    pub place: usize,
    pub note: Note,
    pub refusal: u8,
}

#[repr(C)]
pub struct Written {
    pub len: usize,
    pub refusal: u8,
}

#[repr(C)]
pub struct Totals {
    pub rows: usize,
    pub accepted: usize,
    pub refused_1: usize,
    pub refused_2: usize,
    pub refused_3: usize,
    pub refused_4: usize,
    pub a: usize,
    pub b: usize,
    pub c: usize,
    pub d: usize,
    pub refusal: u8,
}

#[repr(C)]
pub struct Row {
    pub first: usize,
    pub end: usize,
    pub next: usize,
    pub found: u8,
    pub refusal: u8,
}

const _: () = assert!(size_of::<Record>() == 280 && align_of::<Record>() == 8);
const _: () = assert!(size_of::<Reading>() == 328 && align_of::<Reading>() == 8);
const _: () = assert!(size_of::<Written>() == 16 && align_of::<Written>() == 8);
const _: () = assert!(size_of::<Totals>() == 88 && align_of::<Totals>() == 8);
const _: () = assert!(size_of::<Row>() == 32 && align_of::<Row>() == 8);

extern "C" {
    fn typetext_write(record: *const Record, room: *mut u8, room_len: usize) -> Written;
    fn typetext_feed(block: *mut u8, block_len: usize, piece: *const u8, len: usize) -> u8;
}

pub use large::{end, next_row, parse, parse_strict, totals};

/// A large answer comes back by value, as C says.
#[cfg(target_arch = "x86_64")]
mod large {
    use super::{Reading, Row, Totals};

    extern "C" {
        fn typetext_parse(text: *const u8, len: usize) -> Reading;
        fn typetext_parse_strict(text: *const u8, len: usize) -> Reading;
        fn typetext_end(block: *mut u8, block_len: usize) -> Reading;
        fn typetext_totals(sheet: *const u8, len: usize) -> Totals;
        fn typetext_next_row(sheet: *const u8, len: usize, place: usize) -> Row;
    }

    pub fn parse(text: &[u8]) -> Reading {
        // SAFETY: pointer and length are of one slice, which the call only reads.
        unsafe { typetext_parse(text.as_ptr(), text.len()) }
    }

    pub fn parse_strict(text: &[u8]) -> Reading {
        // SAFETY: as above.
        unsafe { typetext_parse_strict(text.as_ptr(), text.len()) }
    }

    pub fn end(block: &mut [u8]) -> Reading {
        // SAFETY: pointer and length are of one slice, which is lent to be altered.
        unsafe { typetext_end(block.as_mut_ptr(), block.len()) }
    }

    pub fn totals(sheet: &[u8]) -> Totals {
        // SAFETY: pointer and length are of one slice, which the call only reads.
        unsafe { typetext_totals(sheet.as_ptr(), sheet.len()) }
    }

    pub fn next_row(sheet: &[u8], place: usize) -> Row {
        // SAFETY: as above; the call trusts no place.
        unsafe { typetext_next_row(sheet.as_ptr(), sheet.len(), place) }
    }
}

/// The library's code is made for x86-64, where a large result is a pointer in front of the arguments. Compiled once more
/// for Arm it still takes that pointer as its first argument, which is not how C returns a struct there.
#[cfg(target_arch = "aarch64")]
mod large {
    use super::{Reading, Row, Totals};
    use core::mem::MaybeUninit;

    type Call<A> = unsafe extern "C" fn(*mut A, *const u8, usize);

    extern "C" {
        fn typetext_parse(answer: *mut Reading, text: *const u8, len: usize);
        fn typetext_parse_strict(answer: *mut Reading, text: *const u8, len: usize);
        fn typetext_end(answer: *mut Reading, block: *mut u8, block_len: usize);
        fn typetext_totals(answer: *mut Totals, sheet: *const u8, len: usize);
        fn typetext_next_row(answer: *mut Row, sheet: *const u8, len: usize, place: usize);
    }

    fn answer<A>(call: Call<A>, text: &[u8]) -> A {
        let mut answer = MaybeUninit::uninit();
        // SAFETY: pointer and length are of one slice, which the call only reads; it sets every field of its answer.
        unsafe {
            call(answer.as_mut_ptr(), text.as_ptr(), text.len());
            answer.assume_init()
        }
    }

    pub fn parse(text: &[u8]) -> Reading {
        answer(typetext_parse, text)
    }

    pub fn parse_strict(text: &[u8]) -> Reading {
        answer(typetext_parse_strict, text)
    }

    pub fn end(block: &mut [u8]) -> Reading {
        let mut answer = MaybeUninit::uninit();
        // SAFETY: pointer and length are of one slice, lent to be altered; the call sets every field of its answer.
        unsafe {
            typetext_end(answer.as_mut_ptr(), block.as_mut_ptr(), block.len());
            answer.assume_init()
        }
    }

    pub fn totals(sheet: &[u8]) -> Totals {
        answer(typetext_totals, sheet)
    }

    pub fn next_row(sheet: &[u8], place: usize) -> Row {
        let mut answer = MaybeUninit::uninit();
        // SAFETY: as for a text; the call trusts no place.
        unsafe {
            typetext_next_row(answer.as_mut_ptr(), sheet.as_ptr(), sheet.len(), place);
            answer.assume_init()
        }
    }
}

pub fn write(record: &Record, room: &mut [u8]) -> Written {
    // SAFETY: the record is whole, pointer and length are of one slice, and a `&mut` overlaps nothing.
    unsafe { typetext_write(record, room.as_mut_ptr(), room.len()) }
}

pub fn feed(block: &mut [u8], piece: &[u8]) -> u8 {
    // SAFETY: pointers and lengths are of two slices, and a `&mut` overlaps nothing.
    unsafe { typetext_feed(block.as_mut_ptr(), block.len(), piece.as_ptr(), piece.len()) }
}

#[cfg(test)]
mod tests {
    use super::*;

    fn tile() -> Record {
        parse_strict(b"tile<2x?xf32>").value
    }

    /// Refusal 8, which no caller of this crate can meet; a refused room is as it was.
    #[test]
    fn a_short_room() {
        for len in 0..24 {
            let mut room = [0xAA; 24];
            let written = write(&tile(), &mut room[..len]);
            assert_eq!((written.len, written.refusal), (0, 8));
            assert_eq!(room, [0xAA; 24]);
        }
    }

    #[test]
    fn a_longer_room_is_kept_behind_the_text() {
        let mut room = [0xAA; 30];
        let written = write(&tile(), &mut room);
        assert_eq!((written.len, written.refusal), (24, 0));
        assert_eq!(&room[..24], b"!cuda_tile.tile<2x?xf32>");
        assert_eq!(room[24..], [0xAA; 6]);
    }

    #[test]
    fn a_wrong_number() {
        let wrong = [
            Record { kind: 8, ..tile() },
            Record {
                element: 16,
                ..tile()
            },
            Record {
                padding: 6,
                ..tile()
            },
            Record {
                pointer: 2,
                ..tile()
            },
            Record {
                attribute: 2,
                ..tile()
            },
            Record {
                shape_len: usize::MAX,
                ..tile()
            },
        ];
        for record in wrong {
            assert_eq!(write(&record, &mut [0; 773]).refusal, 6);
        }
    }

    /// Refusal 6 of a collector, which no caller of this crate can meet; a refused block is as it was.
    #[test]
    fn a_wrong_block() {
        let with = |bytes: &[(usize, u8)]| {
            let mut block = [0; COLLECTOR];
            for (place, byte) in bytes {
                block[*place] = *byte;
            }
            block
        };
        let wrong = [
            with(&[(0, 1)]),
            with(&[(1025, 3), (3, 1)]),
            with(&[(1024, 4), (1025, 1)]),
            with(&[(1026, 2)]),
            with(&[(1026, 1), (1025, 1)]),
            with(&[(1026, 1), (1023, 1)]),
        ];
        for before in wrong {
            let mut block = before;
            assert_eq!(feed(&mut block, b"f32"), 6);
            let reading = end(&mut block);
            assert_eq!((reading.refusal, reading.place), (6, 0));
            assert_eq!(block, before);
        }
        for len in [0, 1024, 1026, 1028] {
            let mut block = [0; 1028];
            assert_eq!(feed(&mut block[..len], b"f32"), 6);
            assert_eq!(end(&mut block[..len]).refusal, 6);
            assert_eq!(block, [0; 1028]);
        }
    }

    /// Places that no walk comes to.
    #[test]
    fn any_place_of_a_sheet() {
        let at = |sheet: &[u8], place| {
            let row = next_row(sheet, place);
            (row.found, row.first, row.end, row.next, row.refusal)
        };
        assert_eq!(at(b"f32\ntoken", 1), (1, 1, 3, 4, 0));
        assert_eq!(at(b"f32\ntoken", 3), (1, 3, 3, 4, 0));
        assert_eq!(at(b"f32\ntoken", 8), (1, 8, 9, 9, 0));
        for place in [9, 10, usize::MAX] {
            assert_eq!(at(b"f32\ntoken", place), (0, place, place, place, 0));
        }
        for place in [0, 1, 65536, 65537, usize::MAX] {
            let none = (0, place, place, place, 9);
            assert_eq!(at(&[b'\n'; 65537], place), none);
        }
        let totals = totals(&[b'\n'; 65537]);
        assert_eq!((totals.rows, totals.refused_3, totals.refusal), (0, 0, 9));
    }

    #[test]
    fn a_block_byte_by_byte() {
        let mut block = [0; COLLECTOR];
        assert_eq!(feed(&mut block, b"f32"), 0);
        assert_eq!(
            (&block[..4], &block[1024..]),
            (&b"f32\0"[..], &[0, 3, 0][..])
        );
        assert_eq!(feed(&mut block, &[b' '; 1021]), 0);
        assert_eq!(block[1024..], [4, 0, 0]);
        assert_eq!(feed(&mut block, b""), 0);
        assert_eq!(block[1024..], [4, 0, 0]);
        assert_eq!(feed(&mut block, b" "), 0);
        assert_eq!(
            (block[..1024] == [0; 1024], &block[1024..]),
            (true, &[0, 0, 1][..])
        );
        assert_eq!(end(&mut block).refusal, 1);
        assert_eq!(block, [0; COLLECTOR]);
    }
}
