//! Texts in pieces: wherever they are cut, the answer is that of the whole.

use typetext::{Collector, Type, LONGEST_TEXT};

const TEXTS: [&[u8]; 8] = [
    b"",
    b" f32\x0b",
    b"f31",
    b"tile<04x?xbf16>junk",
    b"tile<\x80\xff>",
    b"tile<1x1x1x1x1x1x1x1x1xf32>",
    b"token, #cuda_tile.ptr_a, #cuda_tile.ptr_attr<none>ttr<none>",
    b"gather_scatter_view<tile=(q), tensor_view<4xf32>, sparse_dim=one>",
];

/// Feeds the pieces; the answer has to be that of the joined text, and the collector fresh.
fn held<'p>(link: &mut Collector, pieces: impl IntoIterator<Item = &'p [u8]>) {
    let mut joined = Vec::new();
    for piece in pieces {
        link.feed(piece);
        joined.extend(piece);
    }
    assert_eq!(link.finish(), Type::parse_ordinary(&joined), "{joined:?}");
    assert_eq!(*link, Collector::new());
}

#[test]
fn cut_at_any_two_places() {
    let mut link = Collector::default();
    for text in TEXTS {
        for second in 0..=text.len() {
            for first in 0..=second {
                let (front, back) = text.split_at(second);
                let (front, middle) = front.split_at(first);
                held(&mut link, [front, middle, back]);
            }
        }
    }
}

#[test]
fn byte_by_byte_with_empty_pieces() {
    let mut link = Collector::new();
    for text in TEXTS {
        held(&mut link, text.chunks(1).flat_map(|byte| [byte, &[]]));
    }
}

#[test]
fn at_the_limit_and_past_it() {
    let mut link = Collector::new();
    for high in [false, true] {
        let mut text = vec![b' '; 3 * LONGEST_TEXT];
        text[..3].copy_from_slice(b"f32");
        if high {
            text[5] = 0x80;
        }
        for len in [LONGEST_TEXT, LONGEST_TEXT + 1, 3 * LONGEST_TEXT] {
            for size in [1, 7, 512, 1023, 1024, 1025, len] {
                held(&mut link, text[..len].chunks(size));
            }
        }
    }
}

/// Over-full it stays, whatever comes, and a text already refused doesn't touch the next.
#[test]
fn over_full_stays() {
    let mut link = Collector::new();
    link.feed([b' '; LONGEST_TEXT + 1]);
    for piece in ["", "f32", "\u{80}"] {
        link.feed(piece);
        assert_eq!(format!("{link:?}"), "Collector(over-full)");
    }
    assert_eq!(link.finish().unwrap_err().number(), 1);
    link.feed("f32");
    assert_eq!(link.finish(), Type::parse_ordinary("f32"));
}

#[test]
fn a_collector_prints_what_it_holds() {
    let mut link = Collector::new();
    assert_eq!(format!("{link:?}"), "Collector(\"\")");
    link.feed(b"tile<\xff");
    assert_eq!(format!("{link:?}"), "Collector(\"tile<\\xff\")");
    let kept = link.clone();
    link.feed("4");
    assert_ne!(link, kept);
}
