//! Stands for `calls.rs` where the original or our library is absent; `main` says so before any
//! of these is called. The makers of texts are tested without either.

use crate::flat::Flat;

pub type Room = [u8; 773];

const WHY: &str = "main asks for the original and the library first";

pub fn floor(_: &str) {
    unreachable!("{WHY}")
}

pub fn theirs(_: &str) {
    unreachable!("{WHY}")
}

pub fn ordinary(_: &str) {
    unreachable!("{WHY}")
}

pub fn strict(_: &str) {
    unreachable!("{WHY}")
}

pub fn write(_: &Flat, _: &mut Room) {
    unreachable!("{WHY}")
}

pub fn theirs_counted(_: &str) {
    unreachable!("{WHY}")
}

pub fn counted(_: &str) {
    unreachable!("{WHY}")
}

pub fn theirs_rows(_: &str) -> (usize, usize) {
    unreachable!("{WHY}")
}

pub fn rows(_: &str) -> Option<(usize, usize)> {
    unreachable!("{WHY}")
}

pub fn theirs_accept(_: &str) -> bool {
    unreachable!("{WHY}")
}

pub fn refusal(_: &str) -> u8 {
    unreachable!("{WHY}")
}

pub fn strict_refusal(_: &str) -> u8 {
    unreachable!("{WHY}")
}

pub fn record(_: &str) -> Flat {
    unreachable!("{WHY}")
}

pub fn written(_: &Flat) -> Option<String> {
    unreachable!("{WHY}")
}
