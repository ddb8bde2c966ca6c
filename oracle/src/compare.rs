//! Original and plain reading held against each other, and a difference made as small as it goes.

use crate::answer::Answer;
use crate::escape::escape;
use crate::pieces::NAMES;
use crate::{original, ours, plain};

/// The plain answer with its counts, once the original (where present) has agreed.
pub fn settled(text: &[u8]) -> Result<Answer, String> {
    let plain = plain::read(text);
    match original::read(text) {
        Some(original) if !original.agrees(&plain) => Err(told(&shrunk(text, differs))),
        _ => Ok(plain),
    }
}

/// The same, once our own reader has agreed too, counts and all.
pub fn settled_by_ours(text: &[u8]) -> Result<Answer, String> {
    let plain = settled(text)?;
    match ours::read(text) {
        Some(Ok(ours)) if ours == plain => Ok(plain),
        Some(_) => Err(ours_told(&shrunk(text, ours_differs))),
        None => Ok(plain),
    }
}

fn ours_differs(text: &[u8]) -> bool {
    ours::read(text).is_some_and(|ours| ours != Ok(plain::read(text)))
}

fn ours_told(text: &[u8]) -> String {
    let ours = match ours::read(text) {
        Some(Ok(answer)) => answer.to_string(),
        Some(Err(why)) => why,
        None => String::new(),
    };
    format!(
        "our reader differs on this text of {} bytes:\n  text     {}\n  ours     {ours}\n  plain    {}",
        text.len(),
        escape(text),
        plain::read(text)
    )
}

fn differs(text: &[u8]) -> bool {
    let original = original::read(text);
    original.is_some_and(|answer| !answer.agrees(&plain::read(text)))
}

fn told(text: &[u8]) -> String {
    let original = original::read(text).map(|answer| answer.to_string());
    format!(
        "original and plain differ on this text of {} bytes:\n  text     {}\n  original {}\n  plain    {}",
        text.len(),
        escape(text),
        original.unwrap_or_default(),
        plain::read(text)
    )
}

/// Up to this size every size of chunk is tried; the mark and the prefix are below it.
const FINE: usize = 40;

/// Deletes chunks, large ones first, then makes names and bytes plainer, while `bad` stays true.
pub fn shrunk(text: &[u8], bad: impl Fn(&[u8]) -> bool) -> Vec<u8> {
    let mut best = text.to_vec();
    loop {
        let before = best.clone();
        let mut size = best.len();
        while size > 0 {
            without_chunks(&mut best, size, &bad);
            size = if size > FINE {
                FINE.max(size / 2)
            } else {
                size - 1
            };
        }
        plainer_names(&mut best, &bad);
        plainer_bytes(&mut best, &bad);
        if best == before {
            return best;
        }
    }
}

/// The shortest spelling in place of any other.
fn plainer_names(best: &mut Vec<u8>, bad: &impl Fn(&[u8]) -> bool) {
    for name in NAMES.iter().filter(|name| name.len() > 2) {
        let found = best
            .windows(name.len())
            .position(|part| part == name.as_bytes());
        if let Some(start) = found {
            let mut plainer = best.clone();
            plainer.splice(start..start + name.len(), *b"i1");
            if bad(&plainer) {
                *best = plainer;
            }
        }
    }
}

fn without_chunks(best: &mut Vec<u8>, size: usize, bad: &impl Fn(&[u8]) -> bool) {
    let mut start = 0;
    while start + size <= best.len() {
        let mut shorter = best.clone();
        shorter.drain(start..start + size);
        if bad(&shorter) {
            *best = shorter;
        } else {
            start += 1;
        }
    }
}

fn plainer_bytes(best: &mut [u8], bad: &impl Fn(&[u8]) -> bool) {
    for place in 0..best.len() {
        for plainer in *b"1 a" {
            let kept = best[place];
            if kept == plainer {
                break;
            }
            best[place] = plainer;
            if bad(best) {
                break;
            }
            best[place] = kept;
        }
    }
}

#[cfg(test)]
mod tests {
    use super::*;
    use crate::pieces::MARK;

    #[test]
    fn shrinking_keeps_only_what_matters() {
        let bad = |text: &[u8]| text.contains(&b'<') && text.contains(&b'>');
        assert_eq!(shrunk(b"partition_view<tile=(4), f32>junk", bad), b"<>");
    }

    /// A chunk of the mark's size can go even where no part of it can.
    #[test]
    fn shrinking_takes_whole_marks_out() {
        let bad = |text: &[u8]| {
            let rest = text.strip_prefix(b"token").unwrap_or(b"?");
            !rest.is_empty() && rest.chunks(27).all(|part| part == MARK.as_bytes())
        };
        let text = [b"token".to_vec(), MARK.repeat(15).into_bytes()].concat();
        assert_eq!(shrunk(&text, bad).len(), 5 + 27);
    }
}
