//! The plain collector sentence by sentence, and collectors with a slip, which have to be found.

use super::*;
use crate::answer::LONGEST_TEXT;
use crate::collector::BLOCK;

fn feed(piece: &[u8]) -> Step {
    Step::Feed(piece.to_vec())
}

/// From a fresh block.
fn fresh(steps: Vec<Step>) -> Run {
    let block = vec![0; BLOCK];
    Run { block, steps }
}

fn plain_feed(block: &mut [u8], piece: &[u8]) -> Option<u8> {
    let Some(text) = joined(block) else {
        return Some(6);
    };
    block.copy_from_slice(&block_of(&[&text, piece].concat()));
    Some(0)
}

fn plain_end(block: &mut [u8]) -> Option<Result<Answer, String>> {
    let Some(text) = joined(block) else {
        return Some(Ok(Answer::refused(6)));
    };
    block.fill(0);
    Some(Ok(plain::read(&text)))
}

const PLAIN: Calls = Calls {
    feed: plain_feed,
    end: plain_end,
};

#[test]
fn a_fresh_block_is_all_zeros() {
    assert_eq!(joined(&[0; BLOCK]), Some(Vec::new()));
    assert_eq!(block_of(b""), [0; BLOCK]);
}

#[test]
fn number_high_byte_first_then_the_mark() {
    let text = [b'x'; 1024];
    for (len, rest) in [
        (0, [0, 0, 0]),
        (3, [0, 3, 0]),
        (258, [1, 2, 0]),
        (1024, [4, 0, 0]),
    ] {
        let block = block_of(&text[..len]);
        assert_eq!(block[LONGEST_TEXT..], rest);
        assert_eq!(joined(&block), Some(text[..len].to_vec()));
    }
    let over = block_of(&[b'x'; 1025]);
    assert!(over[..1026].iter().all(|byte| *byte == 0) && over[1026] == 1);
    assert!(joined(&over).is_some_and(|text| text.len() > LONGEST_TEXT));
}

#[test]
fn not_in_order() {
    let wrong: [(&[u8], usize, [u8; 3]); 7] = [
        (b"f", 0, [0, 0, 0]),
        (b"f32x", 0, [0, 3, 0]),
        (b"f", 1023, [3, 255, 0]),
        (b"", 0, [4, 1, 0]),
        (b"", 0, [0, 0, 2]),
        (b"", 0, [0, 1, 1]),
        (b"f", 5, [0, 0, 1]),
    ];
    for (bytes, place, rest) in wrong {
        let mut block = vec![0; BLOCK];
        block[place..place + bytes.len()].copy_from_slice(bytes);
        block[LONGEST_TEXT..].copy_from_slice(&rest);
        assert_eq!(joined(&block), None, "{rest:?}");
    }
    assert_eq!(joined(&[0; BLOCK - 1]), None);
    assert_eq!(joined(&[0; BLOCK + 1]), None);
}

/// "Once the total passes 1,024 it stays over-full, and the end answers 1, also where a byte of 128
/// came earlier."
#[test]
fn over_full() {
    let steps = vec![
        feed(b"\x80"),
        feed(&[b' '; 1024]),
        feed(b""),
        Step::End,
        feed(b"f32"),
        Step::End,
    ];
    let answers = settled(&fresh(steps)).unwrap_or_else(|why| panic!("{why}"));
    let numbers: Vec<u8> = answers.iter().map(Answer::number).collect();
    assert_eq!(numbers, [1, 0]);
}

/// Every sort in turn; our own collector is held too, where it is there.
#[test]
fn every_refusal_is_met() {
    let count = if cfg!(debug_assertions) {
        5_000
    } else {
        40_000
    };
    let all = generated(count, 11).unwrap_or_else(|why| panic!("{why}"));
    for (name, totals) in all {
        let [accepted, one, two, three, four, five, six] = totals.ends;
        assert!(totals.runs > 0 && totals.pieces > 0 && five == 0, "{name}");
        let read = accepted > 0 && two > 0 && three > 0 && four > 0;
        match name {
            "not in order" => assert!(six > 1000),
            _ => assert!(
                one > 0 && six == 0 && read != name.starts_with("over"),
                "{name}"
            ),
        }
    }
}

#[test]
fn the_plain_collector_does_not_differ_from_itself() {
    let mut dice = Dice::new(3);
    for turn in 0..900 {
        let run = SORTS[turn % SORTS.len()].1(&mut dice);
        assert_eq!(difference(&run, PLAIN), None, "{run}");
    }
}

/// The first run that shows the slip, as small as it goes.
fn found(calls: Calls) -> Run {
    let mut dice = Dice::new(5);
    for turn in 0.. {
        let run = SORTS[turn % SORTS.len()].1(&mut dice);
        if difference(&run, calls).is_some() {
            assert!(told(&run, calls).starts_with("our collector differs at step"));
            return smallest(&run, |run| difference(run, calls).is_some());
        }
    }
    unreachable!()
}

/// Takes an empty piece without a look at the block.
fn careless_feed(block: &mut [u8], piece: &[u8]) -> Option<u8> {
    match piece.is_empty() {
        true => Some(0),
        false => plain_feed(block, piece),
    }
}

/// Drops a piece that doesn't fit.
fn dropping_feed(block: &mut [u8], piece: &[u8]) -> Option<u8> {
    match joined(block) {
        Some(text) if text.len() + piece.len() > LONGEST_TEXT => Some(0),
        _ => plain_feed(block, piece),
    }
}

/// Leaves a refused text where it is.
fn lazy_end(block: &mut [u8]) -> Option<Result<Answer, String>> {
    let before = block.to_vec();
    let answer = plain_end(block);
    if matches!(&answer, Some(Ok(answer)) if answer.number() == 3) {
        block.copy_from_slice(&before);
    }
    answer
}

/// Empties a block that it refuses.
fn eager_end(block: &mut [u8]) -> Option<Result<Answer, String>> {
    let answer = plain_end(block);
    block.fill(0);
    answer
}

#[test]
fn slips_are_found_and_made_small() {
    let calls = Calls {
        feed: careless_feed,
        ..PLAIN
    };
    let run = found(calls);
    assert_eq!(run.steps, [feed(b"")]);

    let calls = Calls {
        feed: dropping_feed,
        ..PLAIN
    };
    let run = found(calls);
    assert_eq!(run.steps.len(), 1, "{run}");

    let run = found(Calls {
        end: lazy_end,
        ..PLAIN
    });
    assert!(
        run.steps.len() <= 2 && run.steps.last() == Some(&Step::End),
        "{run}"
    );

    let run = found(Calls {
        end: eager_end,
        ..PLAIN
    });
    assert_eq!(run.steps, [Step::End], "{run}");
    assert_eq!(
        run.block.iter().filter(|byte| **byte != 0).count(),
        1,
        "{run}"
    );
}

/// A byte beside the block.
#[test]
fn a_byte_outside_is_seen() {
    let mut lent = Lent::new(&[0; BLOCK]);
    assert_eq!(lent.wrong(&[0; BLOCK]), None);
    lent.0[MARGIN + BLOCK] = 0;
    let told = lent.wrong(&[0; BLOCK]);
    assert_eq!(told.unwrap(), "the byte at 1027 of the block is 0, not 165");
}

#[test]
fn a_run_is_shown_step_by_step() {
    let run = Run {
        block: block_of(b"tile<"),
        steps: vec![feed(b"\xff"), Step::End],
    };
    let shown = [
        "  block    of 1027 bytes: tile<, zeros, then [0, 5, 0]",
        "  step 1   1 bytes: \\xff",
        "  step 2   the end",
    ];
    assert_eq!(run.to_string(), shown.join("\n"));
}
