//! A run made as small as it goes.

use crate::collector::{Run, Step};
use crate::compare::shrunk;

/// With fewer steps and cuts, plainer pieces and a plainer block, while `bad` stays true.
pub fn smallest(run: &Run, bad: impl Fn(&Run) -> bool) -> Run {
    let mut best = run.clone();
    loop {
        let before = best.clone();
        without_steps(&mut best, &bad);
        fewer_cuts(&mut best, &bad);
        plainer_pieces(&mut best, &bad);
        plainer_block(&mut best, &bad);
        if best == before {
            return best;
        }
    }
}

/// Many at once first, as a text can have come byte by byte.
fn without_steps(best: &mut Run, bad: &impl Fn(&Run) -> bool) {
    let mut size = best.steps.len();
    while size > 0 {
        let mut start = 0;
        while start + size <= best.steps.len() {
            let mut fewer = best.clone();
            fewer.steps.drain(start..start + size);
            match bad(&fewer) {
                true => *best = fewer,
                false => start += size,
            }
        }
        size /= 2;
    }
}

fn fewer_cuts(best: &mut Run, bad: &impl Fn(&Run) -> bool) {
    let mut place = 1;
    while place < best.steps.len() {
        let mut whole = best.clone();
        let two = (&best.steps[place - 1], &best.steps[place]);
        if let (Step::Feed(front), Step::Feed(back)) = two {
            let piece = [&front[..], back].concat();
            whole.steps.splice(place - 1..=place, [Step::Feed(piece)]);
        }
        match whole != *best && bad(&whole) {
            true => *best = whole,
            false => place += 1,
        }
    }
}

fn plainer_pieces(best: &mut Run, bad: &impl Fn(&Run) -> bool) {
    for place in 0..best.steps.len() {
        let with = |piece: &[u8]| {
            let mut run = best.clone();
            run.steps[place] = Step::Feed(piece.to_vec());
            run
        };
        if let Step::Feed(piece) = &best.steps[place] {
            let piece = shrunk(piece, |piece| bad(&with(piece)));
            *best = with(&piece);
        }
    }
}

fn plainer_block(best: &mut Run, bad: &impl Fn(&Run) -> bool) {
    for place in 0..best.block.len() {
        let mut plainer = best.clone();
        plainer.block[place] = 0;
        if bad(&plainer) {
            *best = plainer;
        }
    }
}
