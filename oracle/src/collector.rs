//! A plain collector, written from request C-13 and the block of docs/ABI.md alone, and what it can
//! be lent to.

use crate::answer::LONGEST_TEXT;
use crate::escape::escape;
use std::fmt;

/// "a block of 1,027 bytes": the room, the number in two bytes, the over-full mark.
pub const BLOCK: usize = LONGEST_TEXT + 3;

#[derive(Debug, Clone, PartialEq, Eq)]
pub enum Step {
    Feed(Vec<u8>),
    End,
}

/// What one block is lent to, one step after the other.
#[derive(Debug, Clone, PartialEq, Eq)]
pub struct Run {
    pub block: Vec<u8>,
    pub steps: Vec<Step>,
}

/// The joined text that a block stands for, None if it isn't in order. Of an over-full one it is
/// known only that it is too long.
pub fn joined(block: &[u8]) -> Option<Vec<u8>> {
    if block.len() != BLOCK {
        return None;
    }
    let (room, rest) = block.split_at(LONGEST_TEXT);
    let number = usize::from(rest[0]) * 256 + usize::from(rest[1]);
    match rest[2] {
        0 if number <= LONGEST_TEXT && zeros(&room[number..]) => Some(room[..number].to_vec()),
        1 if number == 0 && zeros(room) => Some(vec![b' '; LONGEST_TEXT + 1]),
        _ => None,
    }
}

fn zeros(part: &[u8]) -> bool {
    part.iter().all(|byte| *byte == 0)
}

/// The block in which this text has been joined.
pub fn block_of(text: &[u8]) -> Vec<u8> {
    let mut block = vec![0; BLOCK];
    if text.len() > LONGEST_TEXT {
        block[LONGEST_TEXT + 2] = 1;
        return block;
    }
    block[..text.len()].copy_from_slice(text);
    block[LONGEST_TEXT] = (text.len() / 256) as u8;
    block[LONGEST_TEXT + 1] = (text.len() % 256) as u8;
    block
}

/// What this step does to a text; none is there where the block isn't in order.
pub fn step_done(step: &Step, text: &mut Option<Vec<u8>>) {
    let Some(text) = text else {
        return;
    };
    match step {
        Step::Feed(piece) => text.extend(piece),
        Step::End => text.clear(),
    }
}

/// The block's bytes but for zeros at the end of the room, and each step.
impl fmt::Display for Run {
    fn fmt(&self, f: &mut fmt::Formatter) -> fmt::Result {
        let room = self.block.len().min(LONGEST_TEXT);
        let (room, rest) = self.block.split_at(room);
        let used = room.iter().rposition(|byte| *byte != 0);
        let used = escape(&room[..used.map_or(0, |place| place + 1)]);
        let size = self.block.len();
        write!(
            f,
            "  block    of {size} bytes: {used}, zeros, then {rest:?}"
        )?;
        for (place, step) in self.steps.iter().enumerate() {
            let number = place + 1;
            match step {
                Step::Feed(piece) => write!(
                    f,
                    "\n  step {number:<3} {} bytes: {}",
                    piece.len(),
                    escape(piece)
                )?,
                Step::End => write!(f, "\n  step {number:<3} the end")?,
            }
        }
        Ok(())
    }
}
