//! Rounds: in each, every call goes once over every group, one call after the other.

use crate::calls::{self, Room};
use crate::dice::Dice;
use crate::groups::Group;
use std::hint::black_box;
use std::time::Instant;

#[derive(Clone, Copy)]
pub enum Call {
    Floor,
    Theirs,
    Ordinary,
    Strict,
    Write,
    TheirsCounted,
    Counted,
}

use Call::*;

/// The calls on texts.
pub const TEXTS: [Call; 5] = [Floor, Theirs, Ordinary, Strict, Write];

/// The calls on sheets.
pub const SHEETS: [Call; 2] = [TheirsCounted, Counted];

/// Nanoseconds a text or a sheet, for each call round by round.
#[derive(Default)]
pub struct Times([Vec<f64>; 7]);

impl Times {
    pub fn of(&self, call: Call) -> &[f64] {
        &self.0[call as usize]
    }
}

/// So many rounds; their order of texts is another each time, and the same for every call.
pub fn measure(groups: &[Group], calls: &[Call], rounds: usize) -> Vec<Times> {
    let mut dice = Dice::new(3);
    let mut times: Vec<Times> = groups.iter().map(|_| Times::default()).collect();
    for _ in 0..rounds {
        for (group, times) in groups.iter().zip(&mut times) {
            let order = shuffled(&mut dice, group.texts.len());
            // Not counted: it brings the texts near.
            once(Floor, group, &order);
            for call in calls {
                times.0[*call as usize].push(once(*call, group, &order));
            }
        }
    }
    times
}

fn shuffled(dice: &mut Dice, count: usize) -> Vec<usize> {
    let mut order: Vec<usize> = (0..count).collect();
    for place in (1..count).rev() {
        order.swap(place, dice.below(place + 1));
    }
    order
}

/// One call on every text, or on every record of the group.
fn once(call: Call, group: &Group, order: &[usize]) -> f64 {
    let (texts, records) = (&group.texts, &group.records);
    let mut room: Room = [0; 773];
    match call {
        Floor => pass(order, |place| calls::floor(black_box(&texts[place]))),
        Theirs => pass(order, |place| calls::theirs(black_box(&texts[place]))),
        Ordinary => pass(order, |place| calls::ordinary(black_box(&texts[place]))),
        Strict => pass(order, |place| calls::strict(black_box(&texts[place]))),
        Write if records.is_empty() => 0.0,
        Write => pass(order, |place| {
            calls::write(black_box(&records[place]), &mut room)
        }),
        TheirsCounted => pass(order, |place| {
            calls::theirs_counted(black_box(&texts[place]))
        }),
        Counted => pass(order, |place| calls::counted(black_box(&texts[place]))),
    }
}

fn pass(order: &[usize], mut each: impl FnMut(usize)) -> f64 {
    let start = Instant::now();
    for place in order {
        each(*place);
    }
    start.elapsed().as_nanos() as f64 / order.len() as f64
}

#[cfg(test)]
mod tests {
    use super::*;

    #[test]
    fn a_shuffled_order_has_every_place_once() {
        let mut dice = Dice::new(1);
        let mut order = shuffled(&mut dice, 50);
        assert_ne!(order, shuffled(&mut dice, 50));
        order.sort();
        assert_eq!(order, (0..50).collect::<Vec<_>>());
    }
}
