//! Texts without marks, of exactly 128, 256, 512 and 1,024 bytes, made in the same way.

use crate::dice::Dice;
use crate::entries::{places, stretched};
use crate::groups::{group, Group, Says};

pub const LENGTHS: [usize; 4] = [128, 256, 512, 1024];

const TEXTS: usize = 60;

/// A way to reach a length.
pub struct Way {
    pub name: &'static str,
    make: fn(&mut Dice, usize) -> String,
    says: Says,
}

const LOOSE: Says = Says {
    ordinary: &[0],
    strict: &[5],
    theirs: Some(true),
};

const TOO_MANY: Says = Says {
    ordinary: &[4],
    strict: &[4],
    theirs: Some(true),
};

pub const WAYS: [Way; 3] = [
    Way {
        name: "white space",
        make: |dice, length| view(dice, length, " "),
        says: LOOSE,
    },
    Way {
        name: "leading zeros",
        make: |dice, length| view(dice, length, "0"),
        says: LOOSE,
    },
    Way {
        name: "entries",
        make: entries,
        says: TOO_MANY,
    },
];

fn digit(dice: &mut Dice) -> usize {
    dice.from(1, 9)
}

/// A view with the filling in front of its seven entries.
fn view(dice: &mut Dice, length: usize, filling: &str) -> String {
    let [a, b, c, d, e, f, g] = [(); 7].map(|()| digit(dice));
    let text = format!(
        "partition_view<tile=({a}x{b}), tensor_view<{c}x{d}xf32, strides=[{e}, {f}]>, dim_map=[{g}]>"
    );
    stretched(&text, &places(&text), length, filling)
}

/// A tile with so many entries that both readers refuse it with 4, after having read it whole.
fn entries(dice: &mut Dice, length: usize) -> String {
    let mut text = "tile<".to_string();
    while text.len() < length - "bf16>".len() {
        text.push_str(&format!("{}x", digit(dice)));
    }
    text + "bf16>"
}

/// For each way its four groups, way after way.
pub fn all(dice: &mut Dice) -> Vec<Group> {
    let mut groups = Vec::new();
    for way in &WAYS {
        for length in LENGTHS {
            let texts = (0..TEXTS).map(|_| (way.make)(dice, length)).collect();
            groups.push(group(way.name, "", way.says, texts));
        }
    }
    groups
}

#[cfg(test)]
mod tests {
    use super::*;
    use crate::pieces::MARK;
    use crate::{plain, strict};

    #[test]
    fn lengths_are_exact_and_answers_as_said() {
        for (place, group) in all(&mut Dice::new(1)).iter().enumerate() {
            for text in &group.texts {
                assert_eq!(text.len(), LENGTHS[place % 4], "{text}");
                assert!(!text.contains(MARK));
                let bytes = text.as_bytes();
                assert!(group.says.ordinary.contains(&plain::read(bytes).number()));
                assert!(group.says.strict.contains(&strict::read(bytes).number()));
            }
        }
    }
}
