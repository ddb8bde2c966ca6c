//! What the original says of a scalar: `byte_width`, `is_integer` and `is_float` of its `types.rs`, and
//! `bits` of its `verify_target.rs`.

use crate::original;
use crate::scalar::{Scalar, ALL};

/// Width, whether it is an integer, whether it is a float, bits.
pub type Facts = (usize, bool, bool, usize);

/// By the plain reading of document 01.
pub fn plain(scalar: Scalar) -> Facts {
    (
        scalar.byte_width(),
        scalar.is_integer(),
        scalar.is_float(),
        scalar.bits(),
    )
}

/// The plain facts of all sixteen, once the original has confirmed them where it is there.
pub fn confirmed() -> Result<[(Scalar, Facts); 16], String> {
    for (scalar, name) in ALL {
        let (ours, theirs) = (plain(scalar), theirs(scalar));
        if original::PRESENT && theirs != Some(ours) {
            return Err(format!(
                "of {name} the original says {theirs:?}, not {ours:?}"
            ));
        }
    }
    Ok(ALL.map(|(scalar, _)| (scalar, plain(scalar))))
}

/// None where the source is absent.
#[cfg(not(has_source))]
fn theirs(_: Scalar) -> Option<Facts> {
    None
}

#[cfg(has_source)]
use with_source::theirs;

#[cfg(has_source)]
mod with_source {
    use super::{Facts, Scalar};
    use crate::ir::types::ScalarType;

    include!(concat!(env!("OUT_DIR"), "/original_bits.rs"));

    pub fn theirs(scalar: Scalar) -> Option<Facts> {
        let theirs = ScalarType::parse(scalar.name())?;
        Some((
            theirs.byte_width(),
            theirs.is_integer(),
            theirs.is_float(),
            bits(theirs),
        ))
    }
}

#[cfg(test)]
mod tests {
    use super::*;

    /// Document 01, module 2, of `bits`: "1 for I1, 4 for I4 and F4E2M1FN, else 8 times the byte width".
    #[test]
    fn bits_by_the_document() {
        for (scalar, (width, _, _, bits)) in confirmed().unwrap() {
            let wanted = match scalar {
                Scalar::I1 => 1,
                Scalar::I4 | Scalar::F4E2M1FN => 4,
                _ => 8 * width,
            };
            assert_eq!(bits, wanted, "{}", scalar.name());
        }
    }
}
