//! Texts made longer without another meaning: filling in front of their entries.

/// Where an entry begins: a numeral or `?` after an opening or a separator.
pub fn places(text: &str) -> Vec<usize> {
    let bytes = text.as_bytes();
    let begins = |place: &usize| {
        let entry = bytes[*place].is_ascii_digit() || b"-?".contains(&bytes[*place]);
        entry && b"<([x,= ".contains(&bytes[*place - 1])
    };
    (1..bytes.len()).filter(begins).collect()
}

/// The text with as much filling as makes it `length` bytes long, spread evenly over the places.
pub fn stretched(text: &str, places: &[usize], length: usize, filling: &str) -> String {
    let mut missing = length.saturating_sub(text.len());
    let mut filling = filling.chars().cycle();
    let mut out = String::new();
    let mut done = 0;
    for (n, place) in places.iter().enumerate() {
        out.push_str(&text[done..*place]);
        let share = missing / (places.len() - n);
        out.extend(filling.by_ref().take(share));
        missing -= share;
        done = *place;
    }
    out.push_str(&text[done..]);
    out
}

#[cfg(test)]
mod tests {
    use super::*;

    #[test]
    fn entries_are_found_and_names_are_not() {
        let text = "tensor_view<?x-16xf32, strides=[16, 1]>";
        assert_eq!(places(text), [12, 14, 32, 36]);
        assert!(places("token").is_empty());
    }

    #[test]
    fn filling_is_spread_and_the_length_is_met() {
        assert_eq!(
            stretched("tile<4x8xf32>", &[5, 7], 16, "0"),
            "tile<04x008xf32>"
        );
        assert_eq!(stretched("i8", &[2], 6, " !"), "i8 ! !");
        assert_eq!(stretched("i8", &[2], 1, " "), "i8");
    }
}
