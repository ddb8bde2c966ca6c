//! Texts on one line: bytes 0x20 to 0x7e as they are, backslash doubled, all others `\xHH`.

/// A `#` at the front is escaped too, so that it isn't taken for a comment of the list.
pub fn escape(text: &[u8]) -> String {
    let mut line = String::new();
    for (place, byte) in text.iter().enumerate() {
        match byte {
            b'\\' => line.push_str("\\\\"),
            b'#' if place == 0 => line.push_str("\\x23"),
            0x20..=0x7e => line.push(char::from(*byte)),
            _ => line.push_str(&format!("\\x{byte:02x}")),
        }
    }
    line
}

/// Takes every line that `escape` gives; other bytes stand for themselves.
pub fn unescape(line: &[u8]) -> Result<Vec<u8>, String> {
    let mut text = Vec::new();
    let mut rest = line;
    while let Some((byte, after)) = rest.split_first() {
        rest = after;
        if *byte != b'\\' {
            text.push(*byte);
            continue;
        }
        match after {
            [b'\\', ..] => {
                text.push(b'\\');
                rest = &after[1..];
            }
            [b'x', high, low, ..] => {
                text.push(hex(*high)? * 16 + hex(*low)?);
                rest = &after[3..];
            }
            _ => return Err("a backslash is followed by neither `\\` nor `xHH`".to_string()),
        }
    }
    Ok(text)
}

fn hex(byte: u8) -> Result<u8, String> {
    let digit = char::from(byte).to_digit(16);
    digit
        .map(|value| value as u8)
        .ok_or_else(|| "`\\x` is not followed by two hex digits".to_string())
}

#[cfg(test)]
mod tests {
    use super::*;

    #[test]
    fn every_byte_comes_back() {
        let all: Vec<u8> = (0..=255).collect();
        assert_eq!(unescape(escape(&all).as_bytes()), Ok(all.clone()));
        let doubled: Vec<u8> = all.iter().rev().flat_map(|byte| [b'\\', *byte]).collect();
        assert_eq!(unescape(escape(&doubled).as_bytes()), Ok(doubled));
    }

    #[test]
    fn an_escaped_text_is_one_field_and_no_comment() {
        let line = escape(b"#a\tb\nc\\");
        assert_eq!(line, "\\x23a\\x09b\\x0ac\\\\");
    }

    #[test]
    fn broken_escapes_are_told() {
        for line in ["\\", "\\n", "\\x1", "\\xg0"] {
            assert!(unescape(line.as_bytes()).is_err(), "{line}");
        }
    }
}
