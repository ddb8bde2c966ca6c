//! Text put between two marker lines of a file, so that what people wrote around them stays.

/// The two lines of a kind of machine, so that one page has the tables of each.
fn markers(arch: &str) -> (String, String) {
    let line = |word: &str| format!("<!-- bench {arch}: {word} -->");
    (line("begin"), line("end"))
}

/// The page with `text` in place of what stood between the machine's markers.
pub fn between(page: &str, arch: &str, text: &str) -> Result<String, String> {
    let (begin, end) = markers(arch);
    let missing = || format!("it has no line `{begin}` with a line `{end}` after it");
    let (before, rest) = page.split_once(&begin).ok_or_else(missing)?;
    let (_, after) = rest.split_once(&end).ok_or_else(missing)?;
    let text = text.trim();
    Ok(format!("{before}{begin}\n\n{text}\n\n{end}{after}"))
}

#[cfg(test)]
mod tests {
    use super::*;

    #[test]
    fn what_stands_around_stays_and_twice_is_once() {
        let (begin, end) = markers("this");
        let page = format!("front {begin}\nold\n{end}\n{}\n", markers("that").0);
        let once = between(&page, "this", "new\n").unwrap();
        let wanted = format!("front {begin}\n\nnew\n\n{end}\n{}\n", markers("that").0);
        assert_eq!(once, wanted);
        assert_eq!(between(&once, "this", "new\n").unwrap(), once);
        assert!(between(&once, "that", "new").is_err());
        assert!(between(&format!("{end}{begin}"), "this", "new").is_err());
    }
}
