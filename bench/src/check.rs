//! Every text read once before anything is timed: its answers have to be what its group says.

use crate::calls;
use crate::groups::Group;
use crate::sheets::split;

/// How a wrong answer is told; a long text is cut.
fn wrong(group: &Group, text: &str, what: String) -> String {
    let shown: String = text.chars().take(120).collect();
    let (key, len) = (group.key, text.len());
    format!("group {key}: {what} on this text of {len} bytes: {shown:?}")
}

/// Every row is counted, and by both alike.
pub fn sheets(group: &Group) -> Result<(), String> {
    for sheet in &group.texts {
        let (ours, theirs) = (calls::rows(sheet), calls::theirs_rows(sheet));
        if ours != Some(theirs) || theirs.0 != split(sheet).count() {
            let what = format!("rows counted: {ours:?} by us, {theirs:?} by Type::parse");
            return Err(wrong(group, sheet, what));
        }
    }
    Ok(())
}

pub fn answers(group: &Group) -> Result<(), String> {
    for text in &group.texts {
        let told = |what| Err(wrong(group, text, what));
        let (ordinary, strict) = (calls::refusal(text), calls::strict_refusal(text));
        if !group.says.ordinary.contains(&ordinary) {
            return told(format!("the ordinary reader answers {ordinary}"));
        }
        if !group.says.strict.contains(&strict) {
            return told(format!("the strict reader answers {strict}"));
        }
        let theirs = calls::theirs_accept(text);
        if group.says.theirs.is_some_and(|said| said != theirs) {
            return told(format!("Type::parse accepts: {theirs}"));
        }
    }
    for (record, text) in group.records.iter().zip(&group.texts) {
        let again = calls::written(record).map(|written| calls::record(&written));
        if again != Some(*record) {
            let what = "what is written isn't read back as the same record".to_string();
            return Err(wrong(group, text, what));
        }
    }
    Ok(())
}
