//! One call over one group, so many times, with nothing timed: for what counts instructions.

use crate::calls;
use crate::groups;

#[derive(Debug)]
pub struct Over {
    pub group: String,
    pub call: fn(&str),
    pub rounds: usize,
}

/// `GROUP CALL ROUNDS`, as the words of `--over` have it.
pub fn over(group: &str, call: &str, rounds: &str) -> Result<Over, String> {
    let call = match call {
        "theirs" => calls::theirs,
        "ordinary" => calls::ordinary,
        "strict" => calls::strict,
        _ => return Err(format!("`{call}` is no call")),
    };
    let rounds = rounds
        .parse()
        .map_err(|_| format!("`{rounds}` is no number"))?;
    let group = group.to_string();
    Ok(Over {
        group,
        call,
        rounds,
    })
}

/// Prints how many texts the group has.
pub fn run(over: &Over) -> Result<(), String> {
    let all = groups::all();
    let group = all
        .iter()
        .find(|group| group.key == over.group)
        .ok_or_else(|| format!("`{}` is no group", over.group))?;
    for _ in 0..over.rounds {
        group.texts.iter().for_each(|text| (over.call)(text));
    }
    println!("{}", group.texts.len());
    Ok(())
}

#[cfg(test)]
mod tests {
    use super::*;

    #[test]
    fn words_are_understood_or_refused() {
        assert_eq!(over("a", "theirs", "3").unwrap().rounds, 3);
        assert!(over("a", "floor", "3").is_err());
        assert!(over("a", "strict", "three").is_err());
    }

    #[test]
    fn no_round_calls_nothing() {
        assert!(run(&over("a strict", "strict", "0").unwrap()).is_ok());
        assert!(run(&over("f", "strict", "0").unwrap()).is_err());
    }
}
