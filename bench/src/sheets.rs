//! Sheets of 64 KiB, as full as whole rows make them: typical texts, one a row.

use crate::dice::Dice;
use crate::groups::{group, Group, Says};
use crate::typical::{loose_one, strict_one};

/// The most bytes of a sheet.
const LONGEST: usize = 65536;

/// So many of each sort, so that a round meets other rows than the sheet before.
const SHEETS: usize = 4;

/// Of every row.
const ACCEPTED: Says = Says {
    ordinary: &[0],
    strict: &[0, 5],
    theirs: Some(true),
};

/// A text without a line feed, with which it would be two rows.
fn row(dice: &mut Dice, make: fn(&mut Dice) -> String) -> String {
    loop {
        let row = make(dice);
        if !row.contains('\n') {
            return row;
        }
    }
}

fn sheet(dice: &mut Dice, makers: &[fn(&mut Dice) -> String]) -> String {
    let mut sheet = String::with_capacity(LONGEST);
    for make in makers.iter().cycle() {
        let row = row(dice, *make);
        if sheet.len() + row.len() + 1 > LONGEST {
            break;
        }
        sheet.push_str(&row);
        sheet.push('\n');
    }
    sheet
}

/// Of strict texts alone, and of strict and loose ones in turn, as in (a).
pub fn all(dice: &mut Dice) -> Vec<Group> {
    let sorts: [(&str, &[fn(&mut Dice) -> String]); 2] = [
        ("strict", &[strict_one]),
        ("strict and loose", &[strict_one, loose_one]),
    ];
    let sorts = sorts.map(|(name, makers)| {
        let texts = (0..SHEETS).map(|_| sheet(dice, makers)).collect();
        group(name, "", ACCEPTED, texts)
    });
    sorts.into()
}

/// The rows of a sheet, as Rust splits them.
pub fn split(sheet: &str) -> impl Iterator<Item = &str> {
    sheet.split_terminator('\n')
}

/// Rows of each sheet, in the mean.
pub fn rows(group: &Group) -> f64 {
    let rows = group.texts.iter().map(|sheet| split(sheet).count());
    rows.sum::<usize>() as f64 / group.texts.len() as f64
}

#[cfg(test)]
mod tests {
    use super::*;
    use crate::{plain, strict};

    #[test]
    fn sheets_are_full_and_their_rows_accepted() {
        for group in all(&mut Dice::new(1)) {
            for sheet in &group.texts {
                assert!(sheet.len() <= LONGEST && sheet.len() > LONGEST - 132);
                assert!(sheet.ends_with('\n'));
                let rows: Vec<&[u8]> = split(sheet).map(str::as_bytes).collect();
                assert!(rows.iter().all(|row| plain::read(row).number() == 0));
                let strictly = rows.iter().filter(|row| strict::read(row).number() == 0);
                let wanted = match group.key {
                    "strict" => rows.len(),
                    _ => rows.len().div_ceil(2),
                };
                assert_eq!(strictly.count(), wanted, "{}", group.key);
            }
        }
    }
}
