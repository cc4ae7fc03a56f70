//! Refusals in plain words, which stand in the table of docs/RULES.md alone ('When a call says no').

use belt::Refusal;

const RULES: &str = include_str!("../../../docs/RULES.md");

/// What a row of the table says in plain words; its condition, if the table has none.
fn words(number: u32, condition: &'static str) -> &'static str {
    let row = format!("| {number} | {condition} | ");
    let cells = RULES.lines().find_map(|line| line.strip_prefix(&row)?.strip_suffix(" |"));
    cells.and_then(|cells| cells.split_once(" | ")).map_or(condition, |(_, plain)| plain)
}

/// A refusal's number and what it says in plain words; of a list or a buffer also which, and its length.
pub fn told(refusal: Refusal) -> String {
    let condition = refusal.condition();
    refusal.to_string().replacen(condition, words(refusal.number(), condition), 1)
}

#[cfg(test)]
mod tests {
    use super::*;

    #[test]
    fn every_row_has_plain_words_that_stand_once() {
        assert_eq!(Refusal::TABLE.len(), 19);
        for &(number, condition) in Refusal::TABLE {
            let plain = words(number, condition);
            assert!(plain != condition && !plain.contains('|') && plain.len() > 20, "{number}: {plain}");
            assert_eq!(RULES.matches(plain).count(), 1, "{number}: {plain}");
        }
    }

    #[test]
    fn a_length_stays_beside_them() {
        let length = belt::Length { name: "classes", given: 5, wanted: 80 };
        let lists = "a picture or a list hasn't as many values as it must have";
        assert_eq!(told(Refusal::WrongLength(length)), format!("2: {lists}: classes has 5 elements, 80 are wanted"));
        assert_eq!(told(Refusal::Singular), "6: the samples lie on a line, or are too few for this type");
    }
}
