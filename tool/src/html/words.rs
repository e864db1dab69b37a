//! What the page says, in English and in German. In a text with {} these stand for what is filled in, in their order.

use crate::cli::Lang;
use std::fmt::Display;

/// A text for one thing, and one for several.
pub struct Counted {
    one: &'static str,
    many: &'static str,
}

impl Counted {
    pub fn of(&self, count: usize) -> &'static str {
        if count == 1 {
            self.one
        } else {
            self.many
        }
    }
}

pub struct Words {
    pub lang: Lang,
    /// The language's code, for the attribute lang.
    pub code: &'static str,
    pub group: char,
    pub decimal: char,
    pub months: [&'static str; 12],
    pub day_end: &'static str,

    pub skip: &'static str,
    pub contents: &'static str,
    pub payment_file: &'static str,
    pub made_by: &'static str,
    pub what_sound_means: &'static str,

    pub sound: Counted,
    pub some_back: Counted,
    pub some_go_on: Counted,
    pub refused: &'static str,
    pub lead_sound: &'static str,
    pub lead_some: &'static str,
    pub lead_refused: &'static str,
    pub changes: Counted,
    pub no_changes: &'static str,
    pub keep: &'static str,
    pub sound_elsewhere: &'static str,
    pub letters_elsewhere: Counted,

    pub summary: &'static str,
    pub file: &'static str,
    pub standard_input: &'static str,
    pub ordering_party: &'static str,
    pub file_number: &'static str,
    pub date: &'static str,
    pub code_page: &'static str,
    pub on_page: &'static str,
    pub lists: &'static str,
    pub annexes: &'static str,
    pub lists_of: &'static str,
    pub length: &'static str,
    pub bytes: Counted,

    pub totals: &'static str,
    pub payments: &'static str,
    pub whole_euros: &'static str,
    pub cents: &'static str,
    pub amount: &'static str,
    pub submitted: &'static str,
    pub goes_on: &'static str,
    pub comes_back: &'static str,
    pub about_totals: &'static str,

    pub what_changes: &'static str,
    pub changed_characters: &'static str,
    pub character: &'static str,
    pub hex: &'static str,
    pub becomes: &'static str,
    pub times: &'static str,
    pub space: &'static str,
    pub control: &'static str,
    pub no_character: &'static str,
    pub hard_space: &'static str,
    pub soft_hyphen: &'static str,
    pub in_header: &'static str,
    pub about_changes: &'static str,
    pub before: &'static str,
    pub after: &'static str,
    pub line: &'static str,
    pub read_as: &'static str,

    pub what_comes_back: &'static str,
    pub what_would_come_back: &'static str,
    pub about_marks: &'static str,
    pub look_at_first: &'static str,
    pub back: &'static str,
    pub what_goes_on: &'static str,
    pub on: &'static str,
    pub one_record: &'static str,
    pub records: &'static str,
    pub payments_in: Counted,
    pub to: &'static str,
    pub record: &'static str,
    pub payee: &'static str,
    pub country: &'static str,
    pub why_back: &'static str,
    pub changed: &'static str,
    pub unchanged: &'static str,
    pub rule: &'static str,
    pub number: &'static str,
    pub m8_code: &'static str,
    pub column: &'static str,
    pub columns: &'static str,
    pub hex_in_column: &'static str,

    pub why_refused: &'static str,
    pub judge_first: &'static str,
    pub about_judge: &'static str,
    pub field: &'static str,
    pub place: &'static str,
    pub marked: &'static str,
    pub due: &'static str,
    pub record_of: &'static str,
    pub record_fields: &'static str,
    pub about_record: &'static str,
    pub meaning: &'static str,
    pub content: &'static str,
    pub record_length: &'static str,
    pub record_kind: &'static str,
    pub breaks: &'static str,
    pub spaces: Counted,

    pub too_long: &'static str,
    pub no_record: &'static str,
    pub cut_record: &'static str,
    pub wrong_length: &'static str,
    pub wrong_letter: &'static str,
    pub after_z: &'static str,
    pub t_or_z: &'static str,
    pub line_end: &'static str,
    pub empty: &'static str,
    pub stretch: &'static str,
    pub first_byte: &'static str,
    pub text: &'static str,
    pub end_of_file: &'static str,
}

pub fn words(lang: Lang) -> &'static Words {
    match lang {
        Lang::En => &super::english::WORDS,
        Lang::De => &super::german::WORDS,
    }
}

pub const fn counted(one: &'static str, many: &'static str) -> Counted {
    Counted { one, many }
}

/// A text in which values stand in the places of {}, in their order.
pub fn fill(text: &str, values: &[&dyn Display]) -> String {
    let mut parts = text.split("{}");
    let mut filled = parts.next().unwrap_or_default().to_owned();
    for (value, part) in values.iter().zip(parts) {
        filled += &value.to_string();
        filled += part;
    }
    filled
}

#[cfg(test)]
mod tests {
    use super::*;

    #[test]
    fn values_in_their_places() {
        assert_eq!(fill("a {} b {}", &[&1, &"{}"]), "a 1 b {}");
        assert_eq!(fill("nothing", &[&1]), "nothing");
    }
}
