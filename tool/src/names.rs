//! Names of files, and counts, as they are told to people.

use std::ffi::OsStr;
use std::fmt::Display;

/// A name in one line of text, without characters that are obeyed and not shown.
pub fn plain(name: impl AsRef<OsStr>) -> String {
    let shown = |character| if is_obeyed(character) { char::REPLACEMENT_CHARACTER } else { character };
    name.as_ref().to_string_lossy().chars().map(shown).collect()
}

/// Control characters, and those of Unicode that are not seen: spaces without width, and marks of direction.
fn is_obeyed(character: char) -> bool {
    let is_unseen = matches!(character,
        '\u{AD}' | '\u{61C}' | '\u{180E}' | '\u{200B}'..='\u{200F}' | '\u{2028}'..='\u{202E}' | '\u{2060}'..='\u{206F}'
        | '\u{FEFF}' | '\u{FFF9}'..='\u{FFFB}' | '\u{E0000}'..='\u{E007F}');
    character.is_control() || is_unseen
}

/// `1 payment`, `2 payments`.
pub fn counted(count: impl Display, one: &str) -> String {
    match count.to_string() {
        count if count == "1" => format!("1 {one}"),
        count => format!("{count} {one}s"),
    }
}

/// `3 payments go on, 1 comes back`.
pub fn sorted(kept: usize, returned: usize) -> String {
    let on = if kept == 1 { "goes on" } else { "go on" };
    let back = if returned == 1 { "comes back" } else { "come back" };
    format!("{} {on}, {returned} {back}", counted(kept, "payment"))
}

#[cfg(test)]
mod tests {
    use super::*;

    #[test]
    fn names_in_one_line() {
        assert_eq!(plain("a b\u{E4}"), "a b\u{E4}");
        assert_eq!(plain("a\nb\u{1B}[1m\u{202E}"), "a\u{FFFD}b\u{FFFD}[1m\u{FFFD}");
    }

    #[test]
    fn counts() {
        assert_eq!([0, 1, 2].map(|count| counted(count, "payment")), ["0 payments", "1 payment", "2 payments"]);
        assert_eq!(sorted(3, 0), "3 payments go on, 0 come back");
        assert_eq!(sorted(1, 1), "1 payment goes on, 1 comes back");
    }
}
