//! Bytes of a file, and names of files, as text of the page. Whatever they are, they stay text: what has a meaning in HTML is
//! escaped, and what cannot be seen is shown as U+FFFD with its hex digits.

use super::words::{fill, Words};
use crate::names::plain;
use crate::text::character;
use desk::Page;
use std::ffi::OsStr;

/// What stands for a space that is marked.
const SPACE: char = '␣';

/// A text that is escaped, for an element and for an attribute.
pub fn safe(text: &str) -> String {
    html_escape::encode_safe(text).into_owned()
}

/// The name of a file or folder, whose characters cannot touch what stands around it.
pub fn name(name: &OsStr) -> String {
    format!("<bdi>{}</bdi>", safe(&plain(name)))
}

/// The character that is seen for a byte; `None` where there is none, or one that looks like nothing or like a space.
pub fn seen(page: Page, byte: u8) -> Option<char> {
    Some(character(page, byte))
        .filter(|character| !matches!(*character, char::REPLACEMENT_CHARACTER | '\u{A0}' | '\u{AD}'))
}

/// Bytes as the page reads them.
pub fn text(page: Page, bytes: &[u8]) -> String {
    marked(page, bytes, "", |_| false)
}

/// Bytes as the page reads them, and those in marked places in an element of that name.
pub fn marked(page: Page, bytes: &[u8], element: &str, is_marked: impl Fn(usize) -> bool) -> String {
    let mut out = String::new();
    let mut was_marked = false;
    for (place, &byte) in bytes.iter().enumerate() {
        let is_marked = is_marked(place);
        push_border(&mut out, element, was_marked, is_marked);
        push_byte(&mut out, page, byte, is_marked);
        was_marked = is_marked;
    }
    push_border(&mut out, element, was_marked, false);
    out
}

/// Where marks begin or end, the tag of their element.
fn push_border(out: &mut String, element: &str, was_marked: bool, is_marked: bool) {
    if is_marked != was_marked {
        out.push_str(if is_marked { "<" } else { "</" });
        out.push_str(element);
        out.push('>');
    }
}

fn push_byte(out: &mut String, page: Page, byte: u8, is_marked: bool) {
    match seen(page, byte) {
        Some(' ') if is_marked => out.push(SPACE),
        Some(character) => {
            html_escape::encode_safe_to_string(character.encode_utf8(&mut [0; 4]), out);
        }
        None => out.push_str(&format!("<abbr title=\"hex {byte:02X}\">{}</abbr>", char::REPLACEMENT_CHARACTER)),
    }
}

/// In words which bytes of a stretch are not seen, from its first column on; empty where all are.
pub fn unseen(words: &Words, page: Page, bytes: &[u8], first: u64) -> String {
    let unseen = (first..).zip(bytes).filter(|(_, &byte)| seen(page, byte).is_none());
    let told = unseen.map(|(column, byte)| fill(words.hex_in_column, &[&format!("{byte:02X}"), &column]));
    told.collect::<Vec<_>>().join(", ")
}

/// The bytes without the spaces behind them.
pub fn trimmed(bytes: &[u8]) -> &[u8] {
    let end = bytes.iter().rposition(|&byte| byte != b' ').map_or(0, |last| last + 1);
    &bytes[..end]
}

#[cfg(test)]
mod tests {
    use super::*;
    use crate::cli::Lang;
    use crate::html::words::words;
    use std::os::unix::ffi::OsStrExt;

    const ISO: Page = Page::Iso8859_1;

    #[test]
    fn bytes_stay_text() {
        assert_eq!(text(ISO, b"<b a=\"'&/>"), "&lt;b a=&quot;&#x27;&amp;&#x2F;&gt;");
        assert_eq!(
            text(ISO, b"\xDC \x1B\xAD"),
            "Ü <abbr title=\"hex 1B\">\u{FFFD}</abbr><abbr title=\"hex AD\">\u{FFFD}</abbr>"
        );
        assert_eq!(text(Page::Din66003, b"[@"), "Ä§");
    }

    #[test]
    fn every_byte_is_seen_or_told() {
        for page in [Page::Din66003, ISO] {
            for byte in 0..=255 {
                let shown = text(page, &[byte]);
                assert!(
                    !shown.contains(|character: char| character.is_control() || character == '\u{A0}'),
                    "{byte:02X}"
                );
                assert_eq!(
                    shown.contains("<abbr"),
                    !unseen(words(Lang::En), page, &[byte], 1).is_empty(),
                    "{byte:02X}"
                );
            }
        }
        assert_eq!(unseen(words(Lang::En), ISO, b"A\x1B\xA0", 24), "hex 1B in column 25, hex A0 in column 26");
    }

    #[test]
    fn marks_are_whole() {
        let middle = |place| (1..=3).contains(&place);
        assert_eq!(marked(ISO, b"a<& b", "mark", middle), "a<mark>&lt;&amp;␣</mark>b");
        assert_eq!(marked(ISO, b"cd", "ins", |place| place == 1), "c<ins>d</ins>");
    }

    #[test]
    fn names() {
        let hostile = OsStr::from_bytes(b"\"><script>\n\xFF\xE2\x80\xAE.dtazv");
        assert_eq!(name(hostile), "<bdi>&quot;&gt;&lt;script&gt;\u{FFFD}\u{FFFD}\u{FFFD}.dtazv</bdi>");
    }
}
