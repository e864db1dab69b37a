//! How hosts tell the bytes of a file: text as a code page reads it, numbers, and a payment's amount.

use super::desk::Page;
use std::ops::Range;

/// Where fields stand in a T record. The country is T10a: two letters and a space. The payee is the first line of T10b, and
/// the kind, transfer or cheque, is T22.
pub const COUNTRY: Range<usize> = 207..210;
pub const COUNTRY_LETTERS: Range<usize> = 207..209;
pub const PAYEE: Range<usize> = 210..245;
pub const T14A: Range<usize> = 458..472;
pub const T14B: Range<usize> = 472..475;
pub const KIND: Range<usize> = 650..652;

/// A text as the page reads it, without the spaces behind it.
pub fn text(page: Page, bytes: &[u8]) -> String {
    whole_text(page, bytes).trim_end_matches(' ').into()
}

/// A text as the page reads it, a character for each byte.
pub fn whole_text(page: Page, bytes: &[u8]) -> String {
    bytes.iter().map(|&byte| character(page, byte)).collect()
}

/// A character as the page reads it; U+FFFD where there is none, and in the place of one that a terminal would obey.
pub fn character(page: Page, byte: u8) -> char {
    let character = match (page, byte) {
        (Page::Iso8859_1, _) => byte.into(),
        (Page::Din66003, b'@') => '§',
        (Page::Din66003, b'[') => 'Ä',
        (Page::Din66003, b'\\') => 'Ö',
        (Page::Din66003, b']') => 'Ü',
        (Page::Din66003, b'{') => 'ä',
        (Page::Din66003, b'|') => 'ö',
        (Page::Din66003, b'}') => 'ü',
        (Page::Din66003, b'~') => 'ß',
        (Page::Din66003, 0x80..) => char::REPLACEMENT_CHARACTER,
        (Page::Din66003, _) => byte.into(),
    };
    match character.is_control() {
        true => char::REPLACEMENT_CHARACTER,
        false => character,
    }
}

/// A payment's amount, with the third digit behind the comma where it is not 0.
pub fn amount(payment: &[u8]) -> String {
    let (euros, thousandths) = (number(&payment[T14A]), number(&payment[T14B]));
    match thousandths % 10 {
        0 => format!("{euros},{:02}", thousandths / 10),
        _ => format!("{euros},{thousandths:03}"),
    }
}

/// Digits as a number. Where it is asked for, the desk has found digits.
pub fn number(digits: &[u8]) -> u64 {
    digits.iter().fold(0, |number, digit| number * 10 + u64::from(digit - b'0'))
}
