//! Numbers and dates as people of a language write them.

use super::words::Words;
use crate::text::{number, T14A, T14B};

/// A number with its digits in groups of three.
pub fn grouped(words: &Words, number: u64) -> String {
    let digits = number.to_string();
    let mut text = String::new();
    for (place, digit) in digits.chars().enumerate() {
        if place > 0 && (digits.len() - place) % 3 == 0 {
            text.push(words.group);
        }
        text.push(digit);
    }
    text
}

/// An amount of so many thousandths of a euro, with a third digit behind the comma where it is not 0.
pub fn amount(words: &Words, thousandths: u64) -> String {
    let (euros, rest, decimal) = (grouped(words, thousandths / 1000), thousandths % 1000, words.decimal);
    match rest % 10 {
        0 => format!("{euros}{decimal}{:02}", rest / 10),
        _ => format!("{euros}{decimal}{rest:03}"),
    }
}

/// A payment's amount in thousandths of a euro. Where it is asked for, the desk has found digits.
pub fn thousandths(payment: &[u8]) -> u64 {
    number(&payment[T14A]) * 1000 + number(&payment[T14B])
}

/// A date YYMMDD in words; where it is asked for, rule 13 is kept.
pub fn date(words: &Words, digits: &[u8]) -> String {
    let [year, month, day] = [0, 2, 4].map(|place| number(&digits[place..place + 2]));
    format!("{day}{} {} {}", words.day_end, words.months[month as usize - 1], 2000 + year)
}

#[cfg(test)]
mod tests {
    use super::*;
    use crate::cli::Lang;
    use crate::html::words::words;

    #[test]
    fn both_languages() {
        let [en, de] = [Lang::En, Lang::De].map(words);
        assert_eq!(
            [0, 999, 1000, 999_999_999_999_999].map(|n| grouped(en, n)),
            ["0", "999", "1,000", "999,999,999,999,999"]
        );
        assert_eq!(grouped(de, 7_679_744), "7.679.744");
        assert_eq!((amount(en, 1_200_250), amount(de, 1_200_250)), ("1,200.25".into(), "1.200,25".into()));
        assert_eq!((amount(en, 10), amount(de, 79_755)), ("0.01".into(), "79,755".into()));
        assert_eq!((date(en, b"261106"), date(de, b"000301")), ("6 November 2026".into(), "1. März 2000".into()));
    }
}
