//! Where the walk over the records stopped: what it found there, and the bytes around it.

use super::bytes::{marked, text};
use super::numbers::grouped;
use super::parts::{scrolling, table};
use super::words::{fill, Words};
use super::Report;
use crate::common::{Q, T, Z};
use crate::records;
use desk::{Refusal, MOST_BYTES};
use std::ops::Range;

/// The bytes in a row, and how many rows there are at most before and from the place on.
const ROW: usize = 16;
const ROWS_BEFORE: usize = 2;
const ROWS_BEHIND: usize = 4;

impl Report<'_> {
    /// What is wrong with the records, in words and with the bytes (rules 1 to 5).
    pub fn where_stopped(&self, refusal: Refusal) -> String {
        let words = self.words;
        let code = |bytes: &[u8]| format!("<code>{}</code>", text(self.way.page, bytes));
        let mut told = format!("<p>{}</p>\n", what_is_wrong(words, self.file, refusal, code));
        let at = blamed(self.file, refusal);
        let first = (at.start / ROW).saturating_sub(ROWS_BEFORE) * ROW;
        let last = self.file.len().min((at.start / ROW + ROWS_BEHIND) * ROW);
        let shown = &self.file[first.min(last)..last];
        if shown.contains(&b'\n') || shown.contains(&b'\r') {
            told += &format!("<p>{}</p>\n", words.line_end);
        }
        if shown.is_empty() {
            return told;
        }
        let rows = (first..last).step_by(ROW).map(|begin| self.hex_row(begin..last.min(begin + ROW), &at));
        let caption = fill(words.stretch, &[&grouped(words, first as u64), &grouped(words, last as u64 - 1)]);
        let table = table("dump", &caption, &[words.first_byte, words.hex, words.text], &rows.collect::<String>());
        let is_end = last == self.file.len() && refusal.number != 1;
        let end = if is_end { format!("<p>{}</p>\n", words.end_of_file) } else { String::new() };
        told + &scrolling(&caption, &table) + &end
    }

    /// A row of bytes: the place of its first one, in hex, and as text.
    fn hex_row(&self, place: Range<usize>, blamed: &Range<usize>) -> String {
        let bytes = &self.file[place.clone()];
        let is_marked = |at: usize| blamed.contains(&(place.start + at));
        let hex: Vec<String> = bytes
            .iter()
            .enumerate()
            .map(|(at, byte)| match is_marked(at) {
                true => format!("<mark>{byte:02X}</mark>"),
                false => format!("{byte:02X}"),
            })
            .collect();
        let text = marked(self.way.page, bytes, "mark", is_marked);
        let (first, hex) = (grouped(self.words, place.start as u64), hex.join(" "));
        format!(
            "<tr><th scope=\"row\">{first}</th><td><pre>{hex}</pre></td><td><pre><code>{text}</code></pre></td></tr>\n"
        )
    }
}

/// What is wrong with the records, in words; some bytes are quoted in it.
pub fn what_is_wrong(words: &Words, file: &[u8], refusal: Refusal, quoted: impl Fn(&[u8]) -> String) -> String {
    let Refusal { number, record, .. } = refusal;
    let begin = records::begin(record);
    let left = file.len().saturating_sub(begin);
    let letter = file.get(begin + 4).copied().unwrap_or_default();
    let place = grouped(words, begin as u64);
    let in_bytes = |count: usize| fill(words.bytes.of(count), &[&grouped(words, count as u64)]);
    match number {
        1 => words.too_long.into(),
        2 if file.is_empty() => words.empty.into(),
        2 if left < 5 => fill(words.no_record, &[&record, &place, &in_bytes(left)]),
        2 => fill(words.cut_record, &[&record, &place, &quoted(&[letter]), &length(letter), &left]),
        3 => fill(words.wrong_length, &[&record, &place, &quoted(&[letter]), &quoted(&digits(letter))]),
        4 => fill(words.wrong_letter, &[&record, &place, &allowed(words, record)]),
        _ => {
            let behind = begin + Z;
            fill(words.after_z, &[&grouped(words, behind as u64), &in_bytes(file.len() - behind)])
        }
    }
}

/// The letters that are allowed at a record.
fn allowed(words: &Words, record: u64) -> &'static str {
    match record {
        0 => "Q",
        1 => "T",
        _ => words.t_or_z,
    }
}

/// The bytes that are to blame: the length digits, the letter, or what is too much; behind the last byte where some are missing.
pub fn blamed(file: &[u8], refusal: Refusal) -> Range<usize> {
    let begin = records::begin(refusal.record);
    match refusal.number {
        1 => MOST_BYTES as usize..file.len(),
        3 => begin..begin + 4,
        4 => begin + 4..begin + 5,
        5 => begin + Z..file.len(),
        _ => file.len()..file.len(),
    }
}

/// The bytes of a record with that letter, and the digits with which it has to begin.
fn length(letter: u8) -> usize {
    match letter {
        b'T' => T,
        _ => Q,
    }
}

fn digits(letter: u8) -> Vec<u8> {
    format!("{:04}", length(letter)).into_bytes()
}
