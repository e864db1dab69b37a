//! The notes file: the notes of a forwarded file, with all that restore needs, and sums by which it is noticed where a note, a
//! list or a file is not the one that it was. docs/NOTES-FILE.md has the layout.

use crate::sums::{sum, Sum};
use desk::{Note, Page};
use std::fmt;

/// A file's length and its sum.
#[derive(Clone, Copy, PartialEq, Eq)]
pub struct Known {
    pub bytes: usize,
    pub sum: Sum,
}

/// What a notes file holds.
#[derive(PartialEq, Eq)]
pub struct NotesFile {
    pub page: Page,
    /// Of the transfer list and of the cheque list.
    pub lists: [Sum; 2],
    pub submitted: Known,
    /// How many payments came back.
    pub returned: usize,
    /// The file that went on, as it was written.
    pub original: Known,
    pub forwarded: Known,
    pub notes: Vec<u32>,
}

/// Why a text is no notes file: the line at which it shows, and what is wrong there.
#[derive(Debug, PartialEq, Eq)]
pub struct Flaw {
    pub line: usize,
    pub why: String,
}

const NAME: &str = "KAARAVIZHE NOTES ";
const VERSION: &str = "1";

/// More than the longest notes file has: each of at most 553 text characters in 9,999 payments, and 140 in Q5, has a line of 11
/// bytes.
pub const MOST_NOTES_BYTES: u64 = 1000 + 11 * (140 + 553 * 9_999);

impl Known {
    pub fn of(bytes: &[u8]) -> Known {
        Known { bytes: bytes.len(), sum: sum(bytes) }
    }
}

impl NotesFile {
    /// The notes file as text. Each has one form.
    pub fn to_text(&self) -> Vec<u8> {
        let [transfer, cheque] = self.lists;
        let mut text = format!("{NAME}{VERSION}\nPAGE {}\n", self.page as u32);
        text += &format!("TRANSFER-LIST {transfer}\nCHEQUE-LIST {cheque}\n");
        text += &format!("SUBMITTED {}\nRETURNED {:04}\n", self.submitted, self.returned);
        text += &format!("ORIGINAL {}\nFORWARDED {}\n", self.original, self.forwarded);
        text += &format!("NOTES {:07}\n", self.notes.len());
        for Note { place, original } in self.notes.iter().copied().map(Note::from) {
            text += &format!("{place:07} {original:02X}\n");
        }
        text += &format!("SHA-256 {}\n", sum(text.as_bytes()));
        text.into_bytes()
    }

    /// The notes file of which this is the text. Everything that `to_text` never gives is refused.
    pub fn from_text(text: &[u8]) -> Result<NotesFile, Flaw> {
        let mut lines = Lines { rest: text, number: 0 };
        lines.name()?;
        let page = lines.next("PAGE ", "0 or 1", |word| match word {
            b"0" => Some(Page::Din66003),
            b"1" => Some(Page::Iso8859_1),
            _ => None,
        })?;
        let transfer = lines.next("TRANSFER-LIST ", SUM_DUE, Sum::of_digits)?;
        let cheque = lines.next("CHEQUE-LIST ", SUM_DUE, Sum::of_digits)?;
        let submitted = lines.next("SUBMITTED ", KNOWN_DUE, known)?;
        let returned = lines.next("RETURNED ", "4 digits", |word| digits(word, 4))?;
        let original = lines.next("ORIGINAL ", KNOWN_DUE, known)?;
        let forwarded = lines.next("FORWARDED ", KNOWN_DUE, known)?;
        let count = lines.next("NOTES ", "7 digits", |word| digits(word, 7))?;
        let notes = lines.notes(count)?;
        let before = text.len() - lines.rest.len();
        let stored = lines.next("SHA-256 ", SUM_DUE, Sum::of_digits)?;
        match lines.rest {
            [] if stored == sum(&text[..before]) => {
                Ok(NotesFile { page, lists: [transfer, cheque], submitted, returned, original, forwarded, notes })
            }
            [] => Err(lines.flaw("the lines before it were changed: they have another SHA-256")),
            _ => Err(Flaw { line: lines.number + 1, why: "something stands behind the end of the notes".into() }),
        }
    }
}

const SUM_DUE: &str = "64 hex digits (0 to 9, a to f)";
const KNOWN_DUE: &str = "7 digits, a space and 64 hex digits (0 to 9, a to f)";

/// Bytes and sum of a file.
fn known(word: &[u8]) -> Option<Known> {
    let (bytes, sum) = (word.get(..7)?, word.get(7..)?.strip_prefix(b" ")?);
    Some(Known { bytes: digits(bytes, 7)?, sum: Sum::of_digits(sum)? })
}

/// So many digits as a number.
fn digits(word: &[u8], count: usize) -> Option<usize> {
    let is_number = word.len() == count && word.iter().all(u8::is_ascii_digit);
    std::str::from_utf8(word).ok().filter(|_| is_number)?.parse().ok()
}

/// A note: 7 digits of its place, a space, and two hex digits of its byte.
fn note(line: &[u8]) -> Option<u32> {
    let (place, byte) = (digits(line.get(..7)?, 7)?, line.get(7..)?.strip_prefix(b" ")?);
    let is_hex = byte.len() == 2 && byte.iter().all(|digit| matches!(digit, b'0'..=b'9' | b'A'..=b'F'));
    let byte = std::str::from_utf8(byte).ok().filter(|_| is_hex)?;
    Some(place as u32 * 256 + u32::from_str_radix(byte, 16).ok()?)
}

/// What is not yet read of a text, and the number of the line that was read last.
struct Lines<'a> {
    rest: &'a [u8],
    number: usize,
}

impl<'a> Lines<'a> {
    fn flaw(&self, why: impl Into<String>) -> Flaw {
        Flaw { line: self.number, why: why.into() }
    }

    /// The next line, without its end.
    fn line(&mut self) -> Result<&'a [u8], Flaw> {
        self.number += 1;
        let end = self.rest.iter().position(|&byte| byte == b'\n');
        let end = end.ok_or_else(|| self.flaw("the notes are cut short here"))?;
        let line = &self.rest[..end];
        self.rest = &self.rest[end + 1..];
        Ok(line)
    }

    /// Reads the first line, which names the version.
    fn name(&mut self) -> Result<(), Flaw> {
        if !self.rest.starts_with(NAME.as_bytes()) {
            return Err(Flaw { line: 1, why: "this is no notes file of the desk".into() });
        }
        match self.line()?.strip_prefix(NAME.as_bytes()) {
            Some(version) if version == VERSION.as_bytes() => Ok(()),
            Some(version) if !version.is_empty() && version.iter().all(u8::is_ascii_digit) => {
                Err(self.flaw(format!("another version of the layout; this desk reads version {VERSION}")))
            }
            _ => Err(self.flaw(format!("malformed; due is {NAME}{VERSION} and a line end (LF)"))),
        }
    }

    /// Reads a line that begins with this word.
    fn next<T>(&mut self, word: &str, due: &str, value: impl FnOnce(&[u8]) -> Option<T>) -> Result<T, Flaw> {
        let line = self.line()?;
        let value = line.strip_prefix(word.as_bytes()).and_then(value);
        value.ok_or_else(|| self.flaw(format!("malformed; due is {word}and then {due} and a line end (LF)")))
    }

    /// Reads as many notes as there have to be.
    fn notes(&mut self, count: usize) -> Result<Vec<u32>, Flaw> {
        let mut notes = Vec::new();
        while notes.len() < count {
            let line = self.line()?;
            match note(line) {
                Some(note) => notes.push(note),
                None if line.starts_with(b"SHA-256 ") => {
                    return Err(self.flaw(format!("notes are missing: {count} are due, and {} are there", notes.len())))
                }
                None => {
                    return Err(
                        self.flaw("malformed; due is a note: 7 digits, a space, 2 hex digits and a line end (LF)")
                    )
                }
            }
        }
        match self.rest.split(|&byte| byte == b'\n').next().and_then(note) {
            Some(_) => Err(Flaw { line: self.number + 1, why: format!("a note too many: {count} are due") }),
            None => Ok(notes),
        }
    }
}

/// `0002816 <sum>`.
impl fmt::Display for Known {
    fn fmt(&self, f: &mut fmt::Formatter) -> fmt::Result {
        write!(f, "{:07} {}", self.bytes, self.sum)
    }
}

/// `line 3: the notes are cut short here`.
impl fmt::Display for Flaw {
    fn fmt(&self, f: &mut fmt::Formatter) -> fmt::Result {
        write!(f, "line {}: {}", self.line, self.why)
    }
}

#[cfg(test)]
mod tests {
    use super::*;

    /// The example of docs/NOTES-FILE.md.
    const EXAMPLE: &str = "\
KAARAVIZHE NOTES 1
PAGE 1
TRANSFER-LIST 09013428cdb2ab673dd7bfb0af825251ad3af0ab4d3a3c80e941fb8d596c40f7
CHEQUE-LIST 0e8c185f25f0cc6f30bc5357eed6c43458f1c573c9273d73b6ad494777a7bb72
SUBMITTED 0002816 0507ff6b4158547305a56a30244576bbde7de6f6e1b89b6de9c488308c5c1512
RETURNED 0000
ORIGINAL 0002816 0507ff6b4158547305a56a30244576bbde7de6f6e1b89b6de9c488308c5c1512
FORWARDED 0002816 4edba82a2ad5f47601ff4f342493ae4f90e325abcb288a1e291df127c71c4d10
NOTES 0000003
0000040 DC
0001235 26
0002003 D6
SHA-256 c97df4d9a9ebd9dc29639db21b42707391fd13d33cd71acbad1bd61fc919b2bc
";

    /// The example with a line changed, and the last line's sum made right.
    fn with(line: usize, text: &str) -> Vec<u8> {
        let mut lines: Vec<&str> = EXAMPLE.lines().collect();
        lines[line - 1] = text;
        let front: String = lines[..12].iter().map(|line| format!("{line}\n")).collect();
        format!("{front}SHA-256 {}\n", sum(front.as_bytes())).into_bytes()
    }

    fn flaw(text: &[u8]) -> String {
        NotesFile::from_text(text).err().map_or("none".into(), |flaw| flaw.to_string())
    }

    #[test]
    fn example_stands_in_the_paper() {
        let paper: String = include_str!("../../docs/NOTES-FILE.md")
            .lines()
            .filter_map(|line| line.strip_prefix("    "))
            .fold(String::new(), |text, line| text + line + "\n");
        assert_eq!(paper, EXAMPLE);
    }

    #[test]
    fn there_and_back() {
        let read = NotesFile::from_text(EXAMPLE.as_bytes()).ok().unwrap();
        assert_eq!(read.notes, [40 * 256 + 0xDC, 1235 * 256 + 0x26, 2003 * 256 + 0xD6]);
        assert_eq!((read.page, read.returned, read.forwarded.bytes), (Page::Iso8859_1, 0, 2816));
        assert_eq!(read.to_text(), EXAMPLE.as_bytes());
    }

    /// Every byte counts: with another one in its place, or without it, the text is refused.
    #[test]
    fn every_byte_counts() {
        let text = EXAMPLE.as_bytes();
        for place in 0..text.len() {
            let mut other = text.to_vec();
            other[place] ^= 1;
            assert_ne!(flaw(&other), "none", "another byte at {place}");
            other.remove(place);
            assert_ne!(flaw(&other), "none", "no byte at {place}");
            assert_ne!(flaw(&text[..place]), "none", "cut at {place}");
        }
    }

    #[test]
    fn flaws_in_words() {
        let due = "malformed; due is";
        assert_eq!(flaw(b""), "line 1: this is no notes file of the desk");
        assert_eq!(flaw(b"KAARAVIZHE BOOK 2\n"), "line 1: this is no notes file of the desk");
        assert_eq!(flaw(b"KAARAVIZHE NOTES 2\n"), "line 1: another version of the layout; this desk reads version 1");
        assert_eq!(flaw(b"KAARAVIZHE NOTES 1\r\n"), format!("line 1: {due} KAARAVIZHE NOTES 1 and a line end (LF)"));
        assert_eq!(flaw(b"KAARAVIZHE NOTES 1\nPAGE"), "line 2: the notes are cut short here");
        assert_eq!(flaw(&with(2, "PAGE 2")), format!("line 2: {due} PAGE and then 0 or 1 and a line end (LF)"));
        assert_eq!(
            flaw(&with(6, "RETURNED 00000")),
            format!("line 6: {due} RETURNED and then 4 digits and a line end (LF)")
        );
        assert_eq!(flaw(&with(9, "NOTES 0000004")), "line 13: notes are missing: 4 are due, and 3 are there");
        assert_eq!(flaw(&with(9, "NOTES 0000002")), "line 12: a note too many: 2 are due");
        assert_eq!(
            flaw(&with(11, "0001235 2a")),
            format!("line 11: {due} a note: 7 digits, a space, 2 hex digits and a line end (LF)")
        );
        assert_eq!(flaw(&with(11, "0001235 2A")), "none");
        let changed = EXAMPLE.replace("0001235 26", "0001235 2A");
        assert_eq!(flaw(changed.as_bytes()), "line 13: the lines before it were changed: they have another SHA-256");
        let behind = [EXAMPLE.as_bytes(), b"\n"].concat();
        assert_eq!(flaw(&behind), "line 14: something stands behind the end of the notes");
    }
}
