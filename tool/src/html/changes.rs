//! Which characters are changed into what, and how often; and what is changed in Q.

use super::bytes::{safe, seen};
use super::fields::{changed, text_fields};
use super::numbers::grouped;
use super::parts::{note, scrolling, table, Section};
use super::words::fill;
use super::Report;
use crate::examine::Sent;
use desk::{Note, Page};

impl Report<'_> {
    pub fn changes(&self, sent: &Sent) -> Section {
        let words = self.words;
        let mut body = format!("<p>{}</p>\n", self.changes_in_words(sent));
        if sent.figures.notes > 0 {
            let heads = [words.character, words.hex, words.becomes, words.times];
            let table = table("changes", words.changed_characters, &heads, &self.distinct_changes(sent));
            body += &scrolling(words.changed_characters, &table);
            body += &note(words.about_changes);
        }
        let in_q = changed(&text_fields('Q'), &sent.original, &sent.forwarded);
        if !in_q.is_empty() {
            body += &format!("<h3>{}</h3>\n", words.in_header);
            body.extend(in_q.iter().map(|field| self.changed_field(field)));
        }
        Section { id: "changes", title: words.what_changes.into(), body }
    }

    pub fn changes_in_words(&self, sent: &Sent) -> String {
        match sent.figures.notes {
            0 => self.words.no_changes.into(),
            count => fill(self.words.changes.of(count), &[&grouped(self.words, count as u64)]),
        }
    }

    fn distinct_changes(&self, sent: &Sent) -> String {
        let mut counts = [0; 256];
        sent.notes.iter().for_each(|&note| counts[usize::from(Note::from(note).original)] += 1);
        let row = |(byte, count): (u8, u64)| {
            let [character, becomes] = [byte, self.table[usize::from(byte)]].map(|byte| self.character(byte));
            let times = grouped(self.words, count);
            format!(
                "<tr><th scope=\"row\">{character}</th><td>{byte:02X}</td><td>{becomes}</td><td>{times}</td></tr>\n"
            )
        };
        (0..=255).zip(counts).filter(|&(_, count)| count > 0).map(row).collect()
    }

    /// A character alone; one that is not seen in words.
    fn character(&self, byte: u8) -> String {
        let words = self.words;
        let in_words = match (self.way.page, byte) {
            (_, b' ') => words.space,
            (Page::Din66003, 0x80..) => words.no_character,
            (Page::Iso8859_1, 0xA0) => words.hard_space,
            (Page::Iso8859_1, 0xAD) => words.soft_hyphen,
            _ => words.control,
        };
        match seen(self.way.page, byte).filter(|&character| character != ' ') {
            Some(character) => format!("<code>{}</code>", safe(&character.to_string())),
            None => in_words.into(),
        }
    }
}
