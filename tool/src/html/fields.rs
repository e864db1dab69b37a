//! Fields of a record: what is changed in them, and what is wrong in them.

use super::bytes::{marked, text, trimmed, unseen};
use super::terms::label;
use super::words::{fill, Words};
use super::Report;
use crate::faults::Fault;
use crate::records::{lines, range, LINE};
use crate::table::{is_text, read_as};
use desk::Columns;

/// A text field in which characters are changed: its bytes in both files.
pub struct Changed<'a> {
    pub columns: Columns,
    pub before: &'a [u8],
    pub after: &'a [u8],
}

/// A line of a field: what it is called, and its text as HTML.
type Row = (String, String);

/// The text fields of a record of kind Q or T.
pub fn text_fields(kind: char) -> Vec<Columns> {
    desk::fields(kind).filter(|columns| is_text(columns.field)).collect()
}

/// Those in which characters are changed, of a record as it was and as it goes on.
pub fn changed<'a>(fields: &[Columns], before: &'a [u8], after: &'a [u8]) -> Vec<Changed<'a>> {
    let both = |&columns: &Columns| Changed { columns, before: &before[range(columns)], after: &after[range(columns)] };
    fields.iter().map(both).filter(|field| field.before != field.after).collect()
}

/// `columns 211 to 245`, or `column 178`.
pub fn columns_in_words(words: &Words, columns: Columns) -> String {
    let Columns { first, last, .. } = columns;
    match first == last {
        true => fill(words.column, &[&first]),
        false => fill(words.columns, &[&first, &last]),
    }
}

impl Report<'_> {
    /// A field with its changes: a line with a change twice, before and after; another once, if it is not blank.
    pub fn changed_field(&self, field: &Changed) -> String {
        let mut rows = Vec::new();
        for line in lines(field.columns) {
            let part = range(line).start - range(field.columns).start..range(line).end - range(field.columns).start;
            let before = trimmed(&field.before[part.clone()]);
            let after = &field.after[part][..before.len()];
            let named = |what| self.line_name(field.columns, line, what);
            let is_changed = |place: usize| before[place] != after[place];
            if before != after {
                rows.push((named(self.words.before), marked(self.way.page, before, "del", is_changed)));
                rows.push((named(self.words.after), marked(self.way.page, after, "ins", is_changed)));
            } else if !before.is_empty() {
                rows.push((named(""), text(self.way.page, before)));
            }
        }
        self.field(field.columns, field.before, &rows)
    }

    /// A field that breaks a rule, with what is wrong marked, and how it is read where that differs.
    pub fn faulty_field(&self, fault: &Fault) -> String {
        let mut rows = Vec::new();
        for line in lines(fault.columns) {
            let bytes = &fault.record.bytes[range(line)];
            let named = |what| self.line_name(fault.columns, line, what);
            let is_marked = |place: usize| fault.marked.contains(&(line.first + place as u64));
            rows.push((named(""), marked(self.way.page, bytes, "mark", is_marked)));
            if let Some(read) = read_as(self.table, line.field, bytes) {
                rows.push((named(self.words.read_as), text(self.way.page, &read)));
            }
        }
        self.field(fault.columns, &fault.record.bytes[range(fault.columns)], &rows)
    }

    /// A field's name and columns, its lines, and in words those of its bytes that are not seen.
    fn field(&self, columns: Columns, bytes: &[u8], rows: &[Row]) -> String {
        let (name, label) = (columns.field, label(self.words.lang, columns.field));
        let place = columns_in_words(self.words, columns);
        let (lines, unseen) = (preformatted(rows), self.unseen(bytes, columns.first));
        format!("<p class=\"field\"><b>{name}</b> {label}, {place}</p>{lines}{unseen}")
    }

    /// In words which bytes of a field are not seen, where there are such.
    pub fn unseen(&self, bytes: &[u8], first: u64) -> String {
        match unseen(self.words, self.way.page, bytes, first) {
            unseen if unseen.is_empty() => unseen,
            unseen => format!("<p class=\"hex\">{unseen}</p>"),
        }
    }

    /// `line 1 before`; a field of one line has no number.
    fn line_name(&self, field: Columns, line: Columns, what: &str) -> String {
        let number = (line.first - field.first) / LINE as u64 + 1;
        let name = if range(field).len() <= LINE { String::new() } else { fill(self.words.line, &[&number]) };
        format!("{name} {what}").trim().into()
    }
}

/// Lines one below the other, with their names in front.
fn preformatted(rows: &[Row]) -> String {
    let width = rows.iter().map(|(name, _)| name.chars().count() + 1).max().filter(|&width| width > 1).unwrap_or(0);
    let rows: Vec<String> = rows.iter().map(|(name, text)| format!("{name:width$}<code>{text}</code>")).collect();
    format!("<pre>{}</pre>", rows.join("\n"))
}
