//! Why nothing goes on: the rule, and the record with the fault, field by field.

use super::bytes::{marked, text};
use super::fields::columns_in_words;
use super::numbers::grouped;
use super::parts::{facts, note, rule_name, rule_words, scrolling, table, Section};
use super::terms::label;
use super::words::fill;
use super::Report;
use crate::examine::NotSent;
use crate::faults::{self, Fault};
use crate::records::{lines, range, Record};
use crate::table::read_as;
use desk::{Columns, Refusal};

impl Report<'_> {
    /// The rule for which the file is refused; and where the judge finds another one first, that too.
    pub fn why_refused(&self, not_sent: &NotSent) -> Vec<Section> {
        let words = self.words;
        let why = Section { id: "why", title: words.why_refused.into(), body: self.refusal(not_sent.refusal) };
        let first = not_sent.first_broken.filter(|_| not_sent.all_back.is_none()).map(|first| {
            let body = format!("<p>{}</p>\n{}", words.about_judge, self.refusal(first));
            Section { id: "first", title: words.judge_first.into(), body }
        });
        [Some(why), first].into_iter().flatten().collect()
    }

    /// A refusal with its facts, and the record or the bytes that are to blame.
    fn refusal(&self, refusal: Refusal) -> String {
        let fault = faults::judged(self.way, self.file, refusal);
        let facts = self.refusal_facts(refusal, fault.as_ref());
        match fault {
            Some(fault) => facts + &self.record(&fault),
            None if refusal.number <= 5 => facts + &self.where_stopped(refusal),
            None => facts,
        }
    }

    fn refusal_facts(&self, refusal: Refusal, fault: Option<&Fault>) -> String {
        let words = self.words;
        let name = rule_name(words, refusal);
        let mut known = vec![(&name[..], rule_words(words, refusal))];
        let due_in;
        if let Some(fault) = fault {
            let Columns { field, .. } = fault.columns;
            known.push((words.record, fill(words.record_of, &[&fault.record.number, &fault.record.kind])));
            known.push((words.field, format!("<b>{field}</b> {}", label(words.lang, field))));
            known.push((words.place, self.columns_alone(fault.columns)));
            known.push((words.marked, self.ranges(&fault.marked)));
            due_in = fill(words.due, &[&field]);
            known.extend(fault.due.map(|due| (&due_in[..], self.due(due))));
        } else if refusal.number <= 5 {
            known.push((words.record, refusal.record.to_string()));
        }
        facts(&known)
    }

    /// The number that is due in Z, as it is written there, and for people.
    fn due(&self, due: u64) -> String {
        format!("<code>{due:015}</code> ({})", grouped(self.words, due))
    }

    /// Columns in words, those that follow one another together.
    fn ranges(&self, columns: &[u64]) -> String {
        let mut ranges: Vec<Columns> = Vec::new();
        for &column in columns {
            match ranges.last_mut() {
                Some(range) if range.last + 1 == column => range.last = column,
                _ => ranges.push(Columns { field: "", first: column, last: column }),
            }
        }
        ranges.into_iter().map(|range| columns_in_words(self.words, range)).collect::<Vec<_>>().join(", ")
    }

    /// All fields of a record, with the fault marked.
    fn record(&self, fault: &Fault) -> String {
        let words = self.words;
        let Record { number, kind, .. } = fault.record;
        let front = [("1", words.record_length, 1, 4), ("2", words.record_kind, 5, 5)];
        let front = front.map(|(number, label, first, last)| {
            self.record_row(&format!("{kind}{number}"), label, Columns { field: "", first, last }, fault)
        });
        let fields = desk::fields(kind)
            .map(|columns| self.record_row(columns.field, label(words.lang, columns.field), columns, fault));
        let rows: String = front.into_iter().chain(fields).collect();
        let title = fill(words.record_fields, &[&number, &kind]);
        let table = table("record", &title, &[words.field, words.meaning, words.place, words.content], &rows);
        format!("<h3>{title}</h3>\n")
            + &note(words.about_record)
            + &note(words.about_marks)
            + &scrolling(&title, &table)
    }

    fn record_row(&self, name: &str, label: &str, columns: Columns, fault: &Fault) -> String {
        let is_fault = columns == fault.columns;
        let class = if is_fault { " class=\"fault\"" } else { "" };
        let breaks = fill(self.words.breaks, &[&fault.refusal.number]);
        let badge = if is_fault { format!("<p class=\"badge\">{breaks}</p>") } else { String::new() };
        let place = self.columns_alone(columns);
        let content = self.content(columns, fault.record.bytes, if is_fault { &fault.marked } else { &[] });
        format!(
            "<tr{class}><th scope=\"row\">{name}</th><td>{label}</td><td>{place}</td><td>{badge}{content}</td></tr>\n"
        )
    }

    fn columns_alone(&self, columns: Columns) -> String {
        let Columns { first, last, .. } = columns;
        if first == last {
            first.to_string()
        } else {
            fill(self.words.to, &[&first, &last])
        }
    }

    /// What stands in a field, line by line; where that is nothing, how many spaces.
    fn content(&self, columns: Columns, record: &[u8], marks: &[u64]) -> String {
        let bytes = &record[range(columns)];
        if marks.is_empty() && bytes.iter().all(|&byte| byte == b' ') {
            return format!("<i>{}</i>", fill(self.words.spaces.of(bytes.len()), &[&bytes.len()]));
        }
        let page = self.way.page;
        let mut out = String::new();
        for line in lines(columns) {
            let bytes = &record[range(line)];
            let is_marked = |place: usize| marks.contains(&(line.first + place as u64));
            out += &format!("<pre><code>{}</code></pre>", marked(page, bytes, "mark", is_marked));
            if let Some(read) = read_as(self.table, line.field, bytes) {
                out += &format!("<pre>{} <code>{}</code></pre>", self.words.read_as, text(page, &read));
            }
        }
        out + &self.unseen(bytes, columns.first)
    }
}
