//! The payments: those that come back, with the reason, and those that go on, with what is changed in them.

use super::bytes::{text, trimmed};
use super::fields::{changed, text_fields};
use super::numbers::{amount, thousandths};
use super::parts::{note, rule_name, rule_words, scrolling, table, Section};
use super::terms::meaning;
use super::words::fill;
use super::Report;
use crate::common::{Q, T};
use crate::examine::Sent;
use crate::tell::ComesBack;
use crate::text::{COUNTRY, PAYEE};

/// So many payments are in one table. Of many tables those that are not on the screen are not laid out (the class many), so
/// that the longest file opens at once.
const HUNDRED: usize = 100;

/// A payment's row in a table, and its record.
struct Row {
    record: u64,
    html: String,
}

impl Report<'_> {
    /// What comes back, and why.
    pub fn coming_back(&self, sent: &Sent, returned: &[ComesBack]) -> Section {
        let words = self.words;
        let is_first_alone = sent.kept_records() == [1] && returned.iter().all(|back| back.refusal.number == 21);
        let hint = if is_first_alone { format!("<p>{}</p>\n", words.look_at_first) } else { String::new() };
        let body = hint + &self.returned(returned);
        Section { id: "back", title: words.what_comes_back.into(), body }
    }

    /// The payments that come back, or would.
    pub fn returned(&self, returned: &[ComesBack]) -> String {
        let words = self.words;
        let rows = returned.iter().map(|back| self.row(back.refusal.record, back.payment, &self.reason(back)));
        note(words.about_marks) + &self.hundreds("back", words.back, words.why_back, &rows.collect::<Vec<_>>())
    }

    /// The payments that go on, and what is changed in each.
    pub fn going_on(&self, sent: &Sent) -> Section {
        let words = self.words;
        let fields = text_fields('T');
        let [before, after] = [&sent.original, &sent.forwarded].map(|file| file[Q..].chunks(T));
        let rows = sent.kept_records().into_iter().zip(before.zip(after)).map(|(record, (before, after))| {
            let changes: String =
                changed(&fields, before, after).iter().map(|field| self.changed_field(field)).collect();
            self.row(record, before, if changes.is_empty() { words.unchanged } else { &changes })
        });
        let tables = self.hundreds("on", words.on, words.changed, &rows.collect::<Vec<_>>());
        Section { id: "on", title: words.what_goes_on.into(), body: tables }
    }

    /// Why a payment comes back: the rule, the field with the fault, and the code of its M8 record.
    fn reason(&self, back: &ComesBack) -> String {
        let (name, words) = (rule_name(self.words, back.refusal), rule_words(self.words, back.refusal));
        let field = back.fault.as_ref().map(|fault| self.faulty_field(fault)).unwrap_or_default();
        let (code, _) = back.code();
        let (m8_code, meaning) = (self.words.m8_code, meaning(self.words.lang, code));
        format!("<p><b>{name}</b>: {words}</p>{field}<p>{m8_code} <b>{code}</b>: {meaning}</p>")
    }

    /// A payment's row: record, amount, payee, country, and what is to be said of it.
    fn row(&self, record: u64, payment: &[u8], said: &str) -> Row {
        let amount = amount(self.words, thousandths(payment));
        let [payee, country] = [PAYEE, COUNTRY].map(|place| text(self.way.page, trimmed(&payment[place])));
        let html = format!(
            "<tr><th scope=\"row\">{record}</th><td>{amount}</td><td>{payee}</td><td>{country}</td><td>{said}</td></tr>\n"
        );
        Row { record, html }
    }

    /// Tables of a hundred payments each, with links to them where there are several.
    fn hundreds(&self, id: &str, what: &str, said: &str, rows: &[Row]) -> String {
        let words = self.words;
        let heads = [words.record, words.amount, words.payee, words.country, said];
        let class = if rows.len() > HUNDRED { "hundred many" } else { "hundred" };
        let (mut links, mut tables) = (String::new(), String::new());
        for hundred in rows.chunks(HUNDRED) {
            let (first, last) = (hundred[0].record, hundred[hundred.len() - 1].record);
            let records = match first == last {
                true => fill(words.one_record, &[&first]),
                false => fill(words.records, &[&first, &last]),
            };
            let rows: String = hundred.iter().map(|row| &row.html[..]).collect();
            let inside = fill(words.payments_in.of(hundred.len()), &[&hundred.len(), &records]);
            let table = table("payments", &format!("{what}: {inside}"), &heads, &rows);
            tables += &format!("<div class=\"{class}\" id=\"{id}-{first}\">\n{table}</div>\n");
            links += &format!("<li><a href=\"#{id}-{first}\">{}</a></li>\n", fill(words.to, &[&first, &last]));
        }
        let tables = scrolling(what, &tables);
        match rows.len() > HUNDRED {
            true => format!("<nav class=\"jump\" aria-label=\"{what}\"><ul>\n{links}</ul></nav>\n{tables}"),
            false => tables,
        }
    }
}
