//! What the page begins with: what is known of the file, and the totals.

use super::bytes::{name, text, trimmed};
use super::numbers::{amount, date, grouped, thousandths};
use super::parts::{facts, note, scrolling, table, Section};
use super::words::fill;
use super::{page_name, Report};
use crate::examine::Sent;
use crate::sending::payment;
use crate::sums::sum;
use crate::text::{number, T14B};
use desk::{Judgement, MOST_BYTES};
use std::ops::{Add, Range};

/// Where fields stand in Q; of Q5 the first line.
const Q5: Range<usize> = 23..58;
const Q6: Range<usize> = 163..169;

/// Payments and what they amount to: whole euros, cents that are not carried, and both together in thousandths of a euro.
#[derive(Clone, Copy)]
struct Sum {
    payments: u64,
    euros: u64,
    cents: u64,
    thousandths: u64,
}

impl Add for Sum {
    type Output = Sum;

    fn add(self, other: Sum) -> Sum {
        Sum {
            payments: self.payments + other.payments,
            euros: self.euros + other.euros,
            cents: self.cents + other.cents,
            thousandths: self.thousandths + other.thousandths,
        }
    }
}

impl Report<'_> {
    /// What is known of the file, and the totals where something goes on. A file that is too long was not read to its end.
    pub fn summary(&self, sent: Option<&Sent>, is_q_right: bool) -> Section {
        let words = self.words;
        let mut known = vec![(words.file, name(self.name))];
        if is_q_right {
            known.extend(self.known_of_q());
        }
        known.push((words.code_page, page_name(self.way.page).into()));
        let lists = self.lists.map(|folder| fill(words.lists_of, &[&name(folder)]));
        known.push((words.lists, lists.unwrap_or_else(|| words.annexes.into())));
        if self.file.len() as u64 <= MOST_BYTES {
            known.push((words.length, self.bytes_in_words(self.file.len())));
            known.push(("SHA-256", format!("<code class=\"sum\">{}</code>", sum(self.file))));
        }
        let totals = sent.map(|sent| self.totals(sent)).unwrap_or_default();
        Section { id: "summary", title: words.summary.into(), body: facts(&known) + &totals }
    }

    /// What Q tells, where it breaks no rule.
    fn known_of_q(&self) -> Vec<(&'static str, String)> {
        let mut known = vec![(self.words.ordering_party, text(self.way.page, trimmed(&self.file[Q5])))];
        known.extend(desk::file_number(self.file).map(|number| (self.words.file_number, number.to_string())));
        known.push((self.words.date, date(self.words, &self.file[Q6])));
        known
    }

    pub fn bytes_in_words(&self, count: usize) -> String {
        fill(self.words.bytes.of(count), &[&grouped(self.words, count as u64)])
    }

    /// What was submitted, what goes on and what comes back.
    fn totals(&self, sent: &Sent) -> String {
        let words = self.words;
        let (on, back) = (self.sum_of_kept(sent), self.sum_of_returned(sent));
        let rows = [(words.submitted, on + back), (words.goes_on, on), (words.comes_back, back)];
        let rows: String = rows.into_iter().map(|(what, sum)| self.totals_row(what, sum)).collect();
        let heads = ["", words.payments, words.whole_euros, words.cents, words.amount];
        scrolling(words.totals, &table("totals", words.totals, &heads, &rows)) + &note(words.about_totals)
    }

    fn totals_row(&self, what: &str, sum: Sum) -> String {
        let [payments, euros, cents] = [sum.payments, sum.euros, sum.cents].map(|figure| grouped(self.words, figure));
        let amount = amount(self.words, sum.thousandths);
        format!("<tr><th scope=\"row\">{what}</th><td>{payments}</td><td>{euros}</td><td>{cents}</td><td>{amount}</td></tr>\n")
    }

    /// What goes on, as the judge counts it.
    fn sum_of_kept(&self, sent: &Sent) -> Sum {
        let judged = desk::judge(self.way.page, &sent.forwarded, self.way.lists, &[]);
        let Judgement { payments, euros, cents } = judged.expect("what goes on is sound");
        Sum { payments, euros, cents, thousandths: euros * 1000 + cents * 10 }
    }

    /// What comes back: payments and euros as prepare counts them.
    fn sum_of_returned(&self, sent: &Sent) -> Sum {
        let returned = || sent.returned.iter().map(|refusal| payment(self.file, refusal.record));
        Sum {
            payments: sent.figures.returned as u64,
            euros: sent.figures.returned_euros,
            cents: returned().map(|payment| number(&payment[T14B]) / 10).sum(),
            thousandths: returned().map(thousandths).sum(),
        }
    }
}
