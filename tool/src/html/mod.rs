//! A page to look at: one HTML file of what the desk says of a payment file, for reading and printing. It has no script and
//! loads nothing, and its policy forbids both; what stands in the file is text in it, whatever it is.

mod bytes;
mod changes;
mod english;
mod fields;
mod german;
mod numbers;
mod parts;
mod payments;
mod policy;
mod refused;
mod structure;
mod summary;
mod terms;
mod words;

use crate::cli::Lang;
use crate::examine::{letters_elsewhere, other_page, sound_elsewhere, NotSent, Sent};
use crate::names::plain;
use crate::sending::Way;
use crate::tell::ComesBack;
use bytes::{name, safe};
use desk::Page;
use numbers::grouped;
use parts::{rule_name, rule_words, Section};
use std::ffi::OsStr;
use std::path::Path;
use words::{fill, Words};

pub use structure::{blamed, what_is_wrong};
pub use words::words;

const STYLE: &str = include_str!("style.css");

/// What the page is about, and in which language it tells it.
pub struct Report<'a> {
    words: &'static Words,
    name: &'a OsStr,
    /// The folder of the country lists, where they are not the annexes.
    lists: Option<&'a OsStr>,
    way: Way<'a>,
    /// What each byte of a text field becomes.
    table: &'a [u8; 256],
    file: &'a [u8],
}

/// What the page says first.
struct Verdict {
    class: &'static str,
    sign: char,
    heading: String,
    lead: String,
}

impl<'a> Report<'a> {
    /// Of a file at that path, or from standard input, read by that way and by the country lists of that folder, or by the
    /// annexes. Where file and folder lie is left out, for pages are passed on.
    pub fn new(
        lang: Lang,
        path: &'a Path,
        lists: Option<&'a Path>,
        way: Way<'a>,
        table: &'a [u8; 256],
        file: &'a [u8],
    ) -> Report<'a> {
        let words = words(lang);
        let last_name = |path: &'a Path| path.file_name().unwrap_or(path.as_os_str());
        let name = if path.as_os_str() == "-" { OsStr::new(words.standard_input) } else { last_name(path) };
        Report { words, name, lists: lists.map(last_name), way, table, file }
    }

    /// The code of its language.
    pub fn lang(&self) -> &'static str {
        self.words.code
    }

    /// The page of a file of which something goes on.
    pub fn of_sent(&self, sent: &Sent, returned: &[ComesBack]) -> String {
        let mut sections = vec![self.summary(Some(sent), true)];
        if !returned.is_empty() {
            sections.push(self.coming_back(sent, returned));
        }
        sections.push(self.changes(sent));
        sections.push(self.going_on(sent));
        self.document(&self.verdict(sent), &sections)
    }

    /// The page of a file of which nothing goes on.
    pub fn of_refused(&self, not_sent: &NotSent) -> String {
        let refusal = not_sent.refusal;
        let mut sections = self.why_refused(not_sent);
        if let Some((forwarded, returned)) = &not_sent.all_back {
            let body = self.returned(&ComesBack::of(self.way, self.file, forwarded, returned));
            sections.push(Section { id: "back", title: self.words.what_would_come_back.into(), body });
        }
        sections.push(self.summary(None, refusal.number >= 20));
        let lead = format!(
            "<p>{}</p><p><b>{}</b>: {}</p>{}",
            fill(self.words.lead_refused, &[&self.on_page(self.way.page)]),
            rule_name(self.words, refusal),
            rule_words(self.words, refusal),
            self.other_page(),
        );
        let verdict = Verdict { class: "refused", sign: '✗', heading: self.words.refused.into(), lead };
        self.document(&verdict, &sections)
    }

    fn verdict(&self, sent: &Sent) -> Verdict {
        let (words, kept, returned) = (self.words, sent.figures.kept, sent.figures.returned);
        let [on, back, all] = [kept, returned, kept + returned].map(|count| grouped(words, count as u64));
        let changes = self.changes_in_words(sent);
        if returned == 0 {
            let lead = fill(words.lead_sound, &[&self.on_page(self.way.page)]);
            let (means, heading) = (words.what_sound_means, fill(words.sound.of(kept), &[&all]));
            return Verdict {
                class: "sound",
                sign: '✓',
                heading,
                lead: format!("<p>{lead} {changes}</p>{}<p>{means}</p>", self.letters(sent)),
            };
        }
        let heading = fill(words.some_back.of(returned), &[&back, &all]) + &fill(words.some_go_on.of(kept), &[&on]);
        let lead = fill(words.lead_some, &[&self.on_page(self.way.page)]);
        let lead = format!("<p>{lead} {changes}</p>{}<p>{}</p>{}", self.letters(sent), words.keep, self.other_page());
        Verdict { class: "some", sign: '!', heading, lead }
    }

    /// Where the file is sound on the other code page, that is said.
    fn other_page(&self) -> String {
        match sound_elsewhere(self.way, self.file) {
            Some(other) => format!("<p>{}</p>", fill(self.words.sound_elsewhere, &[&self.on_page(other)])),
            None => String::new(),
        }
    }

    /// Where changed characters would be letters on the other code page, that is said.
    fn letters(&self, sent: &Sent) -> String {
        match letters_elsewhere(self.way.page, &sent.notes) {
            0 => String::new(),
            count => {
                let other = self.on_page(other_page(self.way.page));
                let words = fill(self.words.letters_elsewhere.of(count), &[&grouped(self.words, count as u64), &other]);
                format!("<p><b>{words}</b></p>")
            }
        }
    }

    fn on_page(&self, page: Page) -> String {
        fill(self.words.on_page, &[&page_name(page)])
    }

    fn document(&self, verdict: &Verdict, sections: &[Section]) -> String {
        let Verdict { class, sign, heading, lead } = verdict;
        let words = self.words;
        let links: String = sections.iter().map(Section::link).collect();
        let body: String = sections.iter().map(Section::to_html).collect();
        let made_by = fill(words.made_by, &[&env!("CARGO_PKG_VERSION")]);
        format!(
            "{}<body>\n<a class=\"skip\" href=\"#content\">{}</a>\n\
            <header class=\"{class}\">\n<p class=\"file\">{} {}</p>\n\
            <h1><span class=\"sign\" aria-hidden=\"true\">{sign}</span> {heading}</h1>\n{lead}\n</header>\n\
            <nav aria-label=\"{contents}\"><h2>{contents}</h2>\n<ul>\n{links}</ul></nav>\n\
            <main id=\"content\" tabindex=\"-1\">\n{body}</main>\n\
            <footer><p>{made_by}</p></footer>\n</body>\n</html>\n",
            self.head(heading),
            words.skip,
            words.payment_file,
            name(self.name),
            contents = words.contents,
        )
    }

    fn head(&self, heading: &str) -> String {
        let title = safe(&format!("{heading} – {}", plain(self.name)));
        format!(
            "<!DOCTYPE html>\n<html lang=\"{}\">\n<head>\n<meta charset=\"utf-8\">\n\
            <meta http-equiv=\"Content-Security-Policy\" content=\"{}\">\n\
            <meta name=\"viewport\" content=\"width=device-width, initial-scale=1\">\n\
            <title>{title}</title>\n<style>{STYLE}</style>\n</head>\n",
            self.words.code,
            policy::policy(STYLE),
        )
    }
}

fn page_name(page: Page) -> &'static str {
    match page {
        Page::Din66003 => "0 (DIN 66003)",
        Page::Iso8859_1 => "1 (ISO 8859-1)",
    }
}
