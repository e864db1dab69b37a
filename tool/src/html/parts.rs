//! Parts of which the page is made: lists, tables, and rules in words.

use super::bytes::safe;
use super::terms;
use super::words::{fill, Words};
use desk::Refusal;

/// A part of the page with a heading, to which its contents lead.
pub struct Section {
    pub id: &'static str,
    pub title: String,
    pub body: String,
}

impl Section {
    pub fn to_html(&self) -> String {
        let Section { id, title, body } = self;
        format!("<section aria-labelledby=\"{id}\">\n<h2 id=\"{id}\">{title}</h2>\n{body}\n</section>\n")
    }

    pub fn link(&self) -> String {
        format!("<li><a href=\"#{}\">{}</a></li>\n", self.id, self.title)
    }
}

/// Names, and what they say.
pub fn facts(facts: &[(&str, String)]) -> String {
    let facts: String =
        facts.iter().map(|(name, value)| format!("<div><dt>{name}</dt><dd>{value}</dd></div>\n")).collect();
    format!("<dl>\n{facts}</dl>\n")
}

/// A table with its caption and the heads of its columns; a column without one is that of the rows' heads.
pub fn table(class: &str, caption: &str, heads: &[&str], rows: &str) -> String {
    let head = |head: &&str| match head.is_empty() {
        true => "<td></td>".into(),
        false => format!("<th scope=\"col\">{head}</th>"),
    };
    let heads: String = heads.iter().map(head).collect();
    format!(
        "<table class=\"{class}\">\n<caption>{caption}</caption>\n<thead><tr>{heads}</tr></thead>\n<tbody>\n{rows}</tbody>\n\
        </table>\n"
    )
}

/// What may be wider than the screen: it is scrolled by keyboard too.
pub fn scrolling(label: &str, content: &str) -> String {
    format!("<div class=\"scroll\" role=\"group\" aria-label=\"{label}\" tabindex=\"0\">\n{content}</div>\n")
}

pub fn note(text: &str) -> String {
    format!("<p class=\"note\">{text}</p>\n")
}

/// `Rule 42`; a number that is no rule of a file is a number.
pub fn rule_name(words: &Words, refusal: Refusal) -> String {
    let is_rule = refusal.kind().is_some() || refusal.number <= 5;
    fill(if is_rule { words.rule } else { words.number }, &[&refusal.number])
}

/// When the rule is broken, or why else something is refused. What the papers set in backquotes is code here.
pub fn rule_words(words: &Words, refusal: Refusal) -> String {
    let parts = terms::refusal(words.lang, refusal).split('`').map(safe).enumerate();
    parts.map(|(place, part)| if place % 2 == 1 { format!("<code>{part}</code>") } else { part }).collect()
}

#[cfg(test)]
mod tests {
    use super::*;
    use crate::cli::Lang;
    use crate::html::words::words;

    #[test]
    fn rules_in_words() {
        let [en, de] = [Lang::En, Lang::De].map(words);
        let refusal = |number| Refusal { number, record: 0, at: 0 };
        assert_eq!((rule_name(en, refusal(5)), rule_name(de, refusal(42))), ("Rule 5".into(), "Regel 42".into()));
        assert_eq!((rule_name(en, refusal(43)), rule_name(de, refusal(43))), ("Number 43".into(), "Nummer 43".into()));
        let due = "transfer: T12 does not begin with <code>&#x2F;</code> and a non-space; cheque: T12 not blank";
        assert_eq!(rule_words(en, refusal(31)), due);
    }
}
