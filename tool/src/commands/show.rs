//! `show FILE RECORD FIELD`: a text field as it was written.

use crate::cli;
use crate::common::Failure;
use crate::input::Input;
use crate::records::{last, lines, place, range};
use crate::table::replacements;
use crate::tell::{hex, name, tell, End, Shown};
use crate::text::whole_text;
use desk::{Columns, Field, Lists, Page};
use serde_json::json;
use std::io::{self, Write};

pub fn show(words: &cli::Show, is_json: bool) -> Result<End, Failure> {
    let page: Page = words.page.into();
    let input = Input::open(&words.file)?;
    let input_name = input.name().to_owned();
    let file = input.read()?;
    let (record, field) = (words.record, words.field.0);
    let bytes = desk::show(&file, record, field);
    let why = bytes.map_or_else(|| Some(no_field(&file, record, field)), |_| None);
    let columns = columns_of(field);
    let shown = Shown { page, table: &replacements(page) };
    let told = json!({
        "command": "show",
        "file": name(input_name),
        "page": page as u32,
        "record": record,
        "field": field.to_string(),
        "first_column": columns.first,
        "last_column": columns.last,
        "text": bytes.map(|bytes| whole_text(page, bytes)),
        "read_as": bytes.and_then(|bytes| shown.read_as(columns.field, bytes)),
        "hex": bytes.map(hex),
        "why": why,
    });
    tell(
        is_json,
        || told,
        |out| match (bytes, &why) {
            (Some(bytes), _) => {
                writeln!(out, "record {record}, {columns}")?;
                tell_lines(&shown, columns, bytes, out)
            }
            (None, why) => writeln!(out, "refused: {}", why.as_deref().unwrap_or_default()),
        },
    )?;
    Ok(if bytes.is_some() { End::Done } else { End::Refused })
}

fn tell_lines(shown: &Shown, columns: Columns, bytes: &[u8], out: &mut dyn Write) -> io::Result<()> {
    let begin = range(columns).start;
    lines(columns).try_for_each(|line| {
        let place = range(line);
        shown.line(line, &bytes[place.start - begin..place.end - begin], |_| false, out)
    })
}

fn columns_of(field: Field) -> Columns {
    let named = |columns: &Columns| columns.field == field.to_string();
    "QT".chars().flat_map(desk::fields).find(named).expect("a text field is a field")
}

/// Why there is no such field: the structure is broken, or there is no such record, or it has no such field.
fn no_field(file: &[u8], record: u64, field: Field) -> String {
    let broken = desk::judge(Page::Iso8859_1, file, Lists::ANNEXES, &[]).err().filter(|refusal| refusal.number <= 5);
    match (broken, place(file, record)) {
        (Some(refusal), _) => refusal.to_string(),
        (None, None) => {
            let last = last(file).expect("a file whose structure is right has its Q and Z");
            format!("there is no record {record}: the last one is {last}")
        }
        (None, Some((kind, _))) => format!("record {record} is a {kind} record, which has no field {field}"),
    }
}
