//! How answers are told: in words, or as JSON.

use crate::cli::Lang;
use crate::common::{told, Failure};
use crate::examine::{letters_elsewhere, other_page, ChangedLine, NotSent};
use crate::faults::{self, Fault};
use crate::html::{blamed, what_is_wrong, words};
use crate::input::bar;
use crate::records::{begin, lines, range, LINE};
use crate::sending::{payment, Way};
use crate::table::read_as;
use crate::text::{amount, number, text, whole_text, KIND, PAYEE, T14A, T14B};
use desk::{Columns, Page, Refusal, M8_CODES};
use serde_json::{json, Value};
use std::ffi::OsStr;
use std::io::{self, Write};

/// How a command ends, where nothing failed: the status.
#[derive(Clone, Copy)]
pub enum End {
    Done = 0,
    Refused = 1,
}

/// Tells an answer on standard output, in words or as JSON.
pub fn tell(
    is_json: bool,
    json: impl FnOnce() -> Value,
    words: impl FnOnce(&mut dyn Write) -> io::Result<()>,
) -> Result<(), Failure> {
    told(|out| match is_json {
        true => {
            serde_json::to_writer_pretty(&mut *out, &json())?;
            writeln!(out)
        }
        false => words(out),
    })
}

/// Adds what one answer says to another.
pub fn add(answer: &mut Value, more: Value) {
    if let (Value::Object(answer), Value::Object(more)) = (answer, more) {
        answer.extend(more);
    }
}

/// A name as it is told in JSON, where every text is Unicode.
pub fn name(name: impl AsRef<OsStr>) -> Value {
    json!(name.as_ref().to_string_lossy())
}

/// `code page 1 (ISO 8859-1)`: there is another page, to look at.
pub fn code_page(page: Page) -> String {
    format!("code {page}")
}

/// Where changed characters become spaces, and would be letters on the other code page, says so.
pub fn tell_letters_elsewhere(page: Page, notes: &[u32], out: &mut dyn Write) -> io::Result<()> {
    let other = other_page(page);
    let (here, there) = match letters_elsewhere(page, notes) {
        0 => return Ok(()),
        1 => ("1 of them becomes a space".into(), "a letter"),
        count => (format!("{count} of them become spaces"), "letters"),
    };
    let (other, number) = (code_page(other), other as u32);
    writeln!(out, "look: {here}, and on {other} {there}: if that is the office's, add --page {number}")
}

/// What is shown of a field: as a page reads it, and as the rules read it.
pub struct Shown<'a> {
    pub page: Page,
    pub table: &'a [u8; 256],
}

impl Shown<'_> {
    /// A field's text as the rules read it, where that differs.
    pub fn read_as(&self, field: &str, bytes: &[u8]) -> Option<String> {
        read_as(self.table, field, bytes).map(|read| whole_text(self.page, &read))
    }

    /// A line of a field with its columns, marks under some of them, and below it what it is read as, where that differs.
    pub fn line(
        &self,
        line: Columns,
        bytes: &[u8],
        is_marked: impl Fn(u64) -> bool,
        out: &mut dyn Write,
    ) -> io::Result<()> {
        let front = format!("    {}  ", columns_of(line));
        let width = front.chars().count();
        writeln!(out, "{front}\"{}\"", whole_text(self.page, bytes))?;
        let mark = |column| if is_marked(column) { '^' } else { ' ' };
        let marks: String = (line.first..=line.last).map(mark).collect();
        if marks.contains('^') {
            writeln!(out, "{:width$} {}", "", marks.trim_end())?;
        }
        match self.read_as(line.field, bytes) {
            Some(text) => writeln!(out, "{:>width$}\"{text}\"", "read as  "),
            None => Ok(()),
        }
    }

    /// A field that breaks a rule, line by line, with marks under what is the fault.
    pub fn fault(&self, fault: &Fault, out: &mut dyn Write) -> io::Result<()> {
        for line in lines(fault.columns) {
            self.line(line, &fault.record.bytes[range(line)], |column| fault.marked.contains(&column), out)?;
        }
        match fault.due {
            Some(due) => writeln!(out, "    with {due:015} in {} this rule is kept", fault.columns.field),
            None => Ok(()),
        }
    }

    /// Why a file is refused: the rule, and the field with its bytes; or where the structure is broken, the bytes there.
    pub fn refused(&self, refusal: Refusal, fault: Option<&Fault>, file: &[u8], out: &mut dyn Write) -> io::Result<()> {
        writeln!(out, "refused on {}: {refusal}", code_page(self.page))?;
        match (fault, refusal.number) {
            (Some(fault), _) => self.fault(fault, out),
            (None, 1..=5) => self.stop(refusal, file, out),
            (None, _) => Ok(()),
        }
    }

    /// Where the walk over the records stopped: what is wrong there, and the bytes, by the columns of the record that is due.
    fn stop(&self, refusal: Refusal, file: &[u8], out: &mut dyn Write) -> io::Result<()> {
        let quoted = |bytes: &[u8]| format!("\"{}\"", whole_text(self.page, bytes));
        writeln!(out, "    {}", what_is_wrong(words(Lang::En), file, refusal, quoted))?;
        let blamed = blamed(file, refusal);
        let begin = begin(refusal.record);
        let first = if refusal.number == 5 { blamed.start } else { begin };
        let bytes = &file[first.min(file.len())..file.len().min(first + LINE)];
        if refusal.number == 1 || bytes.is_empty() {
            return Ok(());
        }
        let columns =
            Columns { field: "", first: (first - begin) as u64 + 1, last: (first - begin + bytes.len()) as u64 };
        self.line(columns, bytes, |column| blamed.contains(&(begin + column as usize - 1)), out)?;
        match bytes.iter().any(|byte| matches!(byte, b'\n' | b'\r')) {
            true => writeln!(out, "    {}", words(Lang::En).line_end),
            false => Ok(()),
        }
    }

    /// Why a file is refused, for machines.
    pub fn refused_json(&self, refusal: Refusal, fault: Option<&Fault>, file: &[u8]) -> Value {
        let quoted = |bytes: &[u8]| format!("\"{}\"", whole_text(self.page, bytes));
        let stopped = || {
            json!({
                "record_begins_at": begin(refusal.record),
                "words": what_is_wrong(words(Lang::En), file, refusal, quoted),
            })
        };
        json!({
            "refusal": refusal_json(refusal),
            "fault": fault.map(|fault| self.fault_json(fault)),
            "structure": (1..=5).contains(&refusal.number).then(stopped),
        })
    }

    /// A field that breaks a rule, for machines.
    pub fn fault_json(&self, fault: &Fault) -> Value {
        let bytes = &fault.record.bytes[range(fault.columns)];
        let Columns { field, first, last } = fault.columns;
        json!({
            "field": field,
            "first_column": first,
            "last_column": last,
            "text": whole_text(self.page, bytes),
            "read_as": self.read_as(field, bytes),
            "hex": hex(bytes),
            "marked_columns": fault.marked,
            "due": fault.due,
        })
    }
}

pub fn hex(bytes: &[u8]) -> String {
    bytes.iter().map(|byte| format!("{byte:02X}")).collect()
}

/// `columns 211 to 245`, or `column 178`.
fn columns_of(line: Columns) -> String {
    match line.first == line.last {
        true => format!("column {}", line.first),
        false => format!("columns {} to {}", line.first, line.last),
    }
}

/// A refusal for machines: the number and its words, and where a record breaks a rule, the record.
pub fn refusal_json(refusal: Refusal) -> Value {
    let kind = refusal.kind().map(String::from);
    json!({ "number": refusal.number, "words": refusal.words(), "record": refusal.record, "kind": kind })
}

/// Tells why nothing goes on, with the field that is to blame; where all payments would come back, why each would.
pub fn not_sent(way: Way, file: &[u8], not_sent: &NotSent, shown: &Shown, out: &mut dyn Write) -> io::Result<()> {
    let fault = faults::judged(way, file, not_sent.refusal);
    shown.refused(not_sent.refusal, fault.as_ref(), file, out)?;
    if let Some((forwarded, returned)) = &not_sent.all_back {
        let returned = ComesBack::of(way, file, forwarded, returned);
        return returned.iter().try_for_each(|back| back.words("would come back", shown, out));
    }
    match not_sent.first_broken {
        Some(first) => writeln!(out, "first broken: {first}"),
        None => Ok(()),
    }
}

/// The same for machines.
pub fn not_sent_json(way: Way, file: &[u8], not_sent: &NotSent, shown: &Shown) -> Value {
    let fault = faults::judged(way, file, not_sent.refusal);
    let mut told = shown.refused_json(not_sent.refusal, fault.as_ref(), file);
    let returned = not_sent.all_back.as_ref().map(|(forwarded, returned)| {
        let returned = ComesBack::of(way, file, forwarded, returned);
        returned.iter().map(|back| back.json(shown)).collect::<Vec<Value>>()
    });
    add(&mut told, json!({ "first_broken": not_sent.first_broken.map(refusal_json), "returned": returned }));
    told
}

/// From how many payments on that come back progress is shown.
const MANY: usize = 1000;

/// A payment that comes back, and why.
pub struct ComesBack<'a> {
    pub refusal: Refusal,
    pub fault: Option<Fault<'a>>,
    pub payment: &'a [u8],
}

impl<'a> ComesBack<'a> {
    /// All of them, with the fields that are to blame; the forwarded file has a sound payment, behind which each is judged.
    pub fn of(way: Way, file: &'a [u8], forwarded: &[u8], returned: &[Refusal]) -> Vec<ComesBack<'a>> {
        let progress =
            (returned.len() >= MANY).then(|| bar(returned.len() as u64, "{pos} of {len} payments looked at"));
        let one = |&refusal: &Refusal| {
            progress.iter().for_each(|progress| progress.inc(1));
            let (fault, payment) = (faults::returned(way, file, forwarded, refusal), payment(file, refusal.record));
            ComesBack { refusal, fault, payment }
        };
        let all = returned.iter().map(one).collect();
        progress.iter().for_each(|progress| progress.finish_and_clear());
        all
    }

    /// That it comes back, or would; its amount and payee, the rule, the field in which it breaks that, and its M8 code.
    pub fn words(&self, comes_back: &str, shown: &Shown, out: &mut dyn Write) -> io::Result<()> {
        let (amount, payee) = (amount(self.payment), text(shown.page, &self.payment[PAYEE]));
        let (record, kind) = (self.refusal.record, self.kind());
        writeln!(out, "record {record} {comes_back}: {kind}, {amount} euros to \"{payee}\"")?;
        writeln!(out, "    {}", self.refusal)?;
        if let Some(fault) = &self.fault {
            shown.fault(fault, out)?;
        }
        let (code, meaning) = self.code();
        writeln!(out, "    M8 code {code}: {meaning}")
    }

    /// The same for machines.
    pub fn json(&self, shown: &Shown) -> Value {
        json!({
            "record": self.refusal.record,
            "kind": self.kind(),
            "euros": number(&self.payment[T14A]),
            "cents": number(&self.payment[T14B]) / 10,
            "payee": text(shown.page, &self.payment[PAYEE]),
            "refusal": refusal_json(self.refusal),
            "fault": self.fault.as_ref().map(|fault| shown.fault_json(fault)),
            "m8_code": self.code().0,
        })
    }

    /// What T22 says of it (docs/RULES.md, 2.3).
    fn kind(&self) -> &'static str {
        match &self.payment[KIND] {
            b"00" => "transfer",
            b"20" | b"22" => "cheque",
            _ => "neither transfer nor cheque",
        }
    }

    /// The code of its M8 record, and what that means.
    pub fn code(&self) -> (&'static str, &'static str) {
        let place = (self.refusal.number as usize - 20) * 6;
        let code = &CODES[place..place + 6];
        (code, desk::m8_meaning(code.as_bytes()).unwrap_or("?"))
    }
}

/// The codes as text.
const CODES: &str = match std::str::from_utf8(&M8_CODES) {
    Ok(codes) => codes,
    Err(_) => panic!("the codes are ASCII"),
};

/// Tells a line in which characters are changed.
pub fn changed(page: Page, changed: &ChangedLine, out: &mut dyn Write) -> io::Result<()> {
    let ChangedLine { record, columns, before, after } = changed;
    writeln!(out, "record {record}, {columns}")?;
    writeln!(out, "    \"{}\"", text(page, before))?;
    writeln!(out, "    \"{}\"", text(page, after))
}

/// The same for machines.
pub fn changed_json(page: Page, changed: &ChangedLine) -> Value {
    let ChangedLine { record, columns, before, after } = changed;
    json!({
        "record": record,
        "field": columns.field,
        "first_column": columns.first,
        "last_column": columns.last,
        "before": whole_text(page, before),
        "before_hex": hex(before),
        "after": whole_text(page, after),
    })
}
