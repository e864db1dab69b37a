//! `prepare FILE --out F --notes N`: the good payments go on, with a note of every changed character; the others come back.

use super::way;
use crate::cli;
use crate::common::Failure;
use crate::examine::{letters_elsewhere, send, ChangedLine, NotSent, Sent};
use crate::input::Input;
use crate::lists::Countries;
use crate::names::{counted, plain};
use crate::notes::{Known, NotesFile};
use crate::outputs::Outputs;
use crate::sending::Way;
use crate::sums::sum;
use crate::table::replacements;
use crate::tell::{self, code_page, name, tell, tell_letters_elsewhere, ComesBack, End, Shown};
use desk::{Prepared, M8_CODES};
use serde_json::{json, Value};
use std::ffi::OsStr;
use std::io::{self, Write};
use std::path::Path;

/// What is told of a file of which something goes on.
struct Told<'a> {
    words: &'a cli::Prepare,
    input: &'a OsStr,
    way: Way<'a>,
    file: &'a [u8],
    sent: &'a Sent,
    shown: &'a Shown<'a>,
    returned: Vec<ComesBack<'a>>,
}

/// An output: what it is, in words and for machines, where it goes, and its bytes.
struct Output<'a> {
    what: &'static str,
    key: &'static str,
    path: &'a Path,
    bytes: Vec<u8>,
}

pub fn prepare(words: &cli::Prepare, is_json: bool) -> Result<End, Failure> {
    let countries = Countries::of(words.reading.lists.lists.as_deref())?;
    let way = way(&words.reading, &countries, words.strict);
    let input = Input::open(&words.file)?;
    let read = [&[input.identity()][..], &countries.read].concat();
    // the forwarded file last: none is there without its notes
    let paths = [Some(&words.notes), words.returned.as_ref(), words.m8.as_ref(), Some(&words.out)];
    let paths: Vec<&Path> = paths.into_iter().flatten().map(|path| path.as_path()).collect();
    let outputs = Outputs::plan(&paths, &read, words.replacing.force)?;
    let input_name = input.name().to_owned();
    let file = input.read()?;
    let shown = Shown { page: way.page, table: &replacements(way.page) };
    let sent = match send(way, &file)? {
        Ok(sent) => sent,
        Err(not_sent) => return refused(way, &input_name, &file, &not_sent, &shown, is_json),
    };
    let returned = ComesBack::of(way, &file, &sent.forwarded, &sent.returned);
    let told = Told { words, input: &input_name, way, file: &file, sent: &sent, shown: &shown, returned };
    let files = told.outputs(&countries)?;
    let contents: Vec<&[u8]> = files.iter().map(|file| &file.bytes[..]).collect();
    let written = outputs.write(&contents)?;
    tell(is_json, || told.json(&files), |out| told.words(&files, out))?;
    written.put_in_place()?;
    Ok(End::Done)
}

fn refused(
    way: Way,
    input: &OsStr,
    file: &[u8],
    not_sent: &NotSent,
    shown: &Shown,
    is_json: bool,
) -> Result<End, Failure> {
    let json = || {
        let mut told = json!({ "command": "prepare", "file": name(input), "page": way.page as u32, "prepared": false });
        tell::add(&mut told, tell::not_sent_json(way, file, not_sent, shown));
        told
    };
    tell(is_json, json, |out| {
        tell::not_sent(way, file, not_sent, shown, out)?;
        writeln!(out, "nothing goes on, and nothing is written")
    })?;
    Ok(End::Refused)
}

impl<'a> Told<'a> {
    /// What is written, in the order in which it is put in place.
    fn outputs(&self, countries: &Countries) -> Result<Vec<Output<'a>>, Failure> {
        let cli::Prepare { notes, returned, m8, out, .. } = self.words;
        let notes_text = self.notes(countries).to_text();
        let mut outputs = vec![Output { what: "notes", key: "notes", path: notes, bytes: notes_text }];
        if let Some(path) = returned {
            let mut bytes = Vec::new();
            self.tell_list(&mut bytes).expect("memory can be written");
            outputs.push(Output { what: "list of what comes back", key: "returned", path, bytes });
        }
        if let Some(path) = m8 {
            outputs.push(Output { what: "M8 records", key: "m8", path, bytes: self.m8_records()? });
        }
        outputs.push(Output { what: "forwarded file", key: "out", path: out, bytes: self.sent.forwarded.clone() });
        Ok(outputs)
    }

    /// The M8 records. There has to be one for each payment that comes back.
    fn m8_records(&self) -> Result<Vec<u8>, Failure> {
        let Way { page, lists, .. } = self.way;
        let mut records = vec![0; self.sent.figures.m8_bytes()];
        match desk::m8(page, self.file, lists, &M8_CODES, &mut records) {
            Ok(count) if count == self.sent.figures.returned => Ok(records),
            _ => Err("M8 records are missing: nothing is written".into()),
        }
    }

    fn notes(&self, countries: &Countries) -> NotesFile {
        let Sent { forwarded, notes, original, figures, .. } = self.sent;
        NotesFile {
            page: self.way.page,
            lists: countries.sums(),
            submitted: Known::of(self.file),
            returned: figures.returned,
            original: Known::of(original),
            forwarded: Known::of(forwarded),
            notes: notes.clone(),
        }
    }

    fn words(&self, files: &[Output], out: &mut dyn Write) -> io::Result<()> {
        let Prepared { kept, returned, kept_euros, returned_euros, notes } = self.sent.figures;
        let sum =
            |payments: usize, euros: u64| format!("{}, {}", counted(payments, "payment"), counted(euros, "whole euro"));
        writeln!(out, "prepared on {}", code_page(self.way.page))?;
        writeln!(out, "submitted:  {}", sum(kept + returned, kept_euros + returned_euros))?;
        writeln!(out, "goes on:    {}", sum(kept, kept_euros))?;
        writeln!(out, "comes back: {}", sum(returned, returned_euros))?;
        self.returned.iter().try_for_each(|back| back.words("comes back", self.shown, out))?;
        writeln!(out, "{} changed in what goes on", counted(notes, "character"))?;
        self.changed().iter().try_for_each(|line| tell::changed(self.way.page, line, out))?;
        tell_letters_elsewhere(self.way.page, &self.sent.notes, out)?;
        for Output { what, path, bytes, .. } in files {
            writeln!(out, "{what}: {}, {}", plain(path), counted(bytes.len(), "byte"))?;
        }
        match returned {
            0 => Ok(()),
            _ => writeln!(out, "keep the submitted file: what comes back is in it alone, and needs a new file number"),
        }
    }

    /// The list of what comes back: which file it is of, and each payment with the reason.
    fn tell_list(&self, out: &mut dyn Write) -> io::Result<()> {
        let Prepared { returned, returned_euros, .. } = self.sent.figures;
        let number = desk::file_number(self.file).expect("rules 11, 13 and 14 ask for digits");
        let (payments, euros) = (counted(returned, "payment"), counted(returned_euros, "whole euro"));
        writeln!(out, "comes back of file number {number}: {payments}, {euros}")?;
        self.returned.iter().try_for_each(|back| back.words("comes back", self.shown, out))
    }

    fn changed(&self) -> Vec<ChangedLine<'a>> {
        self.sent.changed_lines()
    }

    fn json(&self, files: &[Output]) -> Value {
        let Prepared { kept, returned, kept_euros, returned_euros, notes } = self.sent.figures;
        let back = self.returned.iter().map(|back| back.json(self.shown));
        let mut told = json!({
            "command": "prepare",
            "file": name(self.input),
            "page": self.way.page as u32,
            "prepared": true,
            "file_number": desk::file_number(self.file),
            "submitted": { "payments": kept + returned, "euros": kept_euros + returned_euros },
            "goes_on": { "payments": kept, "euros": kept_euros },
            "comes_back": { "payments": returned, "euros": returned_euros },
            "returned": back.collect::<Vec<Value>>(),
            "changes": notes,
            "letters_on_the_other_page": letters_elsewhere(self.way.page, &self.sent.notes),
            "changed": self.changed().iter().map(|line| tell::changed_json(self.way.page, line)).collect::<Vec<Value>>(),
        });
        let written = files.iter().map(|Output { key, path, bytes, .. }| {
            let file = json!({ "path": name(path), "bytes": bytes.len(), "sha256": sum(bytes).to_string() });
            (key.to_string(), file)
        });
        tell::add(&mut told, json!({ "written": Value::Object(written.collect()) }));
        told
    }
}
