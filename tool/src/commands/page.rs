//! `page FILE -o HTML`: a page to look at.

use super::way;
use crate::cli;
use crate::common::Failure;
use crate::examine::{send, NotSent, Sent};
use crate::html::Report;
use crate::input::Input;
use crate::lists::Countries;
use crate::names::{counted, plain, sorted};
use crate::outputs::Outputs;
use crate::sending::Way;
use crate::sums::sum;
use crate::table::replacements;
use crate::tell::{self, code_page, name, refusal_json, tell, tell_letters_elsewhere, ComesBack, End};
use desk::Prepared;
use serde_json::{json, Value};
use std::io::{self, Write};

pub fn page(words: &cli::PageOf, is_json: bool) -> Result<End, Failure> {
    let folder = words.reading.lists.lists.as_deref();
    let countries = Countries::of(folder)?;
    let way = way(&words.reading, &countries, false);
    let input = Input::open(&words.file)?;
    let read = [&[input.identity()][..], &countries.read].concat();
    let outputs = Outputs::plan(&[&words.out], &read, words.replacing.force)?;
    let input_name = input.name().to_owned();
    let file = input.read()?;
    let table = replacements(way.page);
    let report = Report::new(words.lang, &words.file, folder, way, &table, &file);
    let sent = send(way, &file)?;
    let page = match &sent {
        Ok(sent) => report.of_sent(sent, &ComesBack::of(way, &file, &sent.forwarded, &sent.returned)),
        Err(not_sent) => report.of_refused(not_sent),
    };
    let written = outputs.write(&[page.as_bytes()])?;
    let mut told =
        json!({ "command": "page", "file": name(&input_name), "page": way.page as u32, "lang": report.lang() });
    tell::add(&mut told, outcome_json(&sent));
    let html = json!({ "path": name(&words.out), "bytes": page.len(), "sha256": sum(page.as_bytes()).to_string() });
    tell::add(&mut told, json!({ "written": { "html": html } }));
    tell(
        is_json,
        || told,
        |out| {
            tell_outcome(way, &sent, out)?;
            writeln!(out, "written: {}", plain(&words.out))
        },
    )?;
    written.put_in_place()?;
    Ok(if sent.is_ok() { End::Done } else { End::Refused })
}

fn tell_outcome(way: Way, sent: &Result<Sent, NotSent>, out: &mut dyn Write) -> io::Result<()> {
    match sent {
        Ok(sent) => {
            let Prepared { kept, returned, notes, .. } = sent.figures;
            writeln!(out, "on {} {}", code_page(way.page), sorted(kept, returned))?;
            writeln!(out, "{} changed in what goes on", counted(notes, "character"))?;
            tell_letters_elsewhere(way.page, &sent.notes, out)
        }
        Err(NotSent { refusal, first_broken, .. }) => {
            writeln!(out, "refused on {}: {refusal}", code_page(way.page))?;
            first_broken.iter().try_for_each(|first| writeln!(out, "first broken: {first}"))
        }
    }
}

fn outcome_json(sent: &Result<Sent, NotSent>) -> Value {
    match sent {
        Ok(sent) => {
            let Prepared { kept, returned, kept_euros, returned_euros, notes } = sent.figures;
            json!({
                "prepared": true,
                "goes_on": { "payments": kept, "euros": kept_euros },
                "comes_back": { "payments": returned, "euros": returned_euros },
                "changes": notes,
            })
        }
        Err(NotSent { refusal, first_broken, .. }) => {
            let first_broken = first_broken.map(refusal_json);
            json!({ "prepared": false, "refusal": refusal_json(*refusal), "first_broken": first_broken })
        }
    }
}
