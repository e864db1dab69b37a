//! `restore FORWARDED --notes N --out F`: the file that went on, as it was written.

use crate::cli;
use crate::common::{wrong, Failure};
use crate::input::Input;
use crate::lists::Countries;
use crate::names::{counted, plain};
use crate::notes::{Known, NotesFile, MOST_NOTES_BYTES};
use crate::outputs::Outputs;
use crate::tell::{self, code_page, name, tell, End};
use serde_json::{json, Value};
use std::ffi::OsStr;
use std::io::{self, Write};
use std::path::Path;

pub fn restore(words: &cli::Restore, is_json: bool) -> Result<End, Failure> {
    if words.forwarded.as_os_str() == "-" && words.notes.as_os_str() == "-" {
        return Err("the forwarded file and its notes cannot both come from standard input".into());
    }
    let countries = Countries::of(words.lists.lists.as_deref())?;
    let (input, notes_input) = (Input::open(&words.forwarded)?, Input::open(&words.notes)?);
    let read = [&[input.identity(), notes_input.identity()][..], &countries.read].concat();
    let outputs = Outputs::plan(&[&words.out], &read, words.replacing.force)?;
    let input_name = input.name().to_owned();
    let text = notes_input.read_up_to(MOST_NOTES_BYTES + 1)?;
    let forwarded = input.read()?;
    let restored = NotesFile::from_text(&text)
        .map_err(|flaw| format!("{}: {flaw}", plain(&words.notes)))
        .and_then(|notes| original(&notes, &forwarded, &countries).map(|original| (notes, original)));
    let (notes, original) = match restored {
        Ok(restored) => restored,
        Err(why) => return refused(&input_name, &why, is_json),
    };
    is_not_submitted(&words.out, &notes)?;
    let written = outputs.write(&[&original])?;
    let mut told = json!({
        "command": "restore",
        "forwarded": name(&input_name),
        "notes": name(&words.notes),
        "restored": name(&words.out),
    });
    tell::add(&mut told, known_json(&notes));
    tell(is_json, || told, |out| tell_restored(&notes, &plain(&words.out), out))?;
    written.put_in_place()?;
    Ok(End::Done)
}

/// Asks that what is at a path, and would be replaced, is not the submitted file: payments that came back are in that alone.
fn is_not_submitted(path: &Path, notes: &NotesFile) -> Result<(), Failure> {
    if !path.exists() || Known::of(&Input::open(path)?.read()?) != notes.submitted {
        return Ok(());
    }
    Err(wrong(path, "is the submitted file, and is never written over"))
}

/// What the notes file says of the files.
fn known_json(notes: &NotesFile) -> Value {
    json!({
        "page": notes.page as u32,
        "bytes": notes.original.bytes,
        "sha256": notes.original.sum.to_string(),
        "changes": notes.notes.len(),
        "returned": notes.returned,
        "submitted_bytes": notes.submitted.bytes,
        "submitted_sha256": notes.submitted.sum.to_string(),
    })
}

/// Tells what was restored; where payments came back, that this is not the submitted file.
fn tell_restored(notes: &NotesFile, path: &str, out: &mut dyn Write) -> io::Result<()> {
    let NotesFile { original, submitted, returned, .. } = notes;
    writeln!(out, "restored on {}: {} put back", code_page(notes.page), counted(notes.notes.len(), "character"))?;
    if *returned == 0 {
        writeln!(out, "{path} is the submitted file")?;
        return writeln!(out, "{} bytes, SHA-256 {}", original.bytes, original.sum);
    }
    let back = counted(returned, "payment");
    writeln!(out, "{path} is what went on of the submitted file; {back} came back and stayed in that alone")?;
    writeln!(out, "{} bytes, SHA-256 {}", original.bytes, original.sum)?;
    writeln!(out, "the submitted file has {} bytes, SHA-256 {}", submitted.bytes, submitted.sum)
}

/// The file that went on; or in words why the notes do not lead to it.
fn original(notes: &NotesFile, forwarded: &[u8], countries: &Countries) -> Result<Vec<u8>, String> {
    let kinds = ["transfer", "cheque"].into_iter().zip(notes.lists.iter().zip(countries.sums()));
    for (kind, (due, found)) in kinds {
        if *due != found {
            return Err(format!(
                "another {kind} list than the file was prepared with: name the folder of that one by --lists"
            ));
        }
    }
    let found = Known::of(forwarded);
    if found != notes.forwarded {
        let Known { bytes, sum } = notes.forwarded;
        let due = format!("the forwarded file has {bytes} bytes and SHA-256 {sum}");
        return Err(match found {
            _ if found == notes.original => format!("this is the file that went on as it was written; {due}"),
            _ if found == notes.submitted => format!("this is the submitted file; {due}"),
            _ => format!("another file than the one that was forwarded; {due}"),
        });
    }
    let mut original = vec![0; forwarded.len()];
    desk::restore(notes.page, forwarded, &notes.notes, countries.lists(), &mut original)
        .map_err(|refusal| refusal.to_string())?;
    match Known::of(&original) == notes.original {
        true => Ok(original),
        false => Err("a note is missing or foreign: these notes do not give back the file that went on".into()),
    }
}

fn refused(forwarded: &OsStr, why: &str, is_json: bool) -> Result<End, Failure> {
    let told = json!({ "command": "restore", "forwarded": name(forwarded), "restored": null, "why": why });
    tell(is_json, || told, |out| writeln!(out, "refused: {why}"))?;
    Ok(End::Refused)
}
