//! A host: prepares a file and tells what it finds. Payments that break a rule come back, each with its amount, its payee
//! and the field; the others go on. Each change is told with its field and the characters before and after, restore is
//! shown to give back what goes on, and the forwarded file, its notes and M8 records of what comes back are written. Or it
//! judges a file that arrives on standard input, and tells how many characters would be changed.
//!
//!     example [--page 0|1] [--strict | --m8 M8] FILE [FORWARDED NOTES]
//!     example [--page 0|1] -
//!
//! The page says at which codes the file has the four German characters: 0 is DIN 66003, 1 is ISO 8859-1. Where none is
//! named it is 1. It is told with the verdict: store it with the pair, for restore needs the page and the country lists
//! that prepare had. Any other word that begins with - is taken for an option; a file of such a name is ./-name.
//!
//! With --strict a file goes on as a whole or not at all. Without it what goes on is the kept file: Q, the payments that
//! break no rule, and Z with their totals. Changes are told by their record and place there, returned payments by their
//! record in FILE. Those stay in FILE alone, so keep it; and they need a new file number, for the kept file has that of FILE.
//! A payee is told as the page reads it, in UTF-8. What the page has no character for, and what a terminal would obey, is
//! told as U+FFFD.
//!
//! With --m8 there is an M8 record for each payment that comes back, with a code of docs/M8-CODES.md. Each is told, and
//! all are written to M8, one behind the other: 124 bytes each, in ASCII. What the receiver's own messages have around
//! them is not there (docs/DIFFERENCES.md, D50 and D51). Where no payment comes back M8 is not written. The strict way
//! returns none, so it takes no --m8. M8 may be named without FORWARDED and NOTES: whoever has those already need not
//! write them twice.
//!
//! Standard input may be of any length: it goes through a reader in cuts, and no more than one cut is held. It can be
//! judged and not prepared, for prepare takes a whole file; the judge is always strict.
//!
//! It writes over nothing, and nothing that fails leaves anything behind:
//! 1. FORWARDED, NOTES and M8 are new files: what is there already is never replaced, FILE least of all.
//! 2. FILE is read, judged, prepared and restored in memory. What is restored has to be the very file, or where payments
//!    come back the kept file, put together from FILE and the list. Where M8 records are asked for, there has to be one
//!    for each payment that comes back.
//! 3. All this is told. Where it cannot be printed nothing is written: no file goes on with changes, or without
//!    payments, that nobody saw.
//! 4. Those that are named are written, down to the disk, each to a new file beside its target: the target's name with
//!    .new behind it. Where such a file is there already, as a killed run leaves it, it stays and the run ends.
//! 5. When all are complete they get their targets' names, the forwarded file last: none is without its notes, nor
//!    without the M8 records that were asked for. A file that has got such a name meanwhile is not replaced either: the
//!    new file is linked to the name, which fails there, and then loses its own. So the file system has to have links.
//!
//! Where a step fails, what was made is removed.
//!
//! In the notes file each note has four bytes, little-endian. Status 0: the whole file goes on, and all is done; 1:
//! nothing goes on, for it is refused or not restored, or an M8 record is missing; 2: used wrongly, or something could
//! not be read or written; 3: all is done, but some payments come back.

mod common;
#[allow(dead_code)] // not every call is made here
mod desk;
#[allow(dead_code)]
mod sending;
#[allow(dead_code)]
mod text;

use common::{
    at_start, ended, failed, joined, no_page, page_of, path_of, read, refused, tell_refusal, told, wrong, Failure, Q,
    T, Z,
};
use desk::{Answer, Judgement, Lists, Note, Page, Prepared, Reader, Refusal, M8_CODES, M8_RECORD};
use sending::{payment, prepare, put_together, returned_at, Outgoing, Way, Z3, Z4};
use std::ffi::{OsStr, OsString};
use std::fs::{self, File, OpenOptions};
use std::io::{self, ErrorKind, Write};
use std::ops::Range;
use std::os::unix::{ffi::OsStrExt, fs::MetadataExt, io::AsFd};
use std::path::{Path, PathBuf};
use std::process::ExitCode;
use text::{amount, character, number, text, PAYEE};

/// Where fields stand in an M8 record.
const M8_DATE: Range<usize> = 3..9;
const M8_FILE: Range<usize> = 9..14;
const M8_AMOUNT: Range<usize> = 38..56;
const M8_CODE: Range<usize> = 56..62;
const M8_REFERENCE: Range<usize> = 62..97;

const USAGE: &str =
    "usage: example [--page 0|1] [--strict | --m8 M8] FILE [FORWARDED NOTES], or example [--page 0|1] -";

/// The word that stands for standard input.
const INPUT: &str = "-";

/// How much of the file goes on: the status to end with.
#[derive(Clone, Copy)]
enum GoesOn {
    All = 0,
    Nothing = 1,
    Some = 3,
}

fn main() -> ExitCode {
    let words: Vec<OsString> = std::env::args_os().skip(1).collect();
    let done = understand(&words).and_then(|(asked, paths)| match paths {
        [word] if word == INPUT => judge_input(asked.way.page),
        [file] => work_on_file(asked, Path::new(file), [None, None, asked.m8]),
        [file, forwarded, notes] => work_on_file(asked, Path::new(file), [Some(forwarded), Some(notes), asked.m8]),
        _ => Err(USAGE.into()),
    });
    ended(done.map(|goes_on| goes_on as u8))
}

/// What the options ask for: how the file is to be prepared, and where M8 records go, if anywhere.
#[derive(Clone, Copy)]
struct Asked<'a> {
    way: Way<'static>,
    m8: Option<&'a OsStr>,
}

/// What is asked for: by the options, and by the other words the paths, or - alone for standard input.
fn understand(words: &[OsString]) -> Result<(Asked<'_>, &[OsString]), Failure> {
    let (asked, paths) = options(words)?;
    match misplaced(asked, paths) {
        Some(line) => Err(joined(&[&line, &"\n", &USAGE])),
        None => Ok((asked, paths)),
    }
}

/// The options, in any order and each once, and the words behind them.
fn options(mut words: &[OsString]) -> Result<(Asked<'_>, &[OsString]), Failure> {
    let (mut page, mut is_strict, mut m8) = (None, false, None);
    loop {
        words = match words {
            [option, behind @ ..] if option == "--strict" && !is_strict => {
                is_strict = true;
                behind
            }
            [option] if option == "--page" && page.is_none() => return Err(no_page("--page names no page".into())),
            [option, word, behind @ ..] if option == "--page" && page.is_none() => {
                page = Some(page_of(word)?);
                behind
            }
            [option] if option == "--m8" && m8.is_none() => return Err("--m8 names no file".into()),
            [option, word, behind @ ..] if option == "--m8" && m8.is_none() => {
                m8 = Some(word.as_os_str());
                behind
            }
            _ => {
                let way = Way { page: page.unwrap_or(Page::Iso8859_1), lists: Lists::ANNEXES, is_strict };
                return Ok((Asked { way, m8 }, words));
            }
        }
    }
}

/// What is wrong with a word where it stands: standard input stands alone, the strict way has no M8 records, and all other
/// words are paths, which do not begin as an option does.
fn misplaced(asked: Asked, words: &[OsString]) -> Option<Failure> {
    match words {
        [word] if word == INPUT && asked.m8.is_none() => None,
        [word, ..] if word == INPUT => {
            Some(wrong(word, "standard input can only be judged; FORWARDED, NOTES and M8 need a FILE"))
        }
        _ if asked.way.is_strict && asked.m8.is_some() => {
            Some(wrong("--m8", "with --strict no payment comes back, and there are no M8 records"))
        }
        _ => {
            let mut paths = asked.m8.into_iter().chain(words.iter().map(OsString::as_os_str));
            paths.find_map(|word| path_of(word).err())
        }
    }
}

/// The host's work on a file. The targets are those of the forwarded file, of the notes and of the M8 records.
fn work_on_file(asked: Asked, path: &Path, targets: [Option<&OsStr>; 3]) -> Result<GoesOn, Failure> {
    let targets = targets.map(|path| path.map(Target::new));
    are_new(&targets)?;
    let file = read(path)?;
    let (outgoing, m8) = match told(|out| examine(asked, &file, out))? {
        Some(outgoing) => outgoing,
        None => return Ok(GoesOn::Nothing),
    };
    write_named(&targets, &outgoing, &m8)?;
    Ok(if outgoing.returned.is_empty() { GoesOn::All } else { GoesOn::Some })
}

/// The host's work on standard input.
fn judge_input(page: Page) -> Result<GoesOn, Failure> {
    let mut reader = Reader::new(page);
    feed_input(&mut reader)?;
    told(|out| match reader.end(&[]) {
        Ok(Answer { judgement, changes }) => {
            tell_sound(page, judgement, out)?;
            writeln!(out, "{changes} characters would be changed")?;
            Ok(GoesOn::All)
        }
        Err(refusal) => refused(page, refusal, out).map(|()| GoesOn::Nothing),
    })
}

/// Hands standard input to the reader as it comes. It is read as a file: Rust's own standard input takes one that is not
/// open for reading for one that is empty.
fn feed_input(reader: &mut Reader) -> Result<(), Failure> {
    let name = "standard input";
    if at_start::input_was_closed() {
        return Err(wrong(name, "is closed"));
    }
    let input = io::stdin().as_fd().try_clone_to_owned().map(File::from);
    input.and_then(|input| reader.feed_from(input, Lists::ANNEXES)).map_err(|error| failed(name, &error))
}

/// Judges, prepares and restores the file in memory, and tells what it finds. What goes on is there where the file is not
/// refused and the very file was restored, or where payments come back the kept file; beside it, where they are asked for, the
/// M8 records.
fn examine(asked: Asked, file: &[u8], out: &mut impl Write) -> io::Result<Option<(Outgoing, Vec<u8>)>> {
    let Way { page, lists, .. } = asked.way;
    let judged = desk::judge(page, file, lists, &[]);
    let (outgoing, sent) = match prepare(asked.way, file) {
        Ok(prepared) => prepared,
        Err(refusal) => return tell_refusal(page, refusal, judged.err(), out).map(|()| None),
    };
    match judged {
        Ok(judgement) => tell_sound(page, judgement, out)?,
        Err(_) => tell_sorted(asked.way, file, &outgoing, sent, out)?,
    }
    let Outgoing { forwarded, notes, returned } = &outgoing;
    tell_changes(forwarded, notes, out)?;

    let mut restored = vec![0; forwarded.len()];
    let back = desk::restore(page, forwarded, notes, lists, &mut restored);
    let is_restored = back.is_ok() && restored == put_together(file, returned, sent);
    let line = match (is_restored, returned.is_empty()) {
        (false, _) => "not restored",
        (true, true) => "restored: the very file",
        (true, false) => "restored: the very kept file",
    };
    writeln!(out, "{line}")?;
    match asked.m8 {
        _ if !is_restored => Ok(None),
        None => Ok(Some((outgoing, Vec::new()))),
        Some(_) => Ok(m8_records(asked.way, file, returned, sent, out)?.map(|m8| (outgoing, m8))),
    }
}

/// The M8 records, which it tells. There has to be one for each payment that comes back.
fn m8_records(
    way: Way,
    file: &[u8],
    returned: &[u32],
    sent: Prepared,
    out: &mut impl Write,
) -> io::Result<Option<Vec<u8>>> {
    let mut records = vec![0; sent.m8_bytes()];
    if desk::m8(way.page, file, way.lists, &M8_CODES, &mut records) != Ok(returned.len()) {
        writeln!(out, "M8 records are missing: nothing is written")?;
        return Ok(None);
    }
    for (&number, record) in returned.iter().zip(records.chunks(M8_RECORD)) {
        tell_m8(Refusal::of_returned(number).record, record, out)?;
    }
    if returned.is_empty() {
        writeln!(out, "no M8 records, and no file of them: no payment comes back")?;
    }
    Ok(Some(records))
}

/// Tells the M8 record of a payment: number and date of the file, amount, reference and code.
fn tell_m8(payment_record: u64, record: &[u8], out: &mut impl Write) -> io::Result<()> {
    let part = |place: Range<usize>| text(Page::Iso8859_1, &record[place]); // replaced: it reads alike on both pages
    let (date, file, reference) = (part(M8_DATE), part(M8_FILE), part(M8_REFERENCE));
    let code: String = record[M8_CODE].iter().map(|&byte| character(Page::Iso8859_1, byte)).collect();
    let date = format!("20{}-{}-{}", &date[..2], &date[2..4], &date[4..]);
    let cents = number(&record[M8_AMOUNT]);
    let amount = format!("{},{:02} euros", cents / 100, cents % 100);
    let meaning = desk::m8_meaning(&record[M8_CODE]).unwrap_or("?");
    writeln!(out, "M8 of record {payment_record}: file {file} of {date}, {amount}, reference \"{reference}\"")?;
    writeln!(out, "    code {code}: {meaning}")
}

/// Tells which payments come back, and the totals.
fn tell_sorted(way: Way, file: &[u8], outgoing: &Outgoing, sent: Prepared, out: &mut impl Write) -> io::Result<()> {
    let Prepared { kept, returned, kept_euros, returned_euros, .. } = sent;
    let z = &file[file.len() - Z..];
    writeln!(out, "not sound on {}: payments that break a rule come back, the others go on", way.page)?;
    for &number in &outgoing.returned {
        let refusal = returned_at(way, file, &outgoing.forwarded, number);
        let payment = payment(file, refusal.record);
        let (amount, payee) = (amount(payment), text(way.page, &payment[PAYEE]));
        writeln!(out, "record {} comes back: {amount} euros to \"{payee}\"", refusal.record)?;
        writeln!(out, "    {refusal}")?;
    }
    writeln!(out, "kept: {kept} payments, {kept_euros} whole euros")?;
    writeln!(out, "returned: {returned} payments, {returned_euros} whole euros")?;
    writeln!(out, "submitted: {} payments, {} whole euros", number(&z[Z4]), number(&z[Z3]))?;
    writeln!(out, "the kept file has the submitted file's number; what comes back needs a new one")?;
    writeln!(out, "in the kept file:")
}

fn tell_sound(page: Page, judgement: Judgement, out: &mut impl Write) -> io::Result<()> {
    let Judgement { payments, euros, cents } = judgement;
    writeln!(out, "sound on {page}: {payments} payments, {euros} euros and {cents} cents")
}

/// Tells each change in the file that goes on. They are in Q and in T records alone.
fn tell_changes(forwarded: &[u8], notes: &[u32], out: &mut impl Write) -> io::Result<()> {
    for Note { place, original } in notes.iter().copied().map(Note::from) {
        let (kind, record, offset) = match place.checked_sub(Q) {
            None => ('Q', 0, place),
            Some(behind_q) => ('T', behind_q / T + 1, behind_q % T),
        };
        let field = desk::columns_at(kind, offset as u64).map_or("?", |found| found.field);
        let becomes = forwarded[place] as char;
        writeln!(out, "record {record}, {field}, place {place}: hex {original:02X} becomes '{becomes}'")?;
    }
    writeln!(out, "{} characters changed", notes.len())
}

/// Where something is to be written, and the new file that becomes it.
struct Target {
    path: PathBuf,
    new_path: PathBuf,
}

impl Target {
    fn new(path: &OsStr) -> Target {
        Target { path: path.into(), new_path: joined(&[&path, &".new"]).into() }
    }
}

/// Asks that all that will be written are new files, and different ones.
fn are_new(targets: &[Option<Target>; 3]) -> Result<(), Failure> {
    let mut before: Vec<(&Path, Location)> = Vec::new();
    let named = || targets.iter().flatten();
    for path in named().map(|target| &target.path).chain(named().map(|target| &target.new_path)) {
        is_free(path)?;
        let location = locate(path)?;
        if let Some((other, _)) = before.iter().find(|(_, found)| *found == location) {
            return Err(joined(&[other, &" and ", path, &" are the same file"]));
        }
        before.push((path, location));
    }
    Ok(())
}

/// Writes what is named: M8 only where payments come back, and the forwarded file last.
fn write_named(targets: &[Option<Target>; 3], outgoing: &Outgoing, m8_records: &[u8]) -> Result<(), Failure> {
    let [forwarded, notes, m8] = targets;
    let note_bytes: Vec<u8> = outgoing.notes.iter().flat_map(|note| note.to_le_bytes()).collect();
    let mut files: Vec<(&Target, &[u8])> = Vec::new();
    files.extend(notes.iter().map(|target| (target, &note_bytes[..])));
    files.extend(m8.iter().filter(|_| !m8_records.is_empty()).map(|target| (target, m8_records)));
    files.extend(forwarded.iter().map(|target| (target, &outgoing.forwarded[..])));
    write_all(&files)
}

/// Writes files, and puts them in place in their order: all, or none.
fn write_all(files: &[(&Target, &[u8])]) -> Result<(), Failure> {
    let mut made = Vec::new();
    let done = make_all(files, &mut made);
    done.map_err(|failure| made.into_iter().fold(failure, |failure, path| removed(path, failure)))
}

/// The same, up to what fails; `made` names what is there then, for the caller to remove.
fn make_all<'a>(files: &[(&'a Target, &[u8])], made: &mut Vec<&'a Path>) -> Result<(), Failure> {
    for (target, bytes) in files {
        write_new(&target.new_path, bytes)?;
        made.push(&target.new_path);
    }
    for (i, (target, _)) in files.iter().enumerate() {
        put_in_place(target)?;
        made[i] = &target.path;
    }
    Ok(())
}

/// Gives a complete new file its target's name, and takes its own away.
fn put_in_place(target: &Target) -> Result<(), Failure> {
    fs::hard_link(&target.new_path, &target.path).map_err(|error| match error.kind() {
        ErrorKind::AlreadyExists => taken(&target.path),
        _ => failed(&target.path, &error),
    })?;
    fs::remove_file(&target.new_path).map_err(|error| removed(&target.path, failed(&target.new_path, &error)))
}

/// Where a new file is to be: its directory, and its name there.
#[derive(PartialEq)]
struct Location {
    device: u64,
    inode: u64,
    name: OsString,
}

fn locate(path: &Path) -> Result<Location, Failure> {
    let (directory, name) = split(path);
    let directory = fs::metadata(directory).map_err(|error| failed(path, &error))?;
    Ok(Location { device: directory.dev(), inode: directory.ino(), name: name.to_owned() })
}

/// What is wrong with a path at which something stands.
fn taken(path: &Path) -> Failure {
    wrong(path, "is there already, and is not written over")
}

/// Asks that nothing stands at a path, not even a link that leads nowhere.
fn is_free(path: &Path) -> Result<(), Failure> {
    match fs::symlink_metadata(path) {
        Ok(_) => Err(taken(path)),
        Err(error) if error.kind() == ErrorKind::NotFound => Ok(()),
        Err(error) => Err(failed(path, &error)),
    }
}

/// The directory in which a path's last name stands, and that name. "/" keeps its slash; the empty path is in no
/// directory.
fn split(path: &Path) -> (&Path, &OsStr) {
    let bytes = path.as_os_str().as_bytes();
    let start = bytes.iter().rposition(|&byte| byte == b'/').map_or(0, |slash| slash + 1);
    let (directory, name) = bytes.split_at(start);
    let directory = if directory.is_empty() && !name.is_empty() { b"." } else { directory };
    (Path::new(OsStr::from_bytes(directory)), OsStr::from_bytes(name))
}

/// Writes a new file, down to the disk. Where that fails nothing of it is left.
fn write_new(path: &Path, bytes: &[u8]) -> Result<(), Failure> {
    let file = OpenOptions::new().write(true).create_new(true).open(path);
    let mut file = file.map_err(|error| failed(path, &error))?;
    let written = file.write_all(bytes).and_then(|()| file.sync_all());
    written.map_err(|error| removed(path, failed(path, &error)))
}

/// The failure, with the file removed for which there is no use after it.
fn removed(path: &Path, failure: Failure) -> Failure {
    let _ = fs::remove_file(path); // what failed first is what is told
    failure
}
