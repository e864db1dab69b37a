//! `book new|take|list|totals`: the book of taken file numbers, in a file (docs/BOOK-FILE.md).

use super::way;
use crate::cli;
use crate::common::{failed, say, Failure};
use crate::examine::{send, NotSent};
use crate::input::Input;
use crate::keeping::{in_the_way, tell_book, tell_entry, tell_not_taken};
use crate::lists::Countries;
use crate::names::{counted, plain, sorted};
use crate::sending::Way;
use crate::table::replacements;
use crate::tell::{self, code_page, name, refusal_json, tell, End, Shown};
use desk::bookfile::{read_book, BookFile, BookFileError, Layout};
use desk::{Book, Entry, Prepared, Refusal, Totals};
use serde_json::{json, Value};
use std::io::{self, Write};
use std::path::Path;

/// More business days than offices are closed in a row.
const FAR: u32 = 20;

/// Makes a book file.
pub fn make(path: &Path, is_json: bool) -> Result<End, Failure> {
    let file = BookFile::create(path).map_err(failure)?;
    let book = file.book().clone();
    let written = file.write().map_err(failure)?;
    tell(is_json, || book_json("book new", path, &book), |out| tell_book(&book, out))?;
    written.put_in_place().map_err(failure)?;
    Ok(End::Done)
}

/// Tells what a book file holds.
pub fn list(path: &Path, is_json: bool) -> Result<End, Failure> {
    let book = read(path)?;
    let mut told = book_json("book list", path, &book);
    tell::add(&mut told, json!({ "files": book.held().iter().map(entry_json).collect::<Vec<Value>>() }));
    tell(
        is_json,
        || told,
        |out| {
            tell_book(&book, out)?;
            book.held().iter().try_for_each(|entry| tell_entry(entry, out))
        },
    )?;
    Ok(End::Done)
}

/// Tells the totals that a book has.
pub fn totals(path: &Path, is_json: bool) -> Result<End, Failure> {
    let book = read(path)?;
    let Totals { files, payments, euros } = book.totals();
    tell(
        is_json,
        || book_json("book totals", path, &book),
        |out| {
            writeln!(out, "totals on day {}: files {files}, payments {payments}, whole euros {euros}", book.day())?;
            tell_unknown(&book, out)
        },
    )?;
    Ok(End::Done)
}

/// Takes the number of a file, with the figures of what goes on.
pub fn take(words: &cli::Take, is_json: bool) -> Result<End, Failure> {
    let countries = Countries::of(words.reading.lists.lists.as_deref())?;
    let way = way(&words.reading, &countries, words.strict);
    let file = Input::open(&words.file)?.read()?;
    let sent = match send(way, &file)? {
        Ok(sent) => sent,
        Err(not_sent) => return refused(words, way, &file, &not_sent, is_json),
    };
    let number = desk::file_number(&file).expect("rules 11, 13 and 14 ask for digits");
    let Prepared { kept, returned, kept_euros, .. } = sent.figures;
    let asked = Entry { number, day: words.day, payments: kept as u64, euros: kept_euros };
    let (mut file, layout) = BookFile::open(&words.book).map_err(failure)?;
    say_layout(&words.book, layout);
    is_near(words, file.book())?;
    let held_before = file.book().held().len();
    if let Err(refusal) = file.take(asked.number, asked.day, asked.payments, asked.euros) {
        return not_taken(words, file.book(), asked, refusal, is_json);
    }
    let book = file.book().clone();
    let forgotten = held_before + 1 - book.held().len();
    let written = file.write().map_err(failure)?;
    let mut told = book_json("book take", &words.book, &book);
    let taken = json!({ "taken": true, "file": entry_json(&asked), "returned": returned, "forgotten": forgotten });
    tell::add(&mut told, taken);
    tell(
        is_json,
        || told,
        |out| {
            writeln!(out, "on {} {}", code_page(way.page), sorted(kept, returned))?;
            tell_entry(&asked, out)?;
            if forgotten > 0 {
                writeln!(out, "{} forgotten by this day", counted(forgotten, "earlier file number"))?;
            }
            tell_book(&book, out)
        },
    )?;
    written.put_in_place().map_err(failure)?;
    Ok(End::Done)
}

/// Tells why nothing of a file goes on: then its number is not taken.
fn refused(words: &cli::Take, way: Way, file: &[u8], not_sent: &NotSent, is_json: bool) -> Result<End, Failure> {
    let shown = Shown { page: way.page, table: &replacements(way.page) };
    let json = || {
        let mut told =
            json!({ "command": "book take", "book": name(&words.book), "page": way.page as u32, "taken": false });
        tell::add(&mut told, tell::not_sent_json(way, file, not_sent, &shown));
        told
    };
    tell(is_json, json, |out| tell::not_sent(way, file, not_sent, &shown, out))?;
    Ok(End::Refused)
}

/// Asks that a day is not far ahead of a book that holds something: typed too high it would make the book forget all of it, and
/// refuse the right days from then on.
fn is_near(words: &cli::Take, book: &Book) -> Result<(), Failure> {
    let ahead = words.day.saturating_sub(book.day());
    match ahead > FAR && !book.held().is_empty() && !words.jump {
        true => Err(format!(
            "day {} is {ahead} days after the book's, which would forget all that it holds; if it is right, add --jump",
            words.day
        )
        .into()),
        false => Ok(()),
    }
}

/// Tells why a number is not taken, and from which day on it might be.
fn not_taken(words: &cli::Take, book: &Book, asked: Entry, refusal: Refusal, is_json: bool) -> Result<End, Failure> {
    let mut told = book_json("book take", &words.book, book);
    let in_the_way = in_the_way(book, asked, refusal).map(entry_json);
    let file = entry_json(&asked);
    let refused = json!({ "taken": false, "file": file, "refusal": refusal_json(refusal), "in_the_way": in_the_way });
    tell::add(&mut told, refused);
    tell(is_json, || told, |out| tell_not_taken(book, asked, refusal, out))?;
    Ok(End::Refused)
}

/// A book that is looked at; what it lacks is said.
fn read(path: &Path) -> Result<Book, Failure> {
    let (book, layout) = read_book(path).map_err(failure)?;
    say_layout(path, layout);
    Ok(book)
}

/// Says how many held files have no figures: something goes on of each, so one without payments was taken before books had
/// any (docs/BOOK-FILE.md, version 1).
fn tell_unknown(book: &Book, out: &mut dyn Write) -> io::Result<()> {
    match without_figures(book) {
        0 => Ok(()),
        count => {
            let files = counted(count, "file");
            writeln!(out, "without the figures of {files}, taken before the book had any")
        }
    }
}

fn without_figures(book: &Book) -> usize {
    book.held().iter().filter(|entry| entry.payments == 0).count()
}

/// What a book has as a whole, for machines.
fn book_json(command: &str, path: &Path, book: &Book) -> Value {
    let Totals { files, payments, euros } = book.totals();
    json!({
        "command": command,
        "book": name(path),
        "day": book.day(),
        "held": files,
        "payments": payments,
        "euros": euros,
        "without_figures": without_figures(book),
    })
}

fn entry_json(entry: &Entry) -> Value {
    json!({
        "file_number": entry.number,
        "day": entry.day,
        "payments": entry.payments,
        "euros": entry.euros,
        "free_from": entry.free_from(),
    })
}

/// Says what a book that was read lacks.
fn say_layout(path: &Path, layout: Layout) {
    if let Some(notice) = layout.notice() {
        say(format!("kaaravizhe: {}: {notice}", plain(path)).into());
    }
}

fn failure(error: BookFileError) -> Failure {
    failed(error.path, &error.why)
}
