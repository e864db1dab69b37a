//! A host: keeps the numbers of the files that were sent in a book, so that none is sent twice. A file's number is taken on
//! a business day, which the office counts, and is forgotten five days later. With it the book has the payments and the whole
//! euros of what went on, and the totals of all that it holds.
//!
//!     book BOOK new                           makes a book file: on day 0, nothing is held
//!     book [--page 0|1] BOOK take DAY FILE    takes the number of FILE on DAY, if something of FILE goes on
//!     book BOOK list                          tells the book's day, what is held, and from which day on it is free
//!     book BOOK totals                        tells how many files, payments and whole euros are held on the book's day
//!
//! The page says at which codes FILE has the four German characters: 0 is DIN 66003, 1 is ISO 8859-1. Where none is named
//! it is 1. DAY is a number from 0 to 4294967295, in digits. A path that begins with - is written as ./-name.
//!
//! Something of FILE goes on where prepare, the default way, does not refuse it. Payments that break a rule come back: how
//! many is told, and they need a file of another number. They are not paid, so the book's figures are without them.
//!
//! The totals are those of the book's day, on which the last number was taken: what would be forgotten by today counts until
//! the next take. A book from before there were figures (version 1 in docs/BOOK-FILE.md) has none: they count as 0, and list,
//! totals and take say so on standard error. What take writes has version 2, and of that nothing is said: until older files
//! are forgotten, list tells them with 0 payments, and the totals are without them.
//!
//! It loses no number, and nothing that fails changes BOOK:
//! 1. new makes a file where nothing is. What is there already is never replaced.
//! 2. take reads FILE and prepares it in memory. Where it is refused, that is told, and BOOK is not touched.
//! 3. BOOK.new is made: the path of BOOK with .new behind it. Only one program can make it, so no two take a number at the
//!    same time. Where it is there already, as a killed run leaves it, it stays and the run ends.
//! 4. Only then is BOOK read. Every byte has to be as a desk writes it, or did in version 1, and BOOK to be a regular file, no
//!    symbolic link. The number is taken in memory. Where it is refused, that is told.
//! 5. The new book is written to BOOK.new, down to the disk, and all is told. Where it cannot be printed nothing is taken.
//! 6. BOOK.new is renamed to BOOK, in one step. So at every moment BOOK is the whole old book or the whole new one.
//!
//! Where a step fails or the number is refused, BOOK.new is removed, and BOOK is as it was, byte for byte. That a number is
//! taken is told before BOOK.new is renamed: where that fails it is said, and where a run is killed just then, list tells
//! whether the number is held. At last the directory is synced; where only that fails, the new book is in place, and it is
//! said that a power cut may undo it.
//!
//! Status 0: done; 1: FILE is refused, or its number is; 2: used wrongly, or something could not be read or written.

#[allow(dead_code)] // not all of it is used here
mod bookfile;
#[allow(dead_code)]
mod common;
#[allow(dead_code)]
mod desk;
mod keeping;

use bookfile::{read_book, BookFile, BookFileError, Layout};
use common::{ended, failed, joined, no_page, page_of, path_of, read, say, tell_refusal, told, wrong, Failure, T};
use desk::{Entry, Lists, Page, Prepared, Refusal, Totals};
use keeping::{tell_book, tell_entry, tell_not_taken};
use std::ffi::{OsStr, OsString};
use std::io::Write;
use std::path::Path;
use std::process::ExitCode;

const USAGE: &str =
    "usage: book BOOK new, or book [--page 0|1] BOOK take DAY FILE, or book BOOK list, or book BOOK totals";

/// What became of it: the status to end with.
#[derive(Clone, Copy)]
enum End {
    Done = 0,
    Refused = 1,
}

fn main() -> ExitCode {
    let words: Vec<OsString> = std::env::args_os().skip(1).collect();
    ended(work(&words).map(|end| end as u8))
}

/// What the words ask for.
fn work(words: &[OsString]) -> Result<End, Failure> {
    let (page, words) = match words {
        [option] if option == "--page" => return Err(no_page("--page names no page".into())),
        [option, word, behind @ ..] if option == "--page" => (Some(page_of(word)?), behind),
        _ => (None, words),
    };
    match (page, words) {
        (None, [book, work]) if work == "new" => make(path_of(book)?),
        (None, [book, work]) if work == "list" => list(path_of(book)?),
        (None, [book, work]) if work == "totals" => totals(path_of(book)?),
        (_, [book, work, day, file]) if work == "take" => {
            take(page.unwrap_or(Page::Iso8859_1), path_of(book)?, day_of(day)?, path_of(file)?)
        }
        _ => Err(USAGE.into()),
    }
}

/// The day that a word names.
fn day_of(word: &OsStr) -> Result<u32, Failure> {
    let digits = word.to_str().filter(|word| word.bytes().all(|byte| byte.is_ascii_digit()));
    let day = digits.and_then(|digits| digits.parse().ok());
    day.ok_or_else(|| joined(&[&"day ", &word, &": a day is a number from 0 to 4294967295, in digits"]))
}

/// Makes a book file.
fn make(path: &Path) -> Result<End, Failure> {
    let file = BookFile::create(path).map_err(failure)?;
    let book = file.book().clone();
    let written = file.write().map_err(failure)?;
    told(|out| tell_book(&book, out))?;
    written.put_in_place().map_err(failure)?;
    Ok(End::Done)
}

/// Tells what a book file holds.
fn list(path: &Path) -> Result<End, Failure> {
    let (book, layout) = read_book(path).map_err(failure)?;
    say_layout(path, layout);
    told(|out| {
        tell_book(&book, out)?;
        book.held().iter().try_for_each(|entry| tell_entry(entry, out))
    })?;
    Ok(End::Done)
}

/// Tells the totals that a book has.
fn totals(path: &Path) -> Result<End, Failure> {
    let (book, layout) = read_book(path).map_err(failure)?;
    say_layout(path, layout);
    let Totals { files, payments, euros } = book.totals();
    told(|out| writeln!(out, "totals on day {}: files {files}, payments {payments}, whole euros {euros}", book.day()))?;
    Ok(End::Done)
}

/// Takes the number of a file, with the figures of what goes on.
fn take(page: Page, book_path: &Path, day: u32, path: &Path) -> Result<End, Failure> {
    let file = read(path)?;
    let (number, sent) = match prepare(page, &file) {
        Ok(sent) => sent,
        Err(refusal) => {
            let judged = desk::judge(page, &file, Lists::ANNEXES, &[]).err();
            told(|out| tell_refusal(page, refusal, judged, out))?;
            return Ok(End::Refused);
        }
    };
    let asked = Entry { number, day, payments: sent.kept as u64, euros: sent.kept_euros };
    let (mut file, layout) = BookFile::open(book_path).map_err(failure)?;
    say_layout(book_path, layout);
    if let Err(refusal) = file.take(asked.number, asked.day, asked.payments, asked.euros) {
        told(|out| tell_not_taken(file.book(), asked, refusal, out))?;
        return Ok(End::Refused);
    }
    let book = file.book().clone();
    let written = file.write().map_err(failure)?;
    told(|out| {
        writeln!(out, "on {page} {} payments go on, {} come back", sent.kept, sent.returned)?;
        tell_entry(&asked, out)?;
        tell_book(&book, out)
    })?;
    written.put_in_place().map_err(failure)?;
    Ok(End::Done)
}

/// The number of a file of which something goes on, and how much.
fn prepare(page: Page, file: &[u8]) -> Result<(u64, Prepared), Refusal> {
    let (mut forwarded, mut notes) = (vec![0; file.len()], vec![0; file.len()]);
    let mut returned = vec![0; file.len() / T];
    let sent = desk::prepare(page, file, Lists::ANNEXES, &mut forwarded, &mut notes, &mut returned)?;
    let number = desk::file_number(file).expect("rules 11, 13 and 14 ask for digits");
    Ok((number, sent))
}

/// Says what a book that was read lacks.
fn say_layout(path: &Path, layout: Layout) {
    if let Some(notice) = layout.notice() {
        say(wrong(path, notice));
    }
}

fn failure(error: BookFileError) -> Failure {
    failed(error.path, &error.why)
}
