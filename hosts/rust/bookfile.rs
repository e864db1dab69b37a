//! The book of taken file numbers as text, and in a file. docs/BOOK-FILE.md has the layout; hosts/c/bookfile.c has the same.
//! This module stands beside desk.rs, under the same parent. It is tested, not proved; what a book is, the desk decides.
//!
//! A book that was saved before it had payments and euros is read too. Whatever reads a book answers its `Layout`, which tells
//! so, and a host has to hand that on.
//!
//! A book file is changed so that no number gets lost, where a program is killed, the disk is full, or two programs take a
//! number at the same time:
//! 1. `BookFile::open` makes a new file beside the book file, its path with `.new` behind it, and only then reads the book.
//!    While the new file is there no other program can make it: that one is refused, and may try again later. Where a
//!    killed program left such a file, it stays, and somebody has to remove it.
//! 2. A take changes the book in memory alone.
//! 3. `BookFile::write` writes the new file, down to the disk. `WrittenBook::put_in_place` renames it, over the book file.
//!    So at every moment the book file is the whole old one or the whole new one.
//!
//! Where a step fails, or where the host drops what it has got, the new file is removed, and the book file is as it was,
//! byte for byte. To read a book without changing it needs no new file (`read_book`).
//!
//! A book file is a regular file. A symbolic link is not followed: beside the link there would be another new file than
//! beside what it leads to, and two programs could be at work. The new file gets the permissions of the old one, and
//! belongs to whoever runs the program.

use super::desk::{Book, Entry, Refusal, BOOK_PLACES};
use std::ffi::{OsStr, OsString};
use std::fs::{self, File, OpenOptions, Permissions};
use std::io::{self, ErrorKind, Read, Write};
use std::os::unix::{ffi::OsStrExt, fs::PermissionsExt};
use std::path::{Path, PathBuf};
use std::str::{self, FromStr};
use std::{error, fmt};

/// The bytes of the longest text of a book, with all places held.
pub const MOST_BOOK_BYTES: usize = 55 + 53 * BOOK_PLACES;

/// Which layout a book was read in. What is written always has figures, the payments and the whole euros of each file.
#[derive(Clone, Copy, Debug, PartialEq, Eq)]
pub enum Layout {
    /// Version 1: the figures were not recorded. They are 0 in the book, so its totals are without them.
    WithoutFigures,
    /// Version 2.
    WithFigures,
}

/// Why bytes are no saved book: the line at which it shows, counted from 1, and what is wrong there.
#[derive(Clone, Copy, Debug, PartialEq, Eq)]
pub struct BookError {
    pub line: usize,
    pub flaw: Flaw,
}

/// What is wrong with a line. `Damaged` is told only where every line has its form and nothing is behind the last one, and
/// `NoSuchBook` only where the CRC is right too.
#[derive(Clone, Copy, Debug, PartialEq, Eq)]
pub enum Flaw {
    /// It does not begin as the first line of a book does.
    NotABook,
    /// It names another version of the layout.
    OtherVersion,
    /// The bytes end in this line, which is right so far.
    CutShort,
    /// It has not its form: what is due in this place.
    Malformed(&'static str),
    /// The book ends before this line.
    BytesBehind,
    /// It stores another CRC than the lines before it have.
    Damaged { stored: u32, found: u32 },
    /// No takes leave such a book: why not.
    NoSuchBook(&'static str),
}

/// What cannot be done with a book file: at which path, and why.
#[derive(Debug)]
pub struct BookFileError {
    pub path: PathBuf,
    pub why: Trouble,
}

/// Why something cannot be done with a book file.
#[derive(Debug)]
pub enum Trouble {
    /// A new book file is to be where something is already.
    Exists,
    /// The new file is there already: another program is at work, or was killed.
    InUse,
    /// It is a symbolic link, a directory or a device.
    NotRegular,
    /// It holds no book.
    Text(BookError),
    /// The system refuses it.
    System(io::Error),
    /// The new book is in place, but the disk may not have kept that.
    NotKept(io::Error),
}

/// A book file at work: no other program can change it while this value is there. It changes only when the book is
/// written and put in place; dropped before, nothing has happened.
#[derive(Debug)]
#[must_use = "nothing is taken before the book is written and put in place"]
pub struct BookFile {
    lock: Lock,
    book: Book,
}

/// A book that is written down to the disk, and not yet in place.
#[derive(Debug)]
#[must_use = "nothing is taken before the book is put in place"]
pub struct WrittenBook {
    lock: Lock,
}

impl Book {
    /// The book as text, by version 2 of docs/BOOK-FILE.md: 55 bytes, and 53 for each held number. The totals are not in it,
    /// for they follow from what is held.
    pub fn to_text(&self) -> Vec<u8> {
        let mut text = format!("KAARAVIZHE BOOK 2\nDAY {:010}\nHELD {:03}\n", self.day(), self.held().len());
        for Entry { number, day, payments, euros } in self.held() {
            text += &format!("{number:020} {day:010} {payments:04} {euros:015}\n");
        }
        text += &format!("CRC {:08X}\n", crc_32(text.as_bytes()));
        text.into_bytes()
    }

    /// The book of which this is the text, and the layout of that. Everything that `to_text` never gives, nor gave in
    /// version 1, is refused.
    pub fn from_text(text: &[u8]) -> Result<(Book, Layout), BookError> {
        let mut lines = Lines { rest: text, line: LINE_OF_NAME };
        let layout = lines.name()?;
        let day = lines.next(&DAY, |line| number(&line[4..14]))?;
        let held = lines.next(&HELD, |line| number(&line[5..8]).filter(|&held| held <= BOOK_PLACES))?;
        let mut entries = Vec::with_capacity(held);
        for _ in 0..held {
            entries.push(lines.entry(layout)?);
        }
        let (crc_line, before) = (lines.line, text.len() - lines.rest.len());
        let stored = lines.next(&CRC, |line| u32::from_str_radix(str::from_utf8(&line[4..12]).ok()?, 16).ok())?;
        let found = crc_32(&text[..before]);
        match lines.rest {
            [] if stored == found => Ok((taken_anew(day, &entries)?, layout)),
            [] => Err(BookError { line: crc_line, flaw: Flaw::Damaged { stored, found } }),
            _ => Err(lines.flaw(Flaw::BytesBehind)),
        }
    }
}

impl Layout {
    /// What a host has to tell of a book that was read; nothing where it has all figures.
    pub fn notice(&self) -> Option<&'static str> {
        match self {
            Layout::WithoutFigures => Some(WITHOUT_FIGURES),
            Layout::WithFigures => None,
        }
    }
}

/// The CRC-32 of zip and gzip: reflected, polynomial 0xEDB88320.
pub fn crc_32(bytes: &[u8]) -> u32 {
    !bytes.iter().fold(u32::MAX, |crc, &byte| {
        (0..8).fold(crc ^ u32::from(byte), |crc, _| if crc & 1 == 1 { crc >> 1 ^ 0xEDB8_8320 } else { crc >> 1 })
    })
}

/// The book that takes of these entries leave, in this order. Takes of what a book holds leave that very book, its totals too
/// (docs/RULES.md, 9.11): so where it is not on this day, or an entry is refused or forgotten by a later one, there is no such
/// book. 53 does not occur, for the digits of the figures are few enough; nor does 51, for there are no more than 200.
fn taken_anew(day: u32, entries: &[Entry]) -> Result<Book, BookError> {
    let mut book = Book::new();
    for (i, entry) in entries.iter().enumerate() {
        let why = match book.take(entry.number, entry.day, entry.payments, entry.euros) {
            Ok(()) if book.held().len() == i + 1 => continue,
            Ok(()) => "by this day a number of an earlier line is forgotten",
            Err(Refusal { number: 50, .. }) => "the number stands in an earlier line too",
            Err(_) => "the day is earlier than in the line before",
        };
        return Err(BookError { line: LINE_OF_FIRST + i, flaw: Flaw::NoSuchBook(why) });
    }
    match book.day() == day {
        true => Ok(book),
        false => Err(BookError { line: LINE_OF_DAY, flaw: Flaw::NoSuchBook(OTHER_DAY) }),
    }
}

const LINE_OF_NAME: usize = 1;
const LINE_OF_DAY: usize = 2;
const LINE_OF_FIRST: usize = 4;
const OTHER_DAY: &str = "its day is that of the last number in it, and 0 where there is none";
const WITHOUT_FIGURES: &str =
    "line 1: version 1 of the layout has no payments and euros; those of the files in it count as 0";

/// What the first line has in front of the version.
const NAME: &[u8] = b"KAARAVIZHE BOOK ";

/// A form of lines: a pattern, in which 0 stands for any digit and X for any capital hex digit, and what it says.
struct Form {
    pattern: &'static [u8],
    due: &'static str,
}

const DAY: Form = form(b"DAY 0000000000\n", "DAY, a space, 10 digits (at most 4294967295) and a line end (LF)");
const HELD: Form = form(b"HELD 000\n", "HELD, a space, 3 digits (at most 200) and a line end (LF)");
const ENTRY: Form = form(
    b"00000000000000000000 0000000000 0000 000000000000000\n",
    "20 digits (at most 18446744073709551615), a space, 10 digits (at most 4294967295), a space, 4 digits, a space, \
        15 digits and a line end (LF)",
);
/// Of version 1.
const ENTRY_1: Form = form(
    b"00000000000000000000 0000000000\n",
    "20 digits (at most 18446744073709551615), a space, 10 digits (at most 4294967295) and a line end (LF)",
);
const CRC: Form = form(b"CRC XXXXXXXX\n", "CRC, a space, 8 hex digits (0 to 9, A to F) and a line end (LF)");

const fn form(pattern: &'static [u8], due: &'static str) -> Form {
    Form { pattern, due }
}

/// What is not yet read of a text, and the number of its first line.
struct Lines<'a> {
    rest: &'a [u8],
    line: usize,
}

impl Lines<'_> {
    fn flaw(&self, flaw: Flaw) -> BookError {
        BookError { line: self.line, flaw }
    }

    /// Reads the first line, which names the version.
    fn name(&mut self) -> Result<Layout, BookError> {
        let (name, behind) = self.rest.split_at(self.rest.len().min(NAME.len()));
        let digits = behind.iter().take_while(|byte| byte.is_ascii_digit()).count();
        let (version, behind) = behind.split_at(digits);
        match (version, behind) {
            _ if !NAME.starts_with(name) => Err(self.flaw(Flaw::NotABook)),
            (_, []) => Err(self.flaw(Flaw::CutShort)),
            (b"1" | b"2", [b'\n', rest @ ..]) => {
                *self = Lines { rest, line: self.line + 1 };
                Ok(if version == b"1" { Layout::WithoutFigures } else { Layout::WithFigures })
            }
            ([_, ..], [b'\n', ..]) => Err(self.flaw(Flaw::OtherVersion)),
            _ => Err(self.flaw(Flaw::Malformed("KAARAVIZHE BOOK, a space, 1 or 2, and a line end (LF)"))),
        }
    }

    /// Reads the line of a held number. Payments and euros have no more digits than a take passes; in version 1 they are 0.
    fn entry(&mut self, layout: Layout) -> Result<Entry, BookError> {
        let pair = |line: &[u8]| {
            let (number, day) = (number(&line[..20])?, number(&line[21..31])?);
            Some(Entry { number, day, payments: 0, euros: 0 })
        };
        match layout {
            Layout::WithoutFigures => self.next(&ENTRY_1, pair),
            Layout::WithFigures => self.next(&ENTRY, |line| {
                let (payments, euros) = (number(&line[32..36])?, number(&line[37..52])?);
                Some(Entry { payments, euros, ..pair(line)? })
            }),
        }
    }

    /// Reads a line of this form, in which a number may still be too high.
    fn next<T>(&mut self, form: &Form, value: impl FnOnce(&[u8]) -> Option<T>) -> Result<T, BookError> {
        let Form { pattern, due } = form;
        let malformed = self.flaw(Flaw::Malformed(due));
        if !self.rest.iter().zip(*pattern).all(|(&byte, &due)| fits(byte, due)) {
            return Err(malformed);
        }
        if self.rest.len() < pattern.len() {
            return Err(self.flaw(Flaw::CutShort));
        }
        let (line, rest) = self.rest.split_at(pattern.len());
        *self = Lines { rest, line: self.line + 1 };
        value(line).ok_or(malformed)
    }
}

fn fits(byte: u8, due: u8) -> bool {
    match due {
        b'0' => byte.is_ascii_digit(),
        b'X' => matches!(byte, b'0'..=b'9' | b'A'..=b'F'),
        _ => byte == due,
    }
}

/// Digits as a number; `None` where it is too high.
fn number<T: FromStr>(digits: &[u8]) -> Option<T> {
    str::from_utf8(digits).ok()?.parse().ok()
}

/// The book of a book file, to be looked at, and its layout. It waits for no other program: that one's book is there as a
/// whole, or not yet.
pub fn read_book(path: impl AsRef<Path>) -> Result<(Book, Layout), BookFileError> {
    read(path.as_ref()).map(|(book, layout, _)| (book, layout))
}

impl BookFile {
    /// A new book, for a path at which nothing is.
    pub fn create(path: impl Into<PathBuf>) -> Result<BookFile, BookFileError> {
        let path = path.into();
        match fs::symlink_metadata(&path) {
            Ok(_) => return Err(trouble(&path, Trouble::Exists)),
            Err(error) if error.kind() == ErrorKind::NotFound => {}
            Err(error) => return Err(trouble(&path, Trouble::System(error))),
        }
        Ok(BookFile { lock: Lock::new(path, false)?, book: Book::new() })
    }

    /// The book of a book file, to be changed, and the layout that the file has so far.
    pub fn open(path: impl Into<PathBuf>) -> Result<(BookFile, Layout), BookFileError> {
        let lock = Lock::new(path.into(), true)?;
        let (book, layout, permissions) = read(&lock.path)?;
        lock.new_file.set_permissions(permissions).map_err(|error| trouble(&lock.new_path, Trouble::System(error)))?;
        Ok((BookFile { lock, book }, layout))
    }

    pub fn book(&self) -> &Book {
        &self.book
    }

    /// Takes a file number, as `Book::take` does: the file does not change yet.
    pub fn take(&mut self, number: u64, day: u32, payments: u64, euros: u64) -> Result<(), Refusal> {
        self.book.take(number, day, payments, euros)
    }

    /// Writes the book down to the disk, beside its place.
    pub fn write(self) -> Result<WrittenBook, BookFileError> {
        let BookFile { mut lock, book } = self;
        let written = lock.new_file.write_all(&book.to_text()).and_then(|()| lock.new_file.sync_all());
        written.map_err(|error| trouble(&lock.new_path, Trouble::System(error)))?;
        Ok(WrittenBook { lock })
    }

    /// Writes the book and puts it in place: for a host that has nothing to tell in between.
    pub fn save(self) -> Result<(), BookFileError> {
        self.write()?.put_in_place()
    }
}

impl WrittenBook {
    /// Puts the book in place of the old one, or of a new book file where nothing is.
    pub fn put_in_place(mut self) -> Result<(), BookFileError> {
        self.lock.put_in_place()?;
        match self.lock.directory.sync_all() {
            Ok(()) => Ok(()),
            Err(error) if error.kind() == ErrorKind::InvalidInput => Ok(()), // a file system that does not offer it
            Err(error) => Err(trouble(&self.lock.path, Trouble::NotKept(error))),
        }
    }
}

/// The new file beside a book file: it is removed with this value, unless it is in place by then.
#[derive(Debug)]
struct Lock {
    path: PathBuf,
    new_path: PathBuf,
    new_file: File,
    directory: File,
    replaces: bool,
    is_in_place: bool,
}

impl Lock {
    /// Makes the new file, which will replace a book file or be one.
    fn new(path: PathBuf, replaces: bool) -> Result<Lock, BookFileError> {
        let directory = File::open(directory_of(&path)).map_err(|error| trouble(&path, Trouble::System(error)))?;
        let mut new_path = OsString::from(&path);
        new_path.push(".new");
        let new_path = PathBuf::from(new_path);
        match OpenOptions::new().write(true).create_new(true).open(&new_path) {
            Ok(new_file) => Ok(Lock { path, new_path, new_file, directory, replaces, is_in_place: false }),
            Err(error) if error.kind() == ErrorKind::AlreadyExists => Err(trouble(&new_path, Trouble::InUse)),
            Err(error) => Err(trouble(&new_path, Trouble::System(error))),
        }
    }

    /// Gives the new file the book file's name. Where there is to be no book file yet it is linked, which fails where one has
    /// come there meanwhile; so the file system has to have links.
    fn put_in_place(&mut self) -> Result<(), BookFileError> {
        let Lock { path, new_path, .. } = self;
        if self.replaces {
            fs::rename(&new_path, &path).map_err(|error| trouble(path, Trouble::System(error)))?;
        } else {
            fs::hard_link(&new_path, &path).map_err(|error| match error.kind() {
                ErrorKind::AlreadyExists => trouble(path, Trouble::Exists),
                _ => trouble(path, Trouble::System(error)),
            })?;
            fs::remove_file(&new_path).map_err(|error| {
                let _ = fs::remove_file(&path); // what failed first is what is told
                trouble(new_path, Trouble::System(error))
            })?;
        }
        self.is_in_place = true;
        Ok(())
    }
}

impl Drop for Lock {
    fn drop(&mut self) {
        if !self.is_in_place {
            let _ = fs::remove_file(&self.new_path); // what failed before is what is told
        }
    }
}

/// The book of a regular file, the layout of that, and its permissions.
fn read(path: &Path) -> Result<(Book, Layout, Permissions), BookFileError> {
    let system = |error| trouble(path, Trouble::System(error));
    let metadata = fs::symlink_metadata(path).map_err(system)?;
    if !metadata.is_file() {
        return Err(trouble(path, Trouble::NotRegular));
    }
    let mut text = Vec::new();
    let file = File::open(path).map_err(system)?;
    file.take(MOST_BOOK_BYTES as u64 + 1).read_to_end(&mut text).map_err(system)?;
    let (book, layout) = Book::from_text(&text).map_err(|error| trouble(path, Trouble::Text(error)))?;
    Ok((book, layout, Permissions::from_mode(metadata.permissions().mode() & 0o777)))
}

/// The directory in which a path's last name stands. The empty path is in none.
fn directory_of(path: &Path) -> &Path {
    let bytes = path.as_os_str().as_bytes();
    match bytes.iter().rposition(|&byte| byte == b'/') {
        Some(slash) => Path::new(OsStr::from_bytes(&bytes[..=slash])),
        None if bytes.is_empty() => path,
        None => Path::new("."),
    }
}

fn trouble(path: &Path, why: Trouble) -> BookFileError {
    BookFileError { path: path.into(), why }
}

/// `line 3: the book is cut short here`.
impl fmt::Display for BookError {
    fn fmt(&self, f: &mut fmt::Formatter) -> fmt::Result {
        write!(f, "line {}: {}", self.line, self.flaw)
    }
}

impl fmt::Display for Flaw {
    fn fmt(&self, f: &mut fmt::Formatter) -> fmt::Result {
        match self {
            Flaw::NotABook => f.write_str("not a book file"),
            Flaw::OtherVersion => f.write_str("another version of the layout; this desk reads versions 1 and 2"),
            Flaw::CutShort => f.write_str("the book is cut short here"),
            Flaw::Malformed(due) => write!(f, "malformed; due is {due}"),
            Flaw::BytesBehind => f.write_str("bytes behind the end of the book"),
            Flaw::Damaged { stored, found } => {
                write!(f, "damaged; the stored CRC is {stored:08X}, and the lines before it have {found:08X}")
            }
            Flaw::NoSuchBook(why) => write!(f, "no desk leaves such a book; {why}"),
        }
    }
}

impl fmt::Display for BookFileError {
    fn fmt(&self, f: &mut fmt::Formatter) -> fmt::Result {
        write!(f, "{}: {}", self.path.display(), self.why)
    }
}

impl fmt::Display for Trouble {
    fn fmt(&self, f: &mut fmt::Formatter) -> fmt::Result {
        match self {
            Trouble::Exists => f.write_str("is there already, and is not written over"),
            Trouble::InUse => f.write_str(
                "is there already: another program is at work on the book, or was killed; if none is at work, remove this file",
            ),
            Trouble::NotRegular => f.write_str("is not a regular file; a symbolic link is not followed"),
            Trouble::Text(error) => error.fmt(f),
            Trouble::System(error) => error.fmt(f),
            Trouble::NotKept(error) => write!(f, "the new book is in place, but a power cut may undo it: {error}"),
        }
    }
}

impl error::Error for BookError {}

impl error::Error for BookFileError {}
