//! Tests of the book file: its text, of which docs/BOOK-FILE.md has the layout and hosts/rust/bookfile.rs and
//! hosts/c/bookfile.c have the same; and how hosts/rust/bookfile.rs changes it.

#[path = "../hosts/rust/bookfile.rs"]
mod bookfile;
#[allow(dead_code)] // not every call is made here
#[path = "../hosts/rust/desk.rs"]
mod desk;

use bookfile::Layout::{WithFigures, WithoutFigures};
use bookfile::{crc_32, read_book, BookError, BookFile, BookFileError, Flaw, Layout, Trouble, MOST_BOOK_BYTES};
use desk::{Book, Entry, Refusal, Totals};
use std::collections::HashSet;
use std::fs;
use std::os::unix::fs::{symlink, PermissionsExt};
use std::path::{Path, PathBuf};

/// A held file: its number, the day on which it was taken, its payments and its whole euros.
type Row = (u64, u32, u64, u64);

/// A book's day and what it holds.
type Rows = (u32, Vec<Row>);

const NOTICE: &str = "line 1: version 1 of the layout has no payments and euros; those of the files in it count as 0";

fn row(entry: &Entry) -> Row {
    let Entry { number, day, payments, euros } = *entry;
    (number, day, payments, euros)
}

fn rows(book: &Book) -> Rows {
    (book.day(), book.held().iter().map(row).collect())
}

/// What version 1 keeps of a book: its figures count as 0.
fn without_figures((day, held): &Rows) -> Rows {
    (*day, held.iter().map(|&(number, day, ..)| (number, day, 0, 0)).collect())
}

/// The book that these takes leave, none of which is refused.
fn book_of(takes: &[Row]) -> Book {
    let mut book = Book::new();
    for &(number, day, payments, euros) in takes {
        assert_eq!(book.take(number, day, payments, euros), Ok(()));
    }
    book
}

/// Lines, and behind them that of their CRC.
fn sealed(lines: &str) -> Vec<u8> {
    format!("{lines}CRC {:08X}\n", crc_32(lines.as_bytes())).into_bytes()
}

/// What docs/BOOK-FILE.md says of a book in this layout, whether takes leave it or not.
fn text_in(layout: Layout, (day, held): &Rows) -> Vec<u8> {
    let version = if layout == WithFigures { 2 } else { 1 };
    let line = |&(number, day, payments, euros): &Row| match layout {
        WithFigures => format!("{number:020} {day:010} {payments:04} {euros:015}\n"),
        WithoutFigures => format!("{number:020} {day:010}\n"),
    };
    let lines: String = held.iter().map(line).collect();
    sealed(&format!("KAARAVIZHE BOOK {version}\nDAY {day:010}\nHELD {:03}\n{lines}", held.len()))
}

fn text_of(book: &Rows) -> Vec<u8> {
    text_in(WithFigures, book)
}

/// What both languages read, which has to be the same: the book and its layout, or what is wrong. In C the layout is told by
/// the message.
fn read(text: &[u8]) -> Result<(Rows, Layout), String> {
    let read = Book::from_text(text).map(|(book, layout)| (rows(&book), layout)).map_err(|error| error.to_string());
    let message = |layout: Layout| if layout == WithFigures { "" } else { NOTICE }.to_string();
    assert_eq!(c::read(text), read.clone().map(|(rows, layout)| (rows, message(layout))));
    read
}

#[test]
fn what_is_told_of_a_layout() {
    assert_eq!((WithFigures.notice(), WithoutFigures.notice()), (None, Some(NOTICE)));
    assert!(include_str!("../docs/BOOK-FILE.md").contains(&format!("\n\n    {NOTICE}\n\n")));
}

/// The books of docs/BOOK-FILE.md: its indented lines that follow one another.
fn examples() -> Vec<String> {
    let page = include_str!("../docs/BOOK-FILE.md");
    let blocks = page.split("\n\n").filter(|block| block.starts_with("    KAARAVIZHE"));
    blocks.map(|block| block.lines().map(|line| line.trim_start().to_string() + "\n").collect()).collect()
}

#[test]
fn the_page_s_own_books() {
    let old = [(1226111601, 20407, 0, 0), (1226111602, 20410, 0, 0)];
    let books = [
        (book_of(&[(1226111601, 20407, 3, 1199), (1226111602, 20410, 2, 349)]), WithFigures, 161),
        (Book::new(), WithFigures, 55),
        (book_of(&old), WithoutFigures, 119),
        (book_of(&[old[0], old[1], (1226111603, 20411, 3, 1219)]), WithFigures, 214),
    ];
    let examples = examples();
    assert_eq!(examples.len(), books.len());
    for ((book, layout, bytes), example) in books.iter().zip(&examples) {
        assert_eq!(example.len(), *bytes);
        assert_eq!(read(example.as_bytes()), Ok((rows(book), *layout)));
        assert_eq!(Book::from_text(example.as_bytes()), Ok((book.clone(), *layout)));
        assert_eq!(text_in(*layout, &rows(book)), example.as_bytes());
        if *layout == WithFigures {
            assert_eq!(book.to_text(), example.as_bytes());
            assert_eq!(c::write(&rows(book)), example.as_bytes());
        }
    }
    assert_eq!(books[0].0.totals(), Totals { files: 2, payments: 5, euros: 1548 });
    let (mut book, _) = Book::from_text(examples[2].as_bytes()).unwrap();
    assert_eq!(book.totals(), Totals { files: 2, payments: 0, euros: 0 });
    assert_eq!(book.take(1226111603, 20411, 3, 1219), Ok(()));
    assert_eq!(book.to_text(), examples[3].as_bytes());
}

#[test]
fn crc() {
    for (bytes, due) in [("123456789", 0xCBF4_3926), ("", 0), ("a", 0xE8B7_BE43)] {
        assert_eq!(crc_32(bytes.as_bytes()), due);
        assert_eq!(c::crc_32(bytes.as_bytes()), due);
    }
}

/// In version 2 with its totals; in version 1 without figures.
#[test]
fn what_is_saved_is_read() {
    let (most_payments, most_euros) = (9_999, 999_999_999_999_999);
    let last = |i: u64| (u64::MAX - i, u32::MAX - 4 + i as u32 / 40, most_payments, most_euros - i);
    let books = [
        vec![(0, 0, 0, 0)],
        vec![(u64::MAX, u32::MAX, most_payments, most_euros)],
        vec![(1, 0, 10, 11), (2, 0, 12, 13), (3, 4, 14, 15), (1, 5, 16, 17)],
        vec![(1, 7, 1000, 0), (2, 11, 0, 1), (1, 12, 0, 0), (3, 12, 1, 100_000_000_000_000)],
        (0..200).map(last).collect(),
    ];
    for book in books.map(|takes| book_of(&takes)) {
        let text = book.to_text();
        assert_eq!(text, text_of(&rows(&book)));
        assert_eq!(text.len(), 55 + 53 * book.held().len());
        assert_eq!(c::write(&rows(&book)), text);
        assert_eq!(Book::from_text(&text), Ok((book.clone(), WithFigures)));
        assert_eq!(read(&text), Ok((rows(&book), WithFigures)));
        let old = text_in(WithoutFigures, &rows(&book));
        assert_eq!(old.len(), 55 + 32 * book.held().len());
        assert_eq!(read(&old), Ok((without_figures(&rows(&book)), WithoutFigures)));
    }
    assert_eq!(MOST_BOOK_BYTES, 10_655);
}

/// Every byte counts, in both versions: each other value at each place, each byte less and each byte more.
#[test]
fn nothing_else_is_read() {
    let book = rows(&book_of(&[(1226111601, 7, 3, 1199), (0, 8, 0, 0), (u64::MAX, 11, 9999, 999_999_999_999_999)]));
    for (layout, bytes) in [(WithFigures, 214), (WithoutFigures, 151)] {
        let text = text_in(layout, &book);
        assert_eq!((text.len(), read(&text).is_ok()), (bytes, true));
        for place in 0..text.len() {
            for other in (0..=255).filter(|&byte| byte != text[place]) {
                let mut changed = text.clone();
                changed[place] = other;
                assert!(read(&changed).is_err(), "{other} at {place}");
            }
        }
        for bytes in 0..text.len() {
            let line = text[..bytes].iter().filter(|&&byte| byte == b'\n').count() + 1;
            assert_eq!(read(&text[..bytes]), Err(format!("line {line}: the book is cut short here")));
        }
        for byte in 0..=255 {
            let due = Err("line 8: bytes behind the end of the book".to_string());
            assert_eq!(read(&[&text[..], &[byte]].concat()), due);
        }
    }
}

/// A file of this number on this day, with figures of its own.
fn file_on(number: u64, day: u32) -> Row {
    (number, day, 10 * number + u64::from(day), 100 * u64::from(day) + number)
}

/// All files of so many numbers on so many days.
fn files(numbers: u64, days: u32) -> Vec<Row> {
    (0..numbers).flat_map(|number| (0..days).map(move |day| file_on(number, day))).collect()
}

/// All books that takes of these files leave.
fn left_by_takes(files: &[Row]) -> HashSet<Rows> {
    let mut left = HashSet::from([rows(&Book::new())]);
    let mut ends = vec![Book::new()];
    while let Some(book) = ends.pop() {
        for &(number, day, payments, euros) in files {
            let mut next = book.clone();
            if next.take(number, day, payments, euros).is_ok() && left.insert(rows(&next)) {
                ends.push(next);
            }
        }
    }
    left
}

/// Of all that could stand in a text with up to three numbers, those of which takes leave the book, and no others.
#[test]
fn exactly_what_takes_leave() {
    let days = 7;
    let files = files(3, days);
    let left = left_by_takes(&files);
    let mut lists: Vec<Vec<Row>> = vec![vec![]];
    for count in 0..3 {
        let longer = lists.iter().filter(|list| list.len() == count);
        let longer: Vec<_> = longer.flat_map(|list| files.iter().map(|&file| [&list[..], &[file]].concat())).collect();
        lists.extend(longer);
    }
    let books: Vec<Rows> = lists.into_iter().flat_map(|list| (0..days).map(move |day| (day, list.clone()))).collect();
    assert_eq!(books.len(), 7 * (1 + 21 + 21 * 21 + 21 * 21 * 21));
    for book in &books {
        let text = text_of(book);
        assert_eq!(read(&text).ok(), left.get(book).map(|book| (book.clone(), WithFigures)), "{book:?}");
        assert_eq!(c::write(book), if left.contains(book) { text } else { Vec::new() }, "{book:?}");
        let old = left.get(book).map(|book| (without_figures(book), WithoutFigures));
        assert_eq!(read(&text_in(WithoutFigures, book)).ok(), old, "{book:?}");
    }
    assert_eq!(books.iter().filter(|book| left.contains(book)).count(), left.len());
}

/// The text of a book of one number, on day 7, with something else in place of a part of its lines.
fn with_in(layout: Layout, part: &str, other: &str) -> Vec<u8> {
    let one = String::from_utf8(text_in(layout, &(7, vec![(1, 7, 3, 1199)]))).unwrap();
    let lines = &one[..one.len() - 13];
    assert!(lines.contains(part));
    sealed(&lines.replacen(part, other, 1))
}

fn with(part: &str, other: &str) -> Vec<u8> {
    with_in(WithFigures, part, other)
}

/// Each text is told as it is told here.
fn told(cases: &[(Vec<u8>, &str)]) {
    for (text, due) in cases {
        assert_eq!(read(text), Err(due.to_string()), "{}", String::from_utf8_lossy(text));
    }
}

#[test]
fn flaws_of_the_first_line() {
    let other = "line 1: another version of the layout; this desk reads versions 1 and 2";
    let malformed = "line 1: malformed; due is KAARAVIZHE BOOK, a space, 1 or 2, and a line end (LF)";
    told(&[
        (b"\n".to_vec(), "line 1: not a book file"),
        (b"KAARAVIZHE\n".to_vec(), "line 1: not a book file"),
        (with("KAARAVIZHE", "Kaaravizhe"), "line 1: not a book file"),
        ([b"\xEF\xBB\xBF", &with("", "")[..]].concat(), "line 1: not a book file"),
        (b"KAARAVIZHE BOOK 22".to_vec(), "line 1: the book is cut short here"),
    ]);
    for (layout, version) in [(WithFigures, "BOOK 2"), (WithoutFigures, "BOOK 1")] {
        for digits in ["0", "3", "9", "10", "11", "12", "21", "22", "01", "02", "20", "4294967297", "4294967298"] {
            told(&[(with_in(layout, version, &format!("BOOK {digits}")), other)]);
        }
        for behind in ["", " ", "1 ", "2 ", "3 ", " 1", "-1", "1.0", "2\r", "1\r", "II"] {
            told(&[(with_in(layout, version, &format!("BOOK {behind}")), malformed)]);
        }
    }
}

/// What is due in a line, and a line end behind it.
fn malformed(line: usize, due: &str) -> String {
    format!("line {line}: malformed; due is {due} and a line end (LF)")
}

const DAY: &str = "DAY, a space, 10 digits (at most 4294967295)";
const HELD: &str = "HELD, a space, 3 digits (at most 200)";
const CRC: &str = "CRC, a space, 8 hex digits (0 to 9, A to F)";

/// What is due in the line of a number.
fn entry_due(layout: Layout) -> String {
    let figures = if layout == WithFigures { ", a space, 4 digits, a space, 15 digits" } else { "" };
    format!("20 digits (at most 18446744073709551615), a space, 10 digits (at most 4294967295){figures}")
}

/// Flaws that both versions have.
#[test]
fn flaws_of_other_lines() {
    for layout in [WithFigures, WithoutFigures] {
        let with = |part: &str, other: &str| with_in(layout, part, other);
        let [entry, second] = [4, 5].map(|line| malformed(line, &entry_due(layout)));
        let mut lines = with("", "");
        lines.truncate(lines.len() - 13);
        let ended = |end: &str| [&lines, end.as_bytes()].concat();
        let found = crc_32(&lines);
        let damaged = format!("line 5: damaged; the stored CRC is 00000000, and the lines before it have {found:08X}");
        told(&[
            (with("DAY 0", "DAY "), &malformed(2, DAY)),
            (with("DAY 0000000007", "DAY 4294967296"), &malformed(2, DAY)),
            (with("DAY 0000000007", "DAY          7"), &malformed(2, DAY)),
            (with("7\nHELD", "7\r\nHELD"), &malformed(2, DAY)),
            (with("HELD 001", "HELD 201"), &malformed(3, HELD)),
            (with("HELD 001", "HELD 1"), &malformed(3, HELD)),
            (with("HELD 001", "HELD 000"), &malformed(4, CRC)),
            (with("HELD 001", "HELD 002"), &second),
            (with("00000000000000000001", "18446744073709551616"), &entry),
            (with("00000000000000000001", "99999999999999999999"), &entry),
            (with("1 0000000007", "1 4294967296"), &entry),
            (with("1 0000000007", "1  000000007"), &entry),
            (ended("CRC 0000000G\n"), &malformed(5, CRC)),
            (ended("CRC abcdef00\n"), &malformed(5, CRC)),
            (ended("crc 00000000\n"), &malformed(5, CRC)),
            (ended("X"), &malformed(5, CRC)),
            (ended("CRC 0000000"), "line 5: the book is cut short here"),
            (ended("CRC 00000000\n"), &damaged),
            (ended("CRC 00000000\n\n"), "line 6: bytes behind the end of the book"),
        ]);
    }
}

/// Payments and euros have their digits, no more and no fewer; and no line of the one version is in a book of the other.
#[test]
fn flaws_of_figures() {
    let [entry, old_entry] = [WithFigures, WithoutFigures].map(|layout| malformed(4, &entry_due(layout)));
    let figures = " 0003 000000000001199";
    let others = [
        "",
        " 0003",
        " 003 000000000001199",
        " 10000 000000000001199",
        " 0003 00000000001199",
        " 0003 1000000000000000",
        "  003 000000000001199",
        " 0003  00000000001199",
        " -003 000000000001199",
        " 0003 +00000000001199",
        " 0003  000000000001199",
        " 0003 000000000001199 ",
        "\t0003 000000000001199",
        " 0003 000000000001199\r",
        " 0003 00000000000119,",
    ];
    for other in others {
        told(&[(with(figures, other), &entry)]);
    }
    told(&[
        (with("BOOK 2", "BOOK 1"), &old_entry),
        (with_in(WithoutFigures, "BOOK 1", "BOOK 2"), &entry),
        (with_in(WithoutFigures, "1 0000000007", "1 0000000007 0003 000000000001199"), &old_entry),
    ]);
    let largest = with(figures, " 9999 999999999999999");
    assert_eq!(read(&largest), Ok(((7, vec![(1, 7, 9_999, 999_999_999_999_999)]), WithFigures)));
}

/// Every line is right by itself. What is wrong is told only where the CRC is right.
#[test]
fn no_such_books() {
    const OTHER_DAY: &str =
        "line 2: no desk leaves such a book; its day is that of the last number in it, and 0 where there is none";
    let cases = [
        (8, vec![(1, 7), (1, 8)], "line 5: no desk leaves such a book; the number stands in an earlier line too"),
        (8, vec![(1, 8), (2, 7)], "line 5: no desk leaves such a book; the day is earlier than in the line before"),
        (
            8,
            vec![(1, 3), (1, 8)],
            "line 5: no desk leaves such a book; by this day a number of an earlier line is forgotten",
        ),
        (8, vec![(1, 7)], OTHER_DAY),
        (6, vec![(1, 7)], OTHER_DAY),
        (7, vec![], OTHER_DAY),
    ];
    for (day, pairs, due) in cases {
        let book = (day, pairs.into_iter().map(|(number, day)| file_on(number, day)).collect());
        for mut text in [WithFigures, WithoutFigures].map(|layout| text_in(layout, &book)) {
            told(&[(text.clone(), due)]);
            let last = text.len() - 2;
            text[last] = if text[last] == b'0' { b'1' } else { b'0' };
            assert!(read(&text).unwrap_err().contains(": damaged; "));
        }
    }
}

/// The books of C are any values: what no takes leave is not written.
#[test]
fn writes_no_other_book_in_c() {
    let places: Vec<Row> = (0..200).map(|number| file_on(number, 7)).collect();
    let totals = |held: usize| {
        let held = &places[..held];
        [held.iter().map(|row| row.2).sum::<u64>(), held.iter().map(|row| row.3).sum::<u64>()]
    };
    let written = |held: u64, totals| c::write_any(held, totals, &(7, places.clone()));
    assert_eq!(written(200, totals(200)), text_of(&(7, places.clone())));
    assert_eq!(written(199, totals(199)), text_of(&(7, places[..199].to_vec())));
    for held in [201, 300, u64::MAX] {
        assert_eq!(written(held, totals(200)), []);
    }
    let [payments, euros] = totals(200);
    for others in [totals(199), [payments + 1, euros], [payments, euros - 1], [0, 0], [u64::MAX, euros]] {
        assert_eq!(written(200, others), []);
    }
}

/// Nor figures that no take passes, in one place or in all: they have more digits than the room has.
#[test]
fn writes_no_large_figures_in_c() {
    let (most_payments, most_euros) = (9_999, 999_999_999_999_999);
    let large = [(most_payments + 1, 0), (0, most_euros + 1), (u64::MAX, 0), (0, u64::MAX), (u64::MAX, u64::MAX)];
    for (payments, euros) in large {
        for count in [1, 2, 200] {
            let places: Vec<Row> = (0..count).map(|number| (number, 7, payments, euros)).collect();
            assert_eq!(c::write(&(7, places)), [], "{payments}, {euros}");
        }
        assert_eq!(c::write(&(7, vec![file_on(1, 7), (2, 7, payments, euros), file_on(3, 7)])), []);
    }
    let largest = (7, (0..200).map(|number| (number, 7, most_payments, most_euros)).collect());
    assert_eq!(c::write(&largest), text_of(&largest));
}

/// Of the sample, of every other byte at every place, and of what is left where it is cut.
#[test]
fn file_numbers() {
    let sample = include_bytes!("../samples/sound.dtazv");
    assert_eq!(c::file_number(sample), Some(1226111601));
    for (place, byte) in (0..256).flat_map(|place| (0..=255).map(move |byte| (place, byte))) {
        let mut file = sample.to_vec();
        file[place] = byte;
        assert_eq!(c::file_number(&file), desk::file_number(&file), "{byte} at {place}");
    }
    for bytes in 0..=256 {
        assert_eq!(c::file_number(&sample[..bytes]), desk::file_number(&sample[..bytes]), "{bytes}");
    }
}

/// A directory of its own for a test, which goes with it.
struct Folder(PathBuf);

impl Folder {
    fn new(name: &str) -> Folder {
        let path = std::env::temp_dir().join(format!("desk-book-{}-{name}", std::process::id()));
        fs::create_dir(&path).unwrap();
        Folder(path)
    }

    fn path(&self, name: &str) -> PathBuf {
        self.0.join(name)
    }

    /// The names of all that is in it.
    fn names(&self) -> Vec<String> {
        let entries = fs::read_dir(&self.0).unwrap();
        let mut names: Vec<String> = entries.map(|entry| entry.unwrap().file_name().into_string().unwrap()).collect();
        names.sort();
        names
    }
}

impl Drop for Folder {
    fn drop(&mut self) {
        fs::remove_dir_all(&self.0).unwrap();
    }
}

/// In one line, with the path of the error before it.
fn line<T: std::fmt::Debug>(result: Result<T, BookFileError>) -> String {
    result.unwrap_err().to_string()
}

/// The book file that can be read is one of version 2.
fn opened(path: &Path) -> BookFile {
    let (file, layout) = BookFile::open(path).unwrap();
    assert_eq!(layout, WithFigures);
    file
}

#[test]
fn a_book_file_from_take_to_take() {
    let folder = Folder::new("takes");
    let path = folder.path("book");
    BookFile::create(&path).unwrap().save().unwrap();
    assert_eq!(read_book(&path).unwrap(), (Book::new(), WithFigures));
    let mut file = opened(&path);
    assert_eq!(file.take(1226111601, 7, 3, 1199), Ok(()));
    assert_eq!(file.book(), &book_of(&[(1226111601, 7, 3, 1199)]));
    file.save().unwrap();
    let mut file = opened(&path);
    assert_eq!(file.take(1226111601, 11, 3, 1199), Err(Refusal { number: 50, record: 0, at: 0 }));
    assert_eq!(file.take(1226111602, 11, 10_000, 349), Err(Refusal { number: 53, record: 0, at: 0 }));
    assert_eq!(file.take(1226111602, 11, 2, 349), Ok(()));
    file.write().unwrap().put_in_place().unwrap();
    let (book, _) = read_book(&path).unwrap();
    assert_eq!(rows(&book), (11, vec![(1226111601, 7, 3, 1199), (1226111602, 11, 2, 349)]));
    assert_eq!(book.totals(), Totals { files: 2, payments: 5, euros: 1548 });
    assert_eq!(folder.names(), ["book"]);
}

/// A book file of version 1 is told as that, each time that it is read. It stays until it is saved: then it has version 2.
#[test]
fn a_book_file_without_figures() {
    let folder = Folder::new("versions");
    let path = folder.path("book");
    let before = text_in(WithoutFigures, &(7, vec![(1226111601, 7, 3, 1199)]));
    fs::write(&path, &before).unwrap();
    let old = book_of(&[(1226111601, 7, 0, 0)]);
    assert_eq!(read_book(&path).unwrap(), (old.clone(), WithoutFigures));
    let (mut file, layout) = BookFile::open(&path).unwrap();
    assert_eq!((file.book(), layout), (&old, WithoutFigures));
    assert_eq!(file.take(1226111601, 11, 3, 1199), Err(Refusal { number: 50, record: 0, at: 0 }));
    drop(file);
    assert_eq!(fs::read(&path).unwrap(), before);
    let (mut file, layout) = BookFile::open(&path).unwrap();
    assert_eq!((file.take(1226111602, 8, 2, 349), layout), (Ok(()), WithoutFigures));
    file.save().unwrap();
    let due = book_of(&[(1226111601, 7, 0, 0), (1226111602, 8, 2, 349)]);
    assert_eq!(fs::read(&path).unwrap(), due.to_text());
    assert_eq!(read_book(&path).unwrap(), (due, WithFigures));
    fs::write(&path, &before).unwrap();
    BookFile::open(&path).unwrap().0.save().unwrap();
    assert_eq!(read_book(&path).unwrap(), (old, WithFigures));
}

/// Dropped at any step before it is in place, a changed book leaves the file as it was.
#[test]
fn what_is_dropped_has_not_happened() {
    let folder = Folder::new("drops");
    let path = folder.path("book");
    drop(BookFile::create(&path).unwrap());
    drop(BookFile::create(&path).unwrap().write().unwrap());
    assert_eq!(folder.names(), [""; 0]);
    let before = book_of(&[(1, 7, 3, 4)]).to_text();
    fs::write(&path, &before).unwrap();
    drop(opened(&path));
    let mut file = opened(&path);
    assert_eq!(file.take(2, 8, 5, 6), Ok(()));
    drop(file);
    let mut file = opened(&path);
    assert_eq!(file.take(2, 8, 5, 6), Ok(()));
    let written = file.write().unwrap();
    assert_eq!(folder.names(), ["book", "book.new"]);
    assert_eq!(fs::read(folder.path("book.new")).unwrap(), book_of(&[(1, 7, 3, 4), (2, 8, 5, 6)]).to_text());
    assert_eq!(fs::read(&path).unwrap(), before);
    drop(written);
    assert_eq!((folder.names(), fs::read(&path).unwrap()), (vec!["book".to_string()], before));
}

#[test]
fn one_at_a_time() {
    let folder = Folder::new("locks");
    let (path, new_path) = (folder.path("book"), folder.path("book.new"));
    let first = BookFile::create(&path).unwrap();
    assert!(matches!(BookFile::create(&path).unwrap_err().why, Trouble::InUse));
    assert!(matches!(BookFile::open(&path).unwrap_err().why, Trouble::InUse));
    first.save().unwrap();
    let mut first = opened(&path);
    let told =
        "is there already: another program is at work on the book, or was killed; if none is at work, remove this file";
    assert_eq!(line(BookFile::open(&path)), format!("{}: {told}", new_path.display()));
    assert_eq!(line(BookFile::create(&path)), format!("{}: is there already, and is not written over", path.display()));
    assert_eq!(read_book(&path).unwrap().0, Book::new());
    assert_eq!(first.take(1, 7, 3, 4), Ok(()));
    first.save().unwrap();
    fs::write(&new_path, "of a killed program").unwrap();
    assert!(matches!(BookFile::open(&path).unwrap_err().why, Trouble::InUse));
    assert_eq!(fs::read(&new_path).unwrap(), b"of a killed program");
    fs::remove_file(&new_path).unwrap();
    assert_eq!(opened(&path).book(), &book_of(&[(1, 7, 3, 4)]));
}

/// A file that has come to the place of a new book meanwhile is not replaced.
#[test]
fn a_new_book_file_replaces_nothing() {
    let folder = Folder::new("creates");
    let path = folder.path("book");
    let written = BookFile::create(&path).unwrap().write().unwrap();
    fs::write(&path, "of another program").unwrap();
    assert!(matches!(written.put_in_place().unwrap_err().why, Trouble::Exists));
    assert_eq!((folder.names(), fs::read(&path).unwrap()), (vec!["book".to_string()], b"of another program".to_vec()));
    fs::remove_file(&path).unwrap();
    symlink("nowhere", &path).unwrap();
    assert!(matches!(BookFile::create(&path).unwrap_err().why, Trouble::Exists));
    assert!(matches!(BookFile::create(folder.path("none/book")).unwrap_err().why, Trouble::System(_)));
}

#[test]
fn what_is_no_book_file_stays() {
    let folder = Folder::new("refuses");
    let (path, link) = (folder.path("book"), folder.path("link"));
    assert_eq!(line(read_book(&path)), format!("{}: No such file or directory (os error 2)", path.display()));
    assert!(matches!(BookFile::open(&path).unwrap_err().why, Trouble::System(_)));
    let mut text = book_of(&[(1, 7, 3, 4)]).to_text();
    fs::write(&path, &text).unwrap();
    symlink("book", &link).unwrap();
    for result in [BookFile::open(&link).map(|_| ()), read_book(&link).map(|_| ()), read_book(&folder.0).map(|_| ())] {
        assert!(matches!(result.unwrap_err().why, Trouble::NotRegular));
    }
    text.pop();
    fs::write(&path, &text).unwrap();
    let due = BookError { line: 5, flaw: Flaw::CutShort };
    assert!(matches!(BookFile::open(&path).unwrap_err().why, Trouble::Text(error) if error == due));
    assert_eq!(line(read_book(&path)), format!("{}: line 5: the book is cut short here", path.display()));
    assert_eq!((folder.names(), fs::read(&path).unwrap()), (vec!["book".to_string(), "link".to_string()], text));
}

#[test]
fn permissions_stay() {
    let folder = Folder::new("permissions");
    let path = folder.path("book");
    for mode in [0o600, 0o664, 0o400] {
        fs::write(&path, Book::new().to_text()).unwrap();
        fs::set_permissions(&path, fs::Permissions::from_mode(mode)).unwrap();
        let mut file = opened(&path);
        assert_eq!(file.take(1, 7, 3, 4), Ok(()));
        file.save().unwrap();
        assert_eq!(fs::metadata(&path).unwrap().permissions().mode() & 0o7777, mode);
        fs::remove_file(&path).unwrap();
    }
}

/// The functions of hosts/c/desk.h.
mod c {
    use super::{row, Entry, Row, Rows, MOST_BOOK_BYTES};
    use std::{ffi::CStr, os::raw::c_char};

    #[derive(Clone, Copy, Debug, PartialEq)]
    #[repr(C)]
    struct Book {
        day: u32,
        held: u64,
        payments: u64,
        euros: u64,
        places: [Entry; 200],
    }

    const NOWHERE: Entry = Entry { number: 99, day: 99, payments: 99, euros: 99 };
    const DESK_BOOK_MESSAGE: usize = 192;

    extern "C" {
        fn desk_book_write(book: *const Book, text: *mut u8) -> usize;
        fn desk_book_read(text: *const u8, n: usize, book: *mut Book, message: *mut c_char) -> bool;
        fn desk_crc_32(bytes: *const u8, n: usize) -> u32;
        fn desk_file_number(file: *const u8, n: usize, number: *mut u64) -> bool;
    }

    pub fn crc_32(bytes: &[u8]) -> u32 {
        // SAFETY: the pointer and the count are one slice's.
        unsafe { desk_crc_32(bytes.as_ptr(), bytes.len()) }
    }

    /// A file's number; where there is none, it keeps its value.
    pub fn file_number(file: &[u8]) -> Option<u64> {
        let mut number = u64::MAX;
        // SAFETY: the pointer and the count are one slice's; it writes a number.
        let is_there = unsafe { desk_file_number(file.as_ptr(), file.len(), &mut number) };
        assert_eq!(number == u64::MAX, !is_there);
        is_there.then_some(number)
    }

    fn sums(held: &[Row]) -> [u64; 2] {
        held.iter().fold([0, 0], |[payments, euros], row| [payments.wrapping_add(row.2), euros.wrapping_add(row.3)])
    }

    pub fn write(book: &Rows) -> Vec<u8> {
        write_any(book.1.len() as u64, sums(&book.1), book)
    }

    /// What is written of a book that says that it holds so many, and has these totals.
    pub fn write_any(held: u64, [payments, euros]: [u64; 2], (day, rows): &Rows) -> Vec<u8> {
        let mut book = Book { day: *day, held, payments, euros, places: [NOWHERE; 200] };
        for (place, &(number, day, payments, euros)) in book.places.iter_mut().zip(rows) {
            *place = Entry { number, day, payments, euros };
        }
        let mut text = vec![7; MOST_BOOK_BYTES + 1];
        // SAFETY: it reads the book, and writes at most so many bytes.
        let bytes = unsafe { desk_book_write(&book, text.as_mut_ptr()) };
        assert!(text[bytes..].iter().all(|&byte| byte == 7));
        text.truncate(bytes);
        text
    }

    /// What is read, with what is said of it; or what is said where nothing is, and then the book keeps its value. The totals
    /// are the sums over what a book holds, and behind that there are zeros.
    pub fn read(text: &[u8]) -> Result<(Rows, String), String> {
        let before = Book { day: 77, held: 88, payments: 55, euros: 66, places: [NOWHERE; 200] };
        let (mut book, mut message) = (before, [1; DESK_BOOK_MESSAGE]);
        // SAFETY: the pointer and the count are one slice's; it writes a book, and a text with its end into so many bytes.
        let is_read = unsafe { desk_book_read(text.as_ptr(), text.len(), &mut book, message.as_mut_ptr()) };
        assert!(message.contains(&0));
        // SAFETY: it is a text with its end.
        let message = unsafe { CStr::from_ptr(message.as_ptr()) }.to_str().unwrap().to_string();
        if !is_read {
            assert_eq!(book, before);
            return Err(message);
        }
        let (held, behind) = book.places.split_at(book.held as usize);
        assert!(behind.iter().all(|entry| row(entry) == (0, 0, 0, 0)));
        let held: Vec<Row> = held.iter().map(row).collect();
        assert_eq!([book.payments, book.euros], sums(&held));
        Ok(((book.day, held), message))
    }
}
