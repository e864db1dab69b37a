//! Tests of what hosts/rust/desk.rs and hosts/c/words.c both have: the refusals' words, held to docs/WORDS.md, the fields'
//! columns, held to the places of crates/records, and a refusal in one line; and that docs/WORDS.md has all fields.

#[allow(dead_code)] // no call is made here
#[path = "../hosts/rust/desk.rs"]
mod desk;

use desk::{Columns, Refusal};
use std::collections::HashMap;

/// The cells of the table that begins with this row, row by row.
fn table(page: &'static str, heading: &str) -> Vec<Vec<&'static str>> {
    let rows = page.lines().skip_while(|row| *row != heading).skip(2);
    let cells = rows.map_while(|row| Some(row.strip_prefix("| ")?.strip_suffix(" |")?.split(" | ").collect()));
    cells.collect()
}

const WORDS: &str = include_str!("../docs/WORDS.md");

/// The English words of each number.
fn english() -> HashMap<u64, &'static str> {
    let rows = table(WORDS, "| No. | English | German |");
    rows.iter().map(|cells| (cells[0].parse().unwrap(), cells[1])).collect()
}

#[test]
fn words() {
    let english = english();
    assert_eq!(english.len(), 42);
    for number in 0..=100 {
        let words = english.get(&number).copied().unwrap_or("no rule of the desk");
        assert_eq!(Refusal { number, record: 0, at: 0 }.words(), words, "{number}");
        assert_eq!(c::words(number), words, "{number}");
    }
}

/// docs/WORDS.md has each field, in its order, and both languages of everything.
#[test]
fn both_languages() {
    let fields = table(WORDS, "| Field | English | German |");
    let names: Vec<_> = fields.iter().map(|cells| cells[0]).collect();
    assert_eq!(names, places().iter().map(|row| row.field).collect::<Vec<_>>());
    for cells in fields.iter().chain(&table(WORDS, "| No. | English | German |")) {
        assert!(cells.len() == 3 && cells.iter().all(|cell| !cell.trim().is_empty()), "{}", cells[0]);
    }
}

/// The judge's answers in crates/edges/stdout, by the papers: number, record and place. Its files have two payments, or
/// eleven, so Z is record 3, or 12.
fn answers() -> Vec<Refusal> {
    let rows = include_str!("../crates/edges/stdout").lines().filter_map(|row| {
        let (number, rest) = row.rsplit_once(": ")?.1.split_once(" at ")?;
        let (record, at) = rest.split_once(", place ")?;
        let [number, record, at] = [number, record, at].map(|digits| digits.parse().unwrap());
        Some(Refusal { number, record, at })
    });
    rows.collect()
}

#[test]
fn kinds() {
    let mut numbers = Vec::new();
    for refusal in answers() {
        let Refusal { number, record, at } = refusal;
        let kind = (at > 0).then_some(if record == 0 { 'Q' } else if record % 9 == 3 { 'Z' } else { 'T' });
        assert_eq!(refusal.kind(), kind, "{number}");
        assert_eq!(c::kind(number), kind, "{number}");
        assert_eq!(refusal.columns().map(|columns| columns.first), kind.map(|_| at + 1), "{number}");
        numbers.push(number);
    }
    let every_rule_but_1 = (0..=5).chain(10..=16).chain(20..=35).chain(40..=42).chain([50]).filter(|&n| n != 1);
    assert!(every_rule_but_1.into_iter().all(|number| numbers.contains(&number)));
    for number in (51..=100).chain([1, 6, 7, 43]) {
        let refusal = Refusal { number, record: 0, at: 0 };
        assert_eq!((refusal.kind(), refusal.columns()), (None, None), "{number}");
        assert_eq!(c::kind(number), None, "{number}");
    }
}

/// The fields as crates/records places them.
fn places() -> Vec<Columns> {
    let rows = include_str!("../crates/records/specs/Places.antt").lines().filter_map(|row| {
        let (field, place) = row.split_once("_place ")?.1.split_once(" = ")?;
        let (first, last) = place.split_once(" to ")?;
        let column = |offset: &str| offset.parse::<u64>().unwrap() + 1;
        Some(Columns { field, first: column(first), last: column(last) })
    });
    rows.collect()
}

#[test]
fn fields_and_columns() {
    let places = places();
    assert_eq!(places.len(), 43);
    for kind in ['Q', 'T', 'Z', 'X', '\0'] {
        let own: Vec<_> = places.iter().copied().filter(|row| row.field.starts_with(kind)).collect();
        assert_eq!(desk::fields(kind).collect::<Vec<_>>(), own, "{kind}");
        assert_eq!((0..).map_while(|index| c::field(kind, index)).collect::<Vec<_>>(), own, "{kind}");
        assert_eq!(c::field(kind, usize::MAX), None, "{kind}");
        for offset in (0..1000).chain([u64::MAX]) {
            let column = offset.saturating_add(1);
            let holds = |row: &Columns| row.field.starts_with(kind) && (row.first..=row.last).contains(&column);
            let due = places.iter().copied().find(holds);
            assert_eq!(desk::columns_at(kind, offset), due, "{kind} {offset}");
            assert_eq!(c::columns_at(kind, offset), due, "{kind} {offset}");
        }
    }
}

#[test]
fn lines() {
    let lines = [
        (0, 0, 0, "number 0: no rule of the desk"),
        (1, 0, 0, "rule 1 at record 0: file longer than 7,679,744 bytes (9,999 payments)"),
        (5, 4, 0, "rule 5 at record 4: bytes after Z"),
        (7, 0, 0, "number 7: judge, prepare, M8, restore: code page neither 0 nor 1"),
        (15, 0, 177, "rule 15 at record 0, Q9, column 178: Q9 is not N"),
        (15, 0, 0, "rule 15 at record 0: Q9 is not N"),
        (32, 212, 455, "rule 32 at record 212, T13, columns 456 to 458: T13 not EUR"),
        (41, 9, 20, "rule 41 at record 9, Z4, columns 21 to 35: Z4 is not the number of T records"),
        (43, 0, 0, "number 43: prepare, M8: every payment would be returned"),
        (50, 0, 0, "number 50: judge, book: the file number (Q4, Q6, Q7) is a taken one"),
        (51, 0, 0, "number 51: book: 200 numbers are held"),
        (52, 0, 0, "number 52: book: the day is earlier than the book's"),
        (53, 0, 0, "number 53: book: more than 9,999 payments, or more than 999,999,999,999,999 euros"),
        (60, 0, 0, "number 60: prepare, M8, restore: output room shorter than the file that goes on or is restored, or than the M8 records"),
        (61, 0, 0, "number 61: prepare: more changes in the file that goes on than note places"),
        (62, 0, 0, "number 62: M8: the code table is not 96 bytes"),
        (63, 0, 0, "number 63: prepare: returned list has fewer places than returned payments"),
        (70, 0, 0, "number 70: restore: no sound file yields this pair"),
    ];
    for (number, record, at, line) in lines {
        assert_eq!(Refusal { number, record, at }.to_string(), line);
        assert_eq!(c::line(number, record, at), line);
    }
    // the longest has room in C
    let longest = Refusal { number: 26, record: u64::MAX, at: 64 };
    assert_eq!(c::line(26, u64::MAX, 64), longest.to_string());
}

/// The functions of hosts/c/desk.h.
mod c {
    use super::Columns;
    use std::{ffi::CStr, os::raw::c_char};

    #[repr(C)]
    struct Found {
        field: *const c_char,
        first: u64,
        last: u64,
    }

    const DESK_LINE: usize = 256;

    extern "C" {
        fn desk_words(number: u64) -> *const c_char;
        fn desk_kind(number: u64) -> c_char;
        fn desk_field(kind: c_char, index: usize) -> *const Found;
        fn desk_columns_at(kind: c_char, offset: u64) -> *const Found;
        fn desk_refusal_line(line: *mut c_char, number: u64, record: u64, at: u64);
    }

    pub fn words(number: u64) -> &'static str {
        // SAFETY: it is a constant text.
        unsafe { CStr::from_ptr(desk_words(number)) }.to_str().unwrap()
    }

    pub fn kind(number: u64) -> Option<char> {
        // SAFETY: it takes and gives numbers alone.
        let kind = unsafe { desk_kind(number) };
        (kind != 0).then_some(kind as u8 as char)
    }

    pub fn field(kind: char, index: usize) -> Option<Columns> {
        // SAFETY: it takes numbers alone.
        columns(unsafe { desk_field(kind as c_char, index) })
    }

    pub fn columns_at(kind: char, offset: u64) -> Option<Columns> {
        // SAFETY: it takes numbers alone.
        columns(unsafe { desk_columns_at(kind as c_char, offset) })
    }

    fn columns(found: *const Found) -> Option<Columns> {
        // SAFETY: it is null, or a constant row with a constant text.
        let found = unsafe { found.as_ref() }?;
        let field = unsafe { CStr::from_ptr(found.field) }.to_str().unwrap();
        Some(Columns { field, first: found.first, last: found.last })
    }

    pub fn line(number: u64, record: u64, at: u64) -> String {
        let mut line = [0; DESK_LINE];
        // SAFETY: it writes a text with its end, into at most so many bytes.
        let line = unsafe {
            desk_refusal_line(line.as_mut_ptr(), number, record, at);
            CStr::from_ptr(line.as_ptr())
        };
        line.to_str().unwrap().to_string()
    }
}
