//! How hosts tell a book of taken file numbers.

use super::desk::{Book, Entry, Refusal, BOOK_PLACES};
use std::io::{self, Write};

/// The held file for which a number is not taken: the one that has the number, and of a full book the one whose place is free
/// next.
pub fn in_the_way(book: &Book, asked: Entry, refusal: Refusal) -> Option<&Entry> {
    let has_number = |entry: &Entry| refusal.number == 50 && entry.number == asked.number;
    book.held().iter().find(|entry| refusal.number == 51 || has_number(entry))
}

/// Tells why a number is not taken, and from which day on it might be.
pub fn tell_not_taken(book: &Book, asked: Entry, refusal: Refusal, out: &mut dyn Write) -> io::Result<()> {
    writeln!(out, "refused on day {}: {refusal}", asked.day)?;
    match in_the_way(book, asked, refusal) {
        Some(first) if refusal.number == 51 => writeln!(out, "the next place is {}", free(first))?,
        Some(entry) => tell_entry(entry, out)?,
        None => {}
    }
    tell_book(book, out)
}

pub fn tell_entry(entry: &Entry, out: &mut dyn Write) -> io::Result<()> {
    let Entry { number, day, payments, euros } = entry;
    writeln!(out, "file number {number}: taken on day {day}, {payments} payments, {euros} whole euros, {}", free(entry))
}

/// When the place of a number is free again, and the number.
fn free(entry: &Entry) -> String {
    match entry.free_from() {
        Some(day) => format!("free from day {day} on"),
        None => "not free on any day that is left".into(),
    }
}

pub fn tell_book(book: &Book, out: &mut dyn Write) -> io::Result<()> {
    writeln!(out, "the book is on day {}, with {} of {BOOK_PLACES} places held", book.day(), book.held().len())
}
