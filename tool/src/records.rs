//! The records of a file, and their fields.

use crate::common::{Q, T, Z};
use desk::Columns;
use std::ops::Range;

/// A record of a file, by its number.
#[derive(Clone, Copy)]
pub struct Record<'a> {
    pub number: u64,
    pub kind: char,
    pub bytes: &'a [u8],
}

/// Where a record begins in a file.
pub fn begin(number: u64) -> usize {
    match number {
        0 => 0,
        _ => Q + T * (number as usize - 1),
    }
}

/// The number of the last record of a file whose structure is right; `None` where the file is too short for one.
pub fn last(file: &[u8]) -> Option<u64> {
    let payments = file.len().checked_sub(Q + Z)? / T;
    Some(payments as u64 + 1)
}

/// Where a record stands in a file whose structure is right, and its kind; `None` where there is no such record.
pub fn place(file: &[u8], number: u64) -> Option<(char, Range<usize>)> {
    let last = last(file)?;
    let (kind, length) = match number {
        0 => ('Q', Q),
        _ if number < last => ('T', T),
        _ if number == last => ('Z', Z),
        _ => return None,
    };
    Some((kind, begin(number)..begin(number) + length))
}

/// A record of a file whose structure is right.
pub fn record(file: &[u8], number: u64) -> Option<Record<'_>> {
    let (kind, place) = place(file, number)?;
    Some(Record { number, kind, bytes: file.get(place)? })
}

/// Where a field stands in its record.
pub fn range(columns: Columns) -> Range<usize> {
    columns.first as usize - 1..columns.last as usize
}

/// The bytes of a line.
pub const LINE: usize = 35;

/// The lines of a field, as people write them, with their columns.
pub fn lines(columns: Columns) -> impl Iterator<Item = Columns> {
    let Columns { field, first, last } = columns;
    (first..=last).step_by(LINE).map(move |begin| Columns {
        field,
        first: begin,
        last: last.min(begin + LINE as u64 - 1),
    })
}
