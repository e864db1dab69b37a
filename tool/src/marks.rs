//! Which bytes of a field are the fault. The judge names the field; it is asked further, of copies of a small file in which one
//! byte of the field is another one. A byte is marked where such a copy no longer breaks that rule in that field: so one wrong
//! digit is marked alone, and of a blank line each place in which a character would do. Where no single byte is the fault, the
//! whole field is marked.

use crate::common::{Q, T, Z};
use crate::records::{range, LINE};
use crate::sending::{payment, Way};
use desk::{Columns, Refusal};

/// What may stand in a byte's place: what most fields hold, and in a field of a line at most also digits and capitals.
const FEW: &[u8] = b" 0A/";
const MANY: &[u8] = b" 0A/123456789BCDEFGHIJKLMNOPQRSTUVWXYZ";

/// A small file that breaks a rule in the same field as a large one, and where its record begins.
pub struct Small {
    pub file: Vec<u8>,
    pub begin: usize,
}

impl Small {
    /// Of a file that the judge refuses: Q and record 1, and where it is another payment that breaks the rule, that one.
    pub fn of_judged(file: &[u8], refusal: Refusal) -> Small {
        let (front, z) = (&file[..Q + T], &file[file.len() - Z..]);
        match (refusal.kind(), refusal.record) {
            (Some('T'), record) if record > 1 => {
                Small { file: [front, payment(file, record), z].concat(), begin: Q + T }
            }
            (Some('Q'), _) => Small { file: [front, z].concat(), begin: 0 },
            (Some('Z'), _) => Small { file: [front, z].concat(), begin: Q + T },
            _ => Small { file: [front, z].concat(), begin: Q },
        }
    }
}

/// The columns of a field that are to be marked, because it breaks a rule. Where the judge stops at another rule of the record,
/// it cannot be asked: then those bytes are marked that no such field may hold.
pub fn marks(way: Way, small: &Small, refusal: Refusal, columns: Columns) -> Vec<u64> {
    let answer = |file: &[u8]| desk::judge(way.page, file, way.lists, &[]).err();
    let marked = match answer(&small.file) {
        Some(due) if (due.number, due.at) == (refusal.number, refusal.at) => {
            healing(small, columns, |file| answer(file).map_or(true, |found| order(found) > order(due)))
        }
        _ => unlike(small, columns),
    };
    match marked.is_empty() {
        true => (columns.first..=columns.last).collect(),
        false => marked,
    }
}

/// The columns in which another byte alone heals the file.
fn healing(small: &Small, columns: Columns, is_healed: impl Fn(&[u8]) -> bool) -> Vec<u64> {
    let tried = if range(columns).len() <= LINE { MANY } else { FEW };
    let mut copy = small.file.clone();
    let mut heals = |offset: &usize| {
        let place = small.begin + offset;
        let healed = tried.iter().any(|&byte| {
            copy[place] = byte;
            is_healed(&copy)
        });
        copy[place] = small.file[place];
        healed
    };
    range(columns).filter(|offset| heals(offset)).map(|offset| offset as u64 + 1).collect()
}

/// The columns of a field of digits that hold none, and of Z5, which is spaces, those that hold something else.
fn unlike(small: &Small, columns: Columns) -> Vec<u64> {
    let is_like = |byte: u8| if columns.field == "Z5" { byte == b' ' } else { byte.is_ascii_digit() };
    let is_unlike = |offset: &usize| !is_like(small.file[small.begin + offset]);
    range(columns).filter(is_unlike).map(|offset| offset as u64 + 1).collect()
}

/// Refusals in the order in which the judge comes to them.
fn order(refusal: Refusal) -> (u64, u64, u64) {
    (refusal.record, refusal.number, refusal.at)
}
