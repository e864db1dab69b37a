//! What the desk says of a file that is to go on: judged, prepared, and restored again to show that nothing is lost.

use crate::common::{Failure, Q, T, Z};
use crate::records::{lines, range, record};
use crate::sending::{self, payment, put_together, returned_at, Outgoing, Way, Z3, Z4};
use crate::table::{replacements, SAMPLE};
use crate::text::{number, COUNTRY_LETTERS, T14A, T14B};
use desk::{Columns, Note, Page, Prepared, Refusal};
use std::ops::Range;

/// Where bank code and number of the payer's account stand in a T record.
const T3: Range<usize> = 5..13;
const T4B: Range<usize> = 16..26;

/// What goes on of a file, and what comes back.
pub struct Sent {
    pub forwarded: Vec<u8>,
    pub notes: Vec<u32>,
    /// The file that went on, as it was written: the submitted one, or without what comes back.
    pub original: Vec<u8>,
    /// The payments that come back, each with its rule and the field.
    pub returned: Vec<Refusal>,
    pub figures: Prepared,
}

/// Why nothing goes on; and what the judge finds first, where that is another rule.
pub struct NotSent {
    pub refusal: Refusal,
    pub first_broken: Option<Refusal>,
    /// Why each payment would come back, where all would; and a forwarded file with a sound payment, to ask about them.
    pub all_back: Option<(Vec<u8>, Vec<Refusal>)>,
}

/// A line of a text field in which characters are changed.
pub struct ChangedLine<'a> {
    /// The record in the submitted file, and the line's columns in it.
    pub record: u64,
    pub columns: Columns,
    pub before: &'a [u8],
    pub after: &'a [u8],
}

/// Prepares a file by the way that is asked for. What is restored from what goes on has to be that very file.
pub fn send(way: Way, file: &[u8]) -> Result<Result<Sent, NotSent>, Failure> {
    let (outgoing, figures) = match sending::prepare(way, file) {
        Ok(prepared) => prepared,
        Err(refusal) => return Ok(Err(not_sent(way, file, refusal))),
    };
    let Outgoing { forwarded, notes, returned } = outgoing;
    let mut original = vec![0; forwarded.len()];
    let back = desk::restore(way.page, &forwarded, &notes, way.lists, &mut original);
    if back.is_err() || original != put_together(file, &returned, figures) {
        return Err("what goes on was not restored from its notes: nothing is written".into());
    }
    let returned = returned.iter().map(|&number| returned_at(way, file, &forwarded, number)).collect();
    Ok(Ok(Sent { forwarded, notes, original, returned, figures }))
}

/// Prepare tells no field; the judge does, where it stops at the same rule.
fn not_sent(way: Way, file: &[u8], refusal: Refusal) -> NotSent {
    let first = desk::judge(way.page, file, way.lists, &[]).err();
    let is_same = |first: &Refusal| (first.number, first.record) == (refusal.number, refusal.record);
    let all_back = (refusal.number == 43).then(|| all_back(way, file)).flatten();
    match first {
        Some(first) if is_same(&first) => NotSent { refusal: first, first_broken: None, all_back },
        first_broken => NotSent { refusal: placed(file, refusal), first_broken, all_back },
    }
}

/// A refusal that prepare comes to before the judge does, with the field that breaks the rule by docs/RULES.md, 7.1.
fn placed(file: &[u8], refusal: Refusal) -> Refusal {
    let bytes = record(file, refusal.record).map_or(&[][..], |record| record.bytes);
    let are_digits = |place: Range<usize>| bytes[place].iter().all(u8::is_ascii_digit);
    let at = match refusal.number {
        33 if are_digits(T14A) => T14B.start,
        33 => T14A.start,
        40 if !are_digits(Z3) => Z3.start,
        40 if !are_digits(Z4) => Z4.start,
        40 => Z4.end,
        41 => Z4.start,
        42 => Z3.start,
        _ => 0,
    };
    Refusal { at: at as u64, ..refusal }
}

/// The other code page, where the file is sound on that one: it may be the office's.
pub fn sound_elsewhere(way: Way, file: &[u8]) -> Option<Page> {
    let other = other_page(way.page);
    desk::judge(other, file, way.lists, &[]).ok().map(|_| other)
}

/// How many changed characters become spaces, and would be letters on the other code page: then that may be the office's.
pub fn letters_elsewhere(page: Page, notes: &[u32]) -> usize {
    let [here, there] = [page, other_page(page)].map(replacements);
    let originals = notes.iter().map(|&note| usize::from(Note::from(note).original));
    originals.filter(|&byte| here[byte] == b' ' && there[byte] != b' ').count()
}

pub fn other_page(page: Page) -> Page {
    match page {
        Page::Din66003 => Page::Iso8859_1,
        Page::Iso8859_1 => Page::Din66003,
    }
}

/// Why each payment comes back, where all of them would (43) and prepare gives no list: it does of the same file with a sound
/// payment behind them. Beside the list stands the forwarded file, which is that payment; nothing where it comes back too.
fn all_back(way: Way, file: &[u8]) -> Option<(Vec<u8>, Vec<Refusal>)> {
    let helped = with_sound_payment(way, file)?;
    let (outgoing, _) = sending::prepare(Way { is_strict: false, ..way }, &helped).ok()?;
    let Outgoing { forwarded, returned, .. } = outgoing;
    let returned = returned.iter().map(|&number| returned_at(way, file, &forwarded, number)).collect();
    Some((forwarded, returned))
}

/// The file with one payment more, of record 1's account and to a listed country, and with it in the totals; nothing where Z
/// has no room for them.
fn with_sound_payment(way: Way, file: &[u8]) -> Option<Vec<u8>> {
    let (front, z) = file.split_at(file.len() - Z);
    let mut more = payment(SAMPLE, 1).to_vec();
    for place in [T3, T4B] {
        more[place.clone()].copy_from_slice(&payment(file, 1)[place]);
    }
    more[COUNTRY_LETTERS].copy_from_slice(way.lists.transfer.get(..2)?);
    let (euros, payments) = (number(&z[Z3]) + number(&more[T14A]), number(&z[Z4]) + 1);
    let totals = format!("{euros:015}{payments:015}");
    (totals.len() == 30).then(|| [front, &more, &z[..Z3.start], totals.as_bytes(), &z[Z4.end..]].concat())
}

impl Sent {
    /// The numbers that the payments which go on have in the submitted file.
    pub fn kept_records(&self) -> Vec<u64> {
        let mut returned = self.returned.iter().map(|refusal| refusal.record).peekable();
        let submitted = 1..=(self.figures.kept + self.figures.returned) as u64;
        submitted.filter(|record| returned.next_if_eq(record).is_none()).collect()
    }

    /// The lines in which characters are changed, in the order of the file.
    pub fn changed_lines(&self) -> Vec<ChangedLine<'_>> {
        let kept_records = self.kept_records();
        let mut changed: Vec<ChangedLine> = Vec::new();
        let mut end = 0; // of the last such line, in the file that goes on
        for Note { place, .. } in self.notes.iter().copied().map(Note::from) {
            if place < end {
                continue;
            }
            let (kind, record, begin) = match place.checked_sub(Q) {
                None => ('Q', 0, 0),
                Some(behind_q) => ('T', kept_records[behind_q / T], Q + behind_q / T * T),
            };
            let columns = line_at(kind, place - begin);
            let line = begin + range(columns).start..begin + range(columns).end;
            end = line.end;
            changed.push(ChangedLine {
                record,
                columns,
                before: &self.original[line.clone()],
                after: &self.forwarded[line],
            });
        }
        changed
    }
}

/// The line of a text field in which an offset of a record lies.
fn line_at(kind: char, offset: usize) -> Columns {
    let field = desk::columns_at(kind, offset as u64).expect("characters are changed in fields alone");
    let column = offset as u64 + 1;
    lines(field).find(|line| line.last >= column).expect("the lines are all of the field")
}
