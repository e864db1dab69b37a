//! A field that breaks a rule, as it is shown to somebody who has to mend it.

use crate::common::{Q, T, Z};
use crate::marks::{marks, Small};
use crate::records::{range, record, Record};
use crate::sending::{self, payment, small_file, Way};
use crate::text::{number, T14A};
use desk::{Columns, Refusal};

/// A broken rule, with the field, the columns of it that are the fault, and where the desk confirms it, the number that is due.
pub struct Fault<'a> {
    pub refusal: Refusal,
    pub record: Record<'a>,
    pub columns: Columns,
    pub marked: Vec<u64>,
    pub due: Option<u64>,
}

/// What is shown of a file that the judge refuses; nothing where no field is to blame.
pub fn judged<'a>(way: Way, file: &'a [u8], refusal: Refusal) -> Option<Fault<'a>> {
    let columns = refusal.columns()?;
    let record = record(file, refusal.record)?;
    let due = due(way, file, refusal, columns);
    let marked = match due {
        Some(due) => differing(&record.bytes[range(columns)], due, columns),
        None => marks(way, &Small::of_judged(file, refusal), refusal, columns),
    };
    Some(Fault { refusal, record, columns, marked, due })
}

/// What is shown of a payment that comes back.
pub fn returned<'a>(way: Way, file: &'a [u8], forwarded: &[u8], refusal: Refusal) -> Option<Fault<'a>> {
    let columns = refusal.columns()?;
    let bytes = payment(file, refusal.record);
    let small = Small { file: small_file(forwarded, bytes, file), begin: Q + T };
    let marked = marks(way, &small, refusal, columns);
    Some(Fault { refusal, record: Record { number: refusal.record, kind: 'T', bytes }, columns, marked, due: None })
}

/// The number of payments or the control total that is due in Z, where the desk confirms it: with that number in the field
/// neither the judge nor prepare finds the rule broken.
fn due(way: Way, file: &[u8], refusal: Refusal, columns: Columns) -> Option<u64> {
    let payments = || file[Q..file.len() - Z].chunks(T);
    let due = match refusal.number {
        41 => payments().count() as u64,
        42 => payments().map(|payment| number(&payment[T14A])).sum(),
        _ => return None,
    };
    let digits = digits(due);
    let field = range(columns);
    let mut mended = file.to_vec();
    let begin = file.len() - Z + field.start;
    mended[begin..begin + field.len()].copy_from_slice(digits.get(..field.len())?);
    let judged = desk::judge(way.page, &mended, way.lists, &[]).map(|_| ());
    let prepared = sending::prepare(Way { is_strict: false, ..way }, &mended).map(|_| ());
    let is_kept = [judged, prepared].iter().all(|told| told.err().map(|found| found.number) != Some(refusal.number));
    (is_kept && digits.len() == field.len()).then_some(due)
}

/// The columns in which a number's digits are not those of a field.
fn differing(bytes: &[u8], due: u64, columns: Columns) -> Vec<u64> {
    let pairs = (columns.first..).zip(bytes.iter().zip(digits(due)));
    pairs.filter(|(_, (&is, due))| is != *due).map(|(column, _)| column).collect()
}

/// A number as Z3 and Z4 have it, in 15 digits; a higher one has more.
fn digits(number: u64) -> Vec<u8> {
    format!("{number:015}").into_bytes()
}
