//! What hosts do with a file that is to go on: prepare it by the way that is asked for, put the kept file together to hold what
//! is restored to it, and find the field in which a returned payment breaks its rule.

use super::common::{Q, T, Z};
use super::desk::{self, Judgement, Lists, Page, Prepared, Refusal};
use std::ops::Range;

/// Where the totals stand in Z.
pub const Z3: Range<usize> = 5..20;
pub const Z4: Range<usize> = 20..35;

/// How a file is to be prepared: on which page, by which lists, and whether as a whole or not at all.
#[derive(Clone, Copy)]
pub struct Way<'a> {
    pub page: Page,
    pub lists: Lists<'a>,
    pub is_strict: bool,
}

/// What goes on: the forwarded file, and its notes; and the list of what comes back.
pub struct Outgoing {
    pub forwarded: Vec<u8>,
    pub notes: Vec<u32>,
    pub returned: Vec<u32>,
}

/// Prepares the file by the way that is asked for. What the strict way sends is the whole file, as the judge counts it.
pub fn prepare(way: Way, file: &[u8]) -> Result<(Outgoing, Prepared), Refusal> {
    let (mut forwarded, mut notes) = (vec![0; file.len()], vec![0; file.len()]);
    let mut returned = vec![0; file.len() / T];
    let sent = if way.is_strict {
        let Judgement { payments, euros, .. } = desk::judge(way.page, file, way.lists, &[])?;
        let notes = desk::prepare_strict(way.page, file, way.lists, &mut forwarded, &mut notes)?;
        Prepared { notes, kept: payments as usize, returned: 0, kept_euros: euros, returned_euros: 0 }
    } else {
        desk::prepare(way.page, file, way.lists, &mut forwarded, &mut notes, &mut returned)?
    };
    forwarded.truncate(sent.bytes());
    notes.truncate(sent.notes);
    returned.truncate(sent.returned);
    Ok((Outgoing { forwarded, notes, returned }, sent))
}

/// Puts the kept file together: the records of the file that are not in the list, and Z with the figures.
pub fn put_together(file: &[u8], returned: &[u32], sent: Prepared) -> Vec<u8> {
    let (q, behind_q) = file.split_at(Q);
    let (payments, z) = behind_q.split_at(behind_q.len() - Z);
    let mut kept = q.to_vec();
    let mut missing = returned.iter().map(|&number| Refusal::of_returned(number).record).peekable();
    for (record, payment) in (1..).zip(payments.chunks(T)) {
        if missing.next_if_eq(&record).is_none() {
            kept.extend(payment);
        }
    }
    kept.extend(&z[..Z3.start]);
    kept.extend(format!("{:015}{:015}", sent.kept_euros, sent.kept).bytes());
    kept.extend(&z[Z4.end..]);
    kept
}

/// A small file in which a payment is record 2, behind a sound Q and a sound payment of the same account. What the judge says
/// of it there, it says of the payment.
pub fn small_file(forwarded: &[u8], payment: &[u8], file: &[u8]) -> Vec<u8> {
    [&forwarded[..Q + T], payment, &file[file.len() - Z..]].concat()
}

/// A number of the returned list, with the place of the field in which that payment breaks its rule.
pub fn returned_at(way: Way, file: &[u8], forwarded: &[u8], number: u32) -> Refusal {
    let refusal = Refusal::of_returned(number);
    let payment = payment(file, refusal.record);
    match desk::judge(way.page, &small_file(forwarded, payment, file), way.lists, &[]) {
        Err(Refusal { number, at, .. }) if number == refusal.number => Refusal { at, ..refusal },
        _ => refusal,
    }
}

/// The bytes of a T record, by its number.
pub fn payment(file: &[u8], record: u64) -> &[u8] {
    let begin = Q + (record as usize - 1) * T;
    &file[begin..begin + T]
}
