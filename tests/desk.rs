//! Tests of hosts/rust/desk.rs on the samples: each call and the ways in which it answers.

#[allow(dead_code)] // the annexes are held by tests/annexes.rs, the version by tests/release
#[path = "../hosts/rust/desk.rs"]
mod desk;

use desk::Page::{Din66003, Iso8859_1};
use desk::{
    Answer, Book, Entry, Field, Judgement, Lists, Note, Page, Prepared, Reader, Refusal, Totals, BOOK_PLACES, M8_CODES,
    M8_RECORD,
};
use std::io::{self, ErrorKind, Read};

const SOUND: &[u8] = include_bytes!("../samples/sound.dtazv");
const DIN: &[u8] = include_bytes!("../samples/din-66003.dtazv");
const REFUSED: &[u8] = include_bytes!("../samples/refused.dtazv");
const CHEQUES: &[u8] = include_bytes!("../samples/cheques.dtazv");
const RETURNED: &[u8] = include_bytes!("../samples/returned.dtazv");
const LISTS: Lists = Lists { transfer: b"BRAUCL", cheque: b"VEPE" };
const SWAPPED: Lists = Lists { transfer: LISTS.cheque, cheque: LISTS.transfer };
/// Each page, and the other one.
const PAGES: [(Page, Page); 2] = [(Din66003, Iso8859_1), (Iso8859_1, Din66003)];

fn refused<T>(number: u64, record: u64, at: u64) -> Result<T, Refusal> {
    Err(Refusal { number, record, at })
}

/// The sound sample with another name: the first line of Q5 is these bytes, and spaces behind them.
fn named(name: &[u8]) -> Vec<u8> {
    let mut file = SOUND.to_vec();
    file[23..58].fill(b' ');
    file[23..23 + name.len()].copy_from_slice(name);
    file
}

/// The forwarded file and the notes of a sound file.
fn prepared(page: Page, file: &[u8]) -> (Vec<u8>, Vec<u32>) {
    let (mut out, mut notes) = (vec![0; file.len()], vec![0; file.len()]);
    let count = desk::prepare_strict(page, file, LISTS, &mut out, &mut notes).unwrap();
    notes.truncate(count);
    (out, notes)
}

/// A file with other bytes from a place of a record on: (record, place, bytes).
fn with(file: &[u8], changes: &[(usize, usize, &str)]) -> Vec<u8> {
    let mut file = file.to_vec();
    for (record, place, bytes) in changes {
        let start = if *record == 0 { *place } else { 256 + (record - 1) * 768 + place };
        file[start..start + bytes.len()].copy_from_slice(bytes.as_bytes());
    }
    file
}

/// The kept file: Q, these payments of the file, and a Z with their euros.
fn kept(file: &[u8], records: &[usize], euros: u64) -> Vec<u8> {
    let payment = |record: &usize| &file[256 + (record - 1) * 768..256 + record * 768];
    let z = format!("0256Z{euros:015}{:015}{:221}", records.len(), "");
    [&file[..256], &records.iter().map(payment).collect::<Vec<_>>().concat(), z.as_bytes()].concat()
}

/// What `prepare` leaves of a file: its answer, the forwarded file, the notes and the returned list.
fn sorted(page: Page, file: &[u8]) -> (Prepared, Vec<u8>, Vec<u32>, Vec<u32>) {
    let (mut out, mut notes, mut returned) = (vec![0; file.len()], vec![0; file.len()], vec![0; file.len() / 768]);
    let sent = desk::prepare(page, file, LISTS, &mut out, &mut notes, &mut returned).unwrap();
    out.truncate(sent.bytes());
    notes.truncate(sent.notes);
    returned.truncate(sent.returned);
    (sent, out, notes, returned)
}

/// The returned list of a file, and the payments and euros that are kept and returned.
fn list(file: &[u8]) -> (Vec<u32>, [u64; 4]) {
    let (sent, .., returned) = sorted(Iso8859_1, file);
    (returned, [sent.kept as u64, sent.returned as u64, sent.kept_euros, sent.returned_euros])
}

/// An M8 record of a file of the samples' day, by table 15 of source document 000.
fn m8_record(file_number: u64, cents: u64, code: &str, reference: &str) -> String {
    let (zeros, reserve, free) = ("0000000", " ".repeat(16), ' ');
    format!("DM8261116{file_number:05}{zeros}{reserve}{free}{cents:018}{code}{reference:35}{:27}", "")
}

/// A sound payment, and behind it one for each rule from 20 to 35, which breaks it and no lower one.
fn every_rule() -> Vec<u8> {
    let blank_line = " ".repeat(35);
    let broken = [
        (13, "USD"),
        (25, "5"),
        (26, "1"),
        (650, "11"),
        (648, "03"),
        (650, "20"),
        (64, "9"),
        (53, "           BR "),
        (207, "XX"),
        (210, &blank_line),
        (350, "X"),
        (420, " "),
        (455, "USD"),
        (474, "5"),
        (615, "X"),
        (715, "X"),
    ];
    let changes: Vec<_> = (2..).zip(broken).map(|(record, (place, bytes))| (record, place, bytes)).collect();
    with(&payments(17), &changes)
}

/// A sound file, the sample's first payment so many times: 120 euros and 50 cents each.
fn payments(count: usize) -> Vec<u8> {
    let z = format!("0256Z{:015}{:015}{:221}", 120 * count, count, "");
    [&SOUND[..256], &SOUND[256..1024].repeat(count), z.as_bytes()].concat()
}

/// What a reader has to answer: as the judge of the whole file, and of a sound one how many changes prepare notes.
fn whole(page: Page, file: &[u8]) -> Result<Answer, Refusal> {
    let judgement = desk::judge(page, file, LISTS, &[])?;
    Ok(Answer { judgement, changes: prepared(page, file).1.len() as u64 })
}

/// A reader that was fed with these cuts, each with its lists.
fn fed<'a>(page: Page, cuts: impl IntoIterator<Item = (&'a [u8], Lists<'a>)>) -> Reader {
    let mut reader = Reader::new(page);
    for (cut, lists) in cuts {
        reader.feed(cut, lists);
    }
    reader
}

/// What a reader answers of a file in cuts of so many bytes.
fn in_cuts(page: Page, file: &[u8], bytes: usize) -> Result<Answer, Refusal> {
    fed(page, file.chunks(bytes).map(|cut| (cut, LISTS))).end(&[])
}

/// A source that gives one byte a read, each only after an interruption. Where its bytes end it fails, if it is to.
struct Halting<'a> {
    bytes: &'a [u8],
    was_interrupted: bool,
    failure: Option<ErrorKind>,
}

impl<'a> Halting<'a> {
    fn new(bytes: &'a [u8], failure: Option<ErrorKind>) -> Halting<'a> {
        Halting { bytes, was_interrupted: false, failure }
    }
}

impl Read for Halting<'_> {
    fn read(&mut self, room: &mut [u8]) -> io::Result<usize> {
        self.was_interrupted = !self.was_interrupted;
        if self.was_interrupted {
            return Err(ErrorKind::Interrupted.into());
        }
        match (self.bytes.split_first(), self.failure) {
            (Some((first, rest)), _) => {
                (room[0], self.bytes) = (*first, rest);
                Ok(1)
            }
            (None, Some(failure)) => Err(failure.into()),
            (None, None) => Ok(0),
        }
    }
}

#[test]
fn judges() {
    let sound = Judgement { payments: 3, euros: 1199, cents: 125 };
    for page in [Din66003, Iso8859_1] {
        assert_eq!(desk::judge(page, SOUND, LISTS, &[]), Ok(sound));
        assert_eq!(desk::judge(page, DIN, LISTS, &[]), Ok(sound));
        assert_eq!(desk::judge(page, SOUND, LISTS, &[7, 1226111602]), Ok(sound));
        assert_eq!(desk::judge(page, SOUND, LISTS, &[7, 1226111601]), refused(50, 0, 0));
        assert_eq!(desk::judge(page, SOUND, SWAPPED, &[]), refused(28, 1, 207));
        let cheques = Judgement { payments: 2, euros: 349, cents: 90 };
        assert_eq!(desk::judge(page, CHEQUES, LISTS, &[1226111601]), Ok(cheques));
        assert_eq!(desk::judge(page, CHEQUES, LISTS, &[1226111602]), refused(50, 0, 0));
        assert_eq!(desk::judge(page, CHEQUES, SWAPPED, &[]), refused(28, 1, 207));
        assert_eq!(desk::judge(page, REFUSED, LISTS, &[]), refused(42, 4, 5));
        assert_eq!(desk::judge(page, &[], LISTS, &[]), refused(2, 0, 0));
    }
}

#[test]
fn judges_in_one_number_on_page_0() {
    assert_eq!(desk::judge_code(DIN, LISTS), 0);
    assert_eq!(desk::judge_code(SOUND, LISTS), 0);
    assert_eq!(desk::judge_code(SOUND, SWAPPED), 128);
    assert_eq!(desk::judge_code(REFUSED, LISTS), 442);
    assert_eq!(desk::judge_code(&named(b"\x5B"), LISTS), 0);
    assert_eq!(desk::judge_code(&named(b"\xC4"), LISTS), 12);
}

/// A name of the four German characters becomes AOUS on its own page, and is blank on the other. One of small umlauts is
/// blank on both.
#[test]
fn pages() {
    let (mut out, mut notes) = (vec![7; SOUND.len()], [9; 8]);
    for ((page, other), name) in PAGES.into_iter().zip([b"\x5B\x5C\x5D\x7E", b"\xC4\xD6\xDC\xDF"]) {
        let file = named(name);
        assert_eq!(desk::judge(other, &file, LISTS, &[]), refused(12, 0, 23));
        assert_eq!(desk::prepare_strict(other, &file, LISTS, &mut out, &mut notes), refused(12, 0, 0));
        assert_eq!(desk::prepare(other, &file, LISTS, &mut out, &mut notes, &mut []), refused(12, 0, 0));
        assert!(out.iter().all(|&byte| byte == 7) && notes == [9; 8]);
        assert!(desk::judge(page, &file, LISTS, &[]).is_ok());
        assert!(prepared(page, &file).0[23..].starts_with(b"AOUS "));
        for small in [b"\x7B\x7C\x7D", b"\xE4\xF6\xFC"] {
            assert_eq!(desk::judge(page, &named(small), LISTS, &[]), refused(12, 0, 23));
        }
    }
}

#[test]
fn page_numbers_and_names() {
    assert_eq!(Page::try_from(0), Ok(Din66003));
    assert_eq!(Page::try_from(1), Ok(Iso8859_1));
    for number in [2, 7, 256, u32::MAX] {
        assert_eq!(Page::try_from(number), refused(7, 0, 0));
    }
    assert_eq!(Din66003.to_string(), "page 0 (DIN 66003)");
    assert_eq!(Iso8859_1.to_string(), "page 1 (ISO 8859-1)");
}

#[test]
fn reads_any_cuts_as_the_judge_does() {
    let with_a_byte = [SOUND, b"0"].concat();
    let (iso, din) = (named(b"\xC4"), named(b"\x5B"));
    let files = [SOUND, DIN, REFUSED, CHEQUES, &SOUND[..1000], &SOUND[1..], &with_a_byte, &iso, &din, &[]];
    for (page, file) in PAGES.into_iter().flat_map(|(page, _)| files.map(|file| (page, file))) {
        let due = whole(page, file);
        for bytes in [1, 2, 5, 100, 255, 256, 257, 767, 768, 769, 1024, 4096] {
            assert_eq!(in_cuts(page, file, bytes), due, "{page}, cuts of {bytes}");
        }
        for at in 0..=file.len() {
            let (head, tail) = file.split_at(at);
            let mut reader = fed(page, [(head, LISTS), (&[], LISTS), (tail, LISTS)]);
            assert_eq!(reader.end(&[]), due, "{page}, cut at {at}");
        }
    }
    assert_eq!(Reader::new(Iso8859_1).end(&[]), refused(2, 0, 0));
    let sound = Judgement { payments: 3, euros: 1199, cents: 125 };
    assert_eq!(in_cuts(Iso8859_1, SOUND, 100), Ok(Answer { judgement: sound, changes: 3 }));
}

/// Its one change is in Q: the sample's first payment has none.
#[test]
fn reads_the_longest_file() {
    let mut file = payments(9999);
    let judgement = Judgement { payments: 9999, euros: 9999 * 120, cents: 9999 * 50 };
    let due = Ok(Answer { judgement, changes: 1 });
    for bytes in [100, 4096, 65_536, file.len()] {
        assert_eq!(in_cuts(Iso8859_1, &file, bytes), due, "cuts of {bytes}");
    }
    assert_eq!(whole(Iso8859_1, &file), due);
    file.push(b'0');
    for bytes in [100, file.len() - 1, file.len()] {
        assert_eq!(in_cuts(Iso8859_1, &file, bytes), refused(1, 0, 0), "cuts of {bytes}");
    }
}

#[test]
fn reads_from_a_source() {
    let read = |source: &mut dyn Read| {
        let mut reader = Reader::new(Iso8859_1);
        reader.feed_from(source, LISTS).unwrap();
        reader.end(&[])
    };
    for file in [SOUND, REFUSED, &SOUND[..1000], &[]] {
        assert_eq!(read(&mut Halting::new(file, None)), whole(Iso8859_1, file));
        assert_eq!(read(&mut &*file), whole(Iso8859_1, file));
    }
    let longest = payments(9999);
    assert_eq!(read(&mut &*longest), whole(Iso8859_1, &longest));
    assert_eq!(read(&mut longest.chain(&b"0"[..])), refused(1, 0, 0));
    assert_eq!(read(&mut io::repeat(b'0')), refused(1, 0, 0));
}

/// What came before the failure is taken: the rest can follow.
#[test]
fn hands_on_the_failure_of_a_source() {
    let (head, tail) = SOUND.split_at(1000);
    let mut reader = Reader::new(Iso8859_1);
    let failed = reader.feed_from(Halting::new(head, Some(ErrorKind::ConnectionReset)), LISTS);
    assert_eq!(failed.unwrap_err().kind(), ErrorKind::ConnectionReset);
    assert_eq!(reader.clone().end(&[]), refused(2, 1, 0));
    reader.feed_from(tail, LISTS).unwrap();
    assert_eq!(reader.end(&[]), whole(Iso8859_1, SOUND));
}

#[test]
fn the_first_end_decides() {
    let taken = [7, 1226111601];
    for (first, due) in [(&[][..], whole(Iso8859_1, SOUND)), (&taken, refused(50, 0, 0))] {
        let mut reader = fed(Iso8859_1, [(SOUND, LISTS)]);
        assert_eq!(reader.end(first), due);
        assert_eq!(reader.end(&taken), due);
        reader.feed(SOUND, LISTS);
        reader.feed_from(SOUND, SWAPPED).unwrap();
        assert_eq!(reader.end(&[]), due);
    }
}

/// The sample's payments end at 1024, 1792 and 2560. None of their countries is in the other list: it is T10a that tells it
/// of the first, which has a BIC, and already T9a of the others.
#[test]
fn a_payment_is_judged_by_the_lists_of_its_last_byte() {
    let sound = whole(Iso8859_1, SOUND);
    for at in 0..=SOUND.len() {
        let (head, tail) = SOUND.split_at(at);
        let due = match at {
            0..=1023 => refused(28, 1, 207),
            1024..=1791 => refused(26, 2, 64),
            1792..=2559 => refused(26, 3, 64),
            _ => sound,
        };
        assert_eq!(fed(Iso8859_1, [(head, LISTS), (tail, SWAPPED)]).end(&[]), due, "{at}");
        let due = if at < 1024 { sound } else { refused(28, 1, 207) };
        assert_eq!(fed(Iso8859_1, [(head, SWAPPED), (&[], SWAPPED), (tail, LISTS)]).end(&[]), due, "{at}");
    }
}

/// The characters at 40 and 2003 are an Ü and an Ö on the one page, and become spaces on the other.
#[test]
fn prepares_and_restores() {
    let own_page = [(Iso8859_1, SOUND, b"U+O"), (Din66003, DIN, b"U+O")];
    let other_page = [(Din66003, SOUND, b" + "), (Iso8859_1, DIN, b" + ")];
    for (page, file, becomes) in own_page.into_iter().chain(other_page) {
        let (mut out, mut notes) = (vec![7; file.len() + 1], [9; 4]);
        assert_eq!(desk::prepare_strict(page, file, LISTS, &mut out, &mut notes), Ok(3));
        assert_eq!((out[file.len()], notes[3]), (7, 9));
        let mut due = file.to_vec();
        for (i, place) in [40, 1235, 2003].into_iter().enumerate() {
            assert_eq!(Note::from(notes[i]), Note { place, original: file[place] });
            due[place] = becomes[i];
        }
        let (sent, mut back) = (&out[..file.len()], vec![7; file.len() + 1]);
        assert_eq!(sent, due);
        assert_eq!(desk::restore(page, sent, &notes, LISTS, &mut back), refused(70, 0, 0));
        assert_eq!(desk::restore(page, sent, &notes[..3], SWAPPED, &mut back), refused(70, 0, 0));
        assert_eq!(desk::restore(page, sent, &notes[..3], LISTS, &mut back[1..file.len()]), refused(60, 0, 0));
        assert!(back.iter().all(|&byte| byte == 7));
        assert_eq!(desk::restore(page, sent, &notes[..3], LISTS, &mut back), Ok(()));
        assert_eq!(back, [file, &[7]].concat());
    }
}

/// Where a German character was changed, the other page would have made something else of it. An ampersand becomes the
/// same on both.
#[test]
fn restores_on_the_page_of_prepare() {
    let mut back = vec![7; SOUND.len()];
    for (page, other) in PAGES {
        for file in [SOUND, DIN] {
            let (forwarded, notes) = prepared(page, file);
            assert_eq!(desk::restore(other, &forwarded, &notes, LISTS, &mut back), refused(70, 0, 0));
            assert!(back.iter().all(|&byte| byte == 7));
        }
    }
    let mut file = SOUND.to_vec();
    (file[40], file[2003]) = (b'U', b'O');
    let (forwarded, notes) = prepared(Din66003, &file);
    assert_eq!(notes, [1235 * 256 + 0x26]);
    assert_eq!(desk::restore(Iso8859_1, &forwarded, &notes, LISTS, &mut back), Ok(()));
    assert_eq!(back, file);
}

#[test]
fn refused_strict_prepare_changes_nothing() {
    let (mut out, mut notes) = (vec![7; SOUND.len()], [9; 3]);
    for page in [Din66003, Iso8859_1] {
        assert_eq!(desk::prepare_strict(page, REFUSED, LISTS, &mut out, &mut notes), refused(42, 4, 0));
        assert_eq!(desk::prepare_strict(page, RETURNED, LISTS, &mut out, &mut notes), refused(28, 2, 0));
        assert_eq!(desk::prepare_strict(page, SOUND, SWAPPED, &mut out, &mut notes), refused(28, 1, 0));
        assert_eq!(desk::prepare_strict(page, SOUND, LISTS, &mut out[1..], &mut notes), refused(60, 0, 0));
        assert_eq!(desk::prepare_strict(page, SOUND, LISTS, &mut out, &mut notes[1..]), refused(61, 0, 0));
    }
    assert!(out.iter().all(|&byte| byte == 7) && notes == [9; 3]);
}

/// Of the sample's payments 1, 3 and 5 are kept, with 120, 1000 and 99 euros; 2 and 4 have 79 and 250.
#[test]
fn sends_the_good_ones() {
    let due = Prepared { notes: 5, kept: 3, returned: 2, kept_euros: 1219, returned_euros: 329 };
    let goes_on = kept(RETURNED, &[1, 3, 5], 1219);
    for (page, other) in PAGES {
        let (mut out, mut notes, mut returned) = (vec![7; RETURNED.len()], [9; 8], [8; 4]);
        assert_eq!(desk::prepare(page, RETURNED, LISTS, &mut out, &mut notes, &mut returned), Ok(due));
        assert_eq!((due.bytes(), returned), (goes_on.len(), [228, 429, 8, 8]));
        let (sent, behind) = out.split_at(due.bytes());
        assert!(behind.iter().all(|&byte| byte == 7) && notes[5..] == [9; 3]);
        assert_eq!((sent.to_vec(), notes[..5].to_vec()), prepared(page, &goes_on));
        assert!(desk::judge(page, sent, LISTS, &[]).is_ok());

        let mut back = vec![7; RETURNED.len()];
        assert_eq!(desk::restore(other, sent, &notes[..5], LISTS, &mut back), refused(70, 0, 0));
        assert_eq!(desk::restore(page, sent, &notes[..5], LISTS, &mut back), Ok(()));
        assert_eq!(back, [&goes_on, behind].concat());
    }
}

#[test]
fn a_sound_file_goes_on_as_the_strict_way_has_it() {
    let longest = payments(9999);
    let files = [SOUND, DIN, CHEQUES, &longest];
    for (page, file) in PAGES.into_iter().flat_map(|(page, _)| files.map(|file| (page, file))) {
        let (strict, notes) = prepared(page, file);
        let Judgement { payments, euros, .. } = desk::judge(page, file, LISTS, &[]).unwrap();
        let kept = payments as usize;
        let due = Prepared { notes: notes.len(), kept, returned: 0, kept_euros: euros, returned_euros: 0 };
        assert_eq!(due.bytes(), file.len());
        let (mut out, mut own) = (vec![7; file.len()], vec![9; notes.len()]);
        assert_eq!(desk::prepare(page, file, LISTS, &mut out, &mut own, &mut []), Ok(due));
        assert_eq!((out, own), (strict, notes));
    }
}

#[test]
fn names_what_comes_back() {
    // the first rule of several
    let several = with(SOUND, &[(2, 455, "USD"), (2, 648, "03"), (2, 765, "X"), (3, 765, "X")]);
    assert_eq!(list(&several), (vec![224, 335], [1, 2, 120, 1079]));
    // an amount with a last digit, and one of zero
    assert_eq!(list(&with(SOUND, &[(3, 474, "5")])), (vec![333], [2, 1, 199, 1000]));
    let zero = with(SOUND, &[(3, 458, "00000000000000000"), (4, 5, "000000000000199")]);
    assert_eq!(list(&zero), (vec![333], [2, 1, 199, 0]));
    // record 1 with another account than the rest; and record 1 returned, with which the rest is still compared
    assert_eq!(list(&with(SOUND, &[(1, 25, "5")])), (vec![221, 321], [1, 2, 120, 1079]));
    assert_eq!(list(&with(SOUND, &[(1, 455, "USD"), (2, 25, "5")])), (vec![132, 221], [1, 2, 1000, 199]));
    // the highest number, and the longest list
    let last = with(&payments(9999), &[(9999, 455, "USD")]);
    assert_eq!(list(&last), (vec![999_932], [9998, 1, 9998 * 120, 120]));
    let others = with(&payments(9999), &[(1, 25, "5")]);
    assert_eq!(list(&others), ((2..=9999).map(|record| record * 100 + 21).collect(), [1, 9998, 120, 9998 * 120]));
    assert_eq!(Refusal::of_returned(999_932), Refusal { number: 32, record: 9999, at: 0 });
}

/// hosts/c/desk.h has the small file by which the judge tells it.
#[test]
fn in_which_field_a_returned_payment_breaks_its_rule() {
    let first_returned = with(SOUND, &[(1, 455, "USD"), (2, 25, "5")]);
    for (file, due) in [(RETURNED, [(2, 28, 207), (4, 29, 210)]), (&first_returned, [(1, 32, 455), (2, 21, 16)])] {
        let (_, out, _, returned) = sorted(Iso8859_1, file);
        for (number, (record, rule, at)) in returned.into_iter().zip(due) {
            assert_eq!(Refusal::of_returned(number), Refusal { number: rule, record, at: 0 });
            let begin = 256 + (record as usize - 1) * 768;
            let small = [&out[..1024], &file[begin..begin + 768], &file[file.len() - 256..]].concat();
            assert_eq!(desk::judge(Iso8859_1, &small, LISTS, &[]), refused(rule, 2, at));
        }
    }
}

/// Each file breaks what comes later too. The room is that of the output, of the notes and of the list: none, or one short.
#[test]
fn a_refused_prepare_changes_nothing() {
    let second = (2, 207, "XX"); // T10a, for which it would come back
    let (no_digit, total) = ((3, 472, "X"), (4, 19, "8"));
    let none = [0, 0, 0];
    let cases = [
        (with(SOUND, &[(0, 177, "J"), second, no_digit, total])[..2815].to_vec(), none, (2, 4)),
        (with(SOUND, &[(0, 177, "J"), second, no_digit, total]), none, (15, 0)),
        (with(SOUND, &[second, no_digit, total, (4, 255, "X")]), none, (33, 3)),
        (with(SOUND, &[(2, 5, "X"), (2, 471, "X"), no_digit]), none, (33, 2)),
        (with(SOUND, &[second, total, (4, 34, "2"), (4, 255, "X")]), none, (40, 4)),
        (with(SOUND, &[second, total, (4, 34, "2")]), none, (41, 4)),
        (with(SOUND, &[(1, 5, "X"), total]), none, (42, 4)),
        (with(SOUND, &[(1, 5, "X")]), none, (43, 0)),
        (with(&payments(1), &[(1, 207, "XX")]), none, (43, 0)),
        (RETURNED.to_vec(), [2815, 4, 1], (60, 0)),
        (RETURNED.to_vec(), [2815, 5, 2], (60, 0)),
        (RETURNED.to_vec(), [2816, 4, 1], (61, 0)),
        (RETURNED.to_vec(), [2816, 4, 2], (61, 0)),
        (RETURNED.to_vec(), [2816, 5, 1], (63, 0)),
        (RETURNED.to_vec(), [2816, 5, 0], (63, 0)),
    ];
    for (file, [bytes, places, payments], (number, record)) in cases {
        let (mut out, mut notes, mut returned) = (vec![7; bytes], vec![9; places], vec![8; payments]);
        let answer = desk::prepare(Iso8859_1, &file, LISTS, &mut out, &mut notes, &mut returned);
        assert_eq!(answer, refused(number, record, 0));
        assert_eq!((out, notes, returned), (vec![7; bytes], vec![9; places], vec![8; payments]), "{number}");
    }
    let (mut out, mut notes, mut returned) = ([7; 2816], [9; 5], [8; 2]);
    assert!(desk::prepare(Iso8859_1, RETURNED, LISTS, &mut out, &mut notes, &mut returned).is_ok());
}

/// Record 2 of the sample has an Ü in T15, and record 4 fills more of it than the first line.
#[test]
fn writes_an_m8_record_for_each_returned_payment() {
    for (page, reference) in [(Iso8859_1, "ZUSCHUSS FUR 11/2026"), (Din66003, "ZUSCHUSS F R 11/2026")] {
        let due = [
            m8_record(3, 7975, "LW0101", reference),
            m8_record(3, 25000, "TX0107", "PENSION NOVEMBER 2026 UND NACHZAHLU"),
        ]
        .concat();
        let sent = sorted(page, RETURNED).0;
        assert_eq!((due.len(), sent.m8_bytes()), (2 * M8_RECORD, 2 * M8_RECORD));
        let mut out = vec![7; due.len() + 1];
        assert_eq!(desk::m8(page, RETURNED, LISTS, &M8_CODES, &mut out), Ok(2));
        assert_eq!(out, [due.as_bytes(), &[7]].concat());
        let mut exact = vec![7; due.len()];
        assert_eq!(desk::m8(page, RETURNED, LISTS, &M8_CODES, &mut exact), Ok(2));
        assert_eq!(exact, due.as_bytes());
    }
}

/// The third digit behind the comma is left out, and an amount of zero is zeros.
#[test]
fn m8_amounts() {
    let half_cent = with(SOUND, &[(3, 458, "99999999999999999"), (4, 5, "100000000000198")]);
    let zero = with(SOUND, &[(3, 458, "00000000000000000"), (4, 5, "000000000000199")]);
    for (file, cents) in [(half_cent, 9_999_999_999_999_999), (zero, 0)] {
        let mut out = [7; M8_RECORD];
        assert_eq!(desk::m8(Iso8859_1, &file, LISTS, &M8_CODES, &mut out), Ok(1));
        assert_eq!(out, m8_record(1, cents, "FI0103", "PENSION 11/2026").as_bytes());
    }
}

/// With the codes of the hosts, and with a table in which no two are alike.
#[test]
fn m8_codes_by_rule() {
    let file = every_rule();
    let (sent, .., returned) = sorted(Iso8859_1, &file);
    assert_eq!(returned, (20..=35).map(|rule| (rule - 18) * 100 + rule).collect::<Vec<_>>());
    let own: String = (20..=35).map(|rule| format!("RULE{rule}")).collect();
    assert!(M8_CODES.chunks(6).all(|code| desk::m8_meaning(code).is_some()));
    assert!(own.as_bytes().chunks(6).all(|code| desk::m8_meaning(code).is_none()));
    for codes in [&M8_CODES[..], own.as_bytes()] {
        let codes_by_rule = codes.chunks(6).map(|code| std::str::from_utf8(code).unwrap());
        let due: String = codes_by_rule.map(|code| m8_record(1, 12050, code, "PENSION 11/2026")).collect();
        let mut out = vec![7; sent.m8_bytes()];
        assert_eq!(desk::m8(Iso8859_1, &file, LISTS, codes, &mut out), Ok(16));
        assert_eq!(std::str::from_utf8(&out), Ok(&due[..]));
    }
}

#[test]
fn no_m8_record_where_nothing_comes_back() {
    for file in [SOUND, DIN, CHEQUES] {
        let mut out = [7; M8_RECORD];
        assert_eq!(desk::m8(Iso8859_1, file, LISTS, &M8_CODES, &mut out), Ok(0));
        assert_eq!(out, [7; M8_RECORD]);
        assert_eq!(desk::m8(Iso8859_1, file, LISTS, &M8_CODES, &mut []), Ok(0));
        assert_eq!(desk::m8(Iso8859_1, file, LISTS, &M8_CODES[1..], &mut []), refused(62, 0, 0));
    }
}

#[test]
fn m8_of_the_longest_list() {
    let file = with(&payments(9999), &[(1, 25, "5")]);
    let mut out = vec![7; 9998 * M8_RECORD];
    assert_eq!(desk::m8(Iso8859_1, &file, LISTS, &M8_CODES, &mut out), Ok(9998));
    assert_eq!(out, m8_record(1, 12050, "TX0101", "PENSION 11/2026").repeat(9998).into_bytes());
    assert_eq!(desk::m8(Iso8859_1, &file, LISTS, &M8_CODES, &mut out[1..]), refused(60, 0, 0));
}

/// Each breaks what comes later too: the table is too short, and there is no room.
#[test]
fn a_refused_m8_changes_nothing() {
    let second = (2, 207, "XX"); // T10a, for which it would come back
    let (no_digit, total) = ((3, 472, "X"), (4, 19, "8"));
    let cases = [
        (SOUND[..2815].to_vec(), (2, 4)),
        (with(SOUND, &[(0, 177, "J"), second, no_digit, total]), (15, 0)),
        (with(SOUND, &[second, no_digit, total]), (33, 3)),
        (with(SOUND, &[second, total]), (42, 4)),
        (with(SOUND, &[(1, 5, "X")]), (43, 0)),
        (RETURNED.to_vec(), (62, 0)),
    ];
    for (file, (number, record)) in cases {
        let mut out = [7; M8_RECORD - 1];
        assert_eq!(desk::m8(Iso8859_1, &file, LISTS, &M8_CODES[..95], &mut out), refused(number, record, 0));
        assert_eq!(out, [7; M8_RECORD - 1], "{number}");
    }
    let mut out = [7; 2 * M8_RECORD];
    let longer = [&M8_CODES[..], b"F"].concat();
    for codes in [&longer[..], &M8_CODES[..95], &[]] {
        assert_eq!(desk::m8(Iso8859_1, RETURNED, LISTS, codes, &mut out), refused(62, 0, 0));
    }
    for room in [0, M8_RECORD, 2 * M8_RECORD - 1] {
        assert_eq!(desk::m8(Iso8859_1, RETURNED, LISTS, &M8_CODES, &mut out[..room]), refused(60, 0, 0));
    }
    assert_eq!(out, [7; 2 * M8_RECORD]);
}

#[test]
fn shows_the_very_part() {
    assert!(desk::show(SOUND, 0, Field::Q5).unwrap().starts_with(b"VERSORGUNGSWERK M\xDCNCHEN "));
    assert!(desk::show(SOUND, 2, Field::T10b).unwrap().starts_with(b"M&M STUDIO "));
    let starts = [23, 53, 67, 210, 420, 475, 623, 652, 679];
    let lengths = [140, 11, 140, 140, 35, 140, 25, 27, 35];
    for (field, (start, length)) in Field::ALL.into_iter().zip(starts.into_iter().zip(lengths)) {
        let (record, other, begin) = if field == Field::Q5 { (0, 1, 0) } else { (3, 0, 256 + 2 * 768) };
        let place = begin + start..begin + start + length;
        let part = desk::show(SOUND, record, field).unwrap();
        assert!(std::ptr::eq(part, &SOUND[place.clone()]), "{field}");
        assert_eq!(desk::place(SOUND, record, field), Some(place));
        assert_eq!(desk::show(SOUND, other, field), None);
        assert_eq!(desk::show(&SOUND[1..], record, field), None);
    }
    assert_eq!(Field::ALL.map(|field| field.to_string()).join(" "), "Q5 T8 T9b T10b T12 T15 T20 T23 T24");
}

/// RULES 5.6 has the number of Q4 0000000012, Q6 240229 and Q7 07. The digits stand in columns 14 to 23 and 164 to 171.
#[test]
fn file_numbers() {
    for (file, number) in [(SOUND, 1226111601), (DIN, 1226111601), (CHEQUES, 1226111602), (RETURNED, 1226111603)] {
        assert_eq!(desk::file_number(file), Some(number));
    }
    assert_eq!(desk::file_number(&with(SOUND, &[(0, 163, "24022907")])), Some(1224022907));
    let (zeros, nines) = ("0".repeat(256), "9".repeat(256));
    assert_eq!(desk::file_number(zeros.as_bytes()), Some(0));
    assert_eq!(desk::file_number(nines.as_bytes()), Some(999_999_999_999_999_999));
    for place in 0..256 {
        for other in ["/", ":", " ", "X"] {
            let file = with(SOUND, &[(0, place, other)]);
            let is_in_it = (13..23).contains(&place) || (163..171).contains(&place);
            assert_eq!(desk::file_number(&file), (!is_in_it).then_some(1226111601), "{other} at {place}");
        }
    }
    for bytes in 0..=256 {
        assert_eq!(desk::file_number(&SOUND[..bytes]), (bytes >= 171).then_some(1226111601), "{bytes}");
    }
}

/// A held file: its number, the day on which it was taken, its payments and its whole euros.
type Row = (u64, u32, u64, u64);

/// The most payments and whole euros that a take passes.
const MOST_PAYMENTS: u64 = 9_999;
const MOST_EUROS: u64 = 999_999_999_999_999;

fn entries(rows: &[Row]) -> Vec<Entry> {
    rows.iter().map(|&(number, day, payments, euros)| Entry { number, day, payments, euros }).collect()
}

/// What the book answers to a take. The take changes it only where it is not refused; and always the totals are the sums over
/// what is held.
fn take_row(book: &mut Book, (number, day, payments, euros): Row) -> Result<(), Refusal> {
    let before = book.clone();
    let answer = book.take(number, day, payments, euros);
    assert_eq!(*book == before, answer.is_err());
    let held = book.held();
    let payments = held.iter().map(|entry| entry.payments).sum();
    let euros = held.iter().map(|entry| entry.euros).sum();
    assert_eq!(book.totals(), Totals { files: held.len(), payments, euros });
    answer
}

/// The same of a file of one payment and no whole euro.
fn take(book: &mut Book, number: u64, day: u32) -> Result<(), Refusal> {
    take_row(book, (number, day, 1, 0))
}

/// The book that these takes leave, none of which is refused.
fn book_of(rows: &[Row]) -> Book {
    let mut book = Book::new();
    assert!(rows.iter().all(|&row| take_row(&mut book, row).is_ok()));
    book
}

/// The book is on this day, holds these files, and has these totals: files, payments and euros.
fn is_left(book: &Book, day: u32, rows: &[Row], (files, payments, euros): (usize, u64, u64)) {
    assert_eq!((book.day(), book.held()), (day, &entries(rows)[..]));
    assert_eq!(book.totals(), Totals { files, payments, euros });
}

#[test]
fn a_book_holds_a_number_for_five_days() {
    let mut book = Book::new();
    is_left(&book, 0, &[], (0, 0, 0));
    assert_eq!(book, Book::default());
    assert_eq!(take_row(&mut book, (1226111601, 7, 3, 1199)), Ok(()));
    assert_eq!(take(&mut book, 1226111601, 6), refused(52, 0, 0));
    assert_eq!(take(&mut book, 1226111602, 6), refused(52, 0, 0));
    for day in 7..=11 {
        assert_eq!(take(&mut book, 1226111601, day), refused(50, 0, 0));
    }
    is_left(&book, 7, &[(1226111601, 7, 3, 1199)], (1, 3, 1199));
    assert_eq!(take_row(&mut book, (1226111602, 8, 2, 349)), Ok(()));
    is_left(&book, 8, &[(1226111601, 7, 3, 1199), (1226111602, 8, 2, 349)], (2, 5, 1548));
    assert_eq!(take_row(&mut book, (1226111601, 12, 4, 2000)), Ok(()));
    is_left(&book, 12, &[(1226111602, 8, 2, 349), (1226111601, 12, 4, 2000)], (2, 6, 2349));
    assert_eq!(take_row(&mut book, (3, 17, 0, 0)), Ok(()));
    is_left(&book, 17, &[(3, 17, 0, 0)], (1, 0, 0));
}

/// What `prepare` keeps of a file is what is paid. By the bytes of the samples: T14a of `sound` is 120, 79 and 1000, that of
/// `cheques` 250 and 99; of `returned` records 1, 3 and 5 are kept, with 120, 1000 and 99.
#[test]
fn figures_of_the_samples() {
    let mut book = Book::new();
    for file in [SOUND, CHEQUES, RETURNED] {
        let Prepared { kept, kept_euros, .. } = sorted(Iso8859_1, file).0;
        let number = desk::file_number(file).unwrap();
        assert_eq!(take_row(&mut book, (number, 7, kept as u64, kept_euros)), Ok(()));
    }
    let rows = [(1226111601, 7, 3, 1199), (1226111602, 7, 2, 349), (1226111603, 7, 3, 1219)];
    is_left(&book, 7, &rows, (3, 8, 2767));
}

#[test]
fn books_are_compared_by_all_that_they_hold() {
    assert_eq!(book_of(&[(1, 0, 3, 4), (2, 5, 6, 7)]), book_of(&[(2, 5, 6, 7)]));
    let others: [&[Row]; 8] = [
        &[(1, 5, 6, 7)],
        &[(2, 6, 6, 7)],
        &[(2, 5, 7, 7)],
        &[(2, 5, 6, 6)],
        &[(1, 4, 0, 0), (2, 5, 6, 7)],
        &[(2, 5, 6, 7), (1, 5, 0, 0)],
        &[(1, 5, 0, 0), (2, 5, 6, 7)],
        &[],
    ];
    for (i, other) in others.iter().enumerate() {
        assert_ne!(book_of(&[(2, 5, 6, 7)]), book_of(other));
        assert!(others[..i].iter().all(|another| book_of(another) != book_of(other)));
    }
    let told = "Book { day: 17, totals: Totals { files: 1, payments: 3, euros: 1199 }, \
        held: [Entry { number: 3, day: 17, payments: 3, euros: 1199 }] }";
    assert_eq!(format!("{:?}", book_of(&[(3, 17, 3, 1199)])), told);
}

/// Each limit from both sides, by itself and beside the other.
#[test]
fn figures_that_are_too_large() {
    let payments = [(0, true), (MOST_PAYMENTS, true), (MOST_PAYMENTS + 1, false), (1 << 32, false), (u64::MAX, false)];
    let euros = [(0, true), (MOST_EUROS, true), (MOST_EUROS + 1, false), (u64::MAX, false)];
    for ((payments, is_few), (euros, is_little)) in payments.into_iter().flat_map(|p| euros.map(|e| (p, e))) {
        let mut book = book_of(&[(1, 7, 2, 3)]);
        let due = if is_few && is_little { Ok(()) } else { refused(53, 0, 0) };
        assert_eq!(take_row(&mut book, (2, 8, payments, euros)), due, "{payments}, {euros}");
    }
}

/// Where a take would be refused with another number too, it is 53; with figures that pass it is that other one.
#[test]
fn large_figures_come_first() {
    let rows: Vec<Row> = (0..200).map(|number| (number, 7, 1, 1)).collect();
    for (number, day, other) in [(200, 6, 52), (0, 6, 52), (0, 7, 50), (199, 11, 50), (200, 7, 51), (200, 11, 51)] {
        let mut book = book_of(&rows);
        for (payments, euros) in [(MOST_PAYMENTS + 1, 1), (1, MOST_EUROS + 1), (u64::MAX, u64::MAX)] {
            assert_eq!(take_row(&mut book, (number, day, payments, euros)), refused(53, 0, 0));
        }
        assert_eq!(take_row(&mut book, (number, day, MOST_PAYMENTS, MOST_EUROS)), refused(other, 0, 0));
        is_left(&book, 7, &rows, (200, 200, 200));
    }
}

/// On day 12 all 200 are forgotten, but a refused take forgets none of them: the totals are those of day 7 until one is
/// accepted.
#[test]
fn totals_of_the_largest_figures() {
    let rows: Vec<Row> = (0..200).map(|number| (number, 7, MOST_PAYMENTS, MOST_EUROS)).collect();
    let mut book = book_of(&rows);
    let all = (200, 1_999_800, 199_999_999_999_999_800);
    is_left(&book, 7, &rows, all);
    assert_eq!(take_row(&mut book, (200, 12, MOST_PAYMENTS, MOST_EUROS + 1)), refused(53, 0, 0));
    assert_eq!(take_row(&mut book, (200, 11, MOST_PAYMENTS, MOST_EUROS)), refused(51, 0, 0));
    is_left(&book, 7, &rows, all);
    assert_eq!(take_row(&mut book, (200, 12, MOST_PAYMENTS, MOST_EUROS)), Ok(()));
    is_left(&book, 12, &[(200, 12, MOST_PAYMENTS, MOST_EUROS)], (1, 9_999, 999_999_999_999_999));
}

/// With 200 numbers held, a held one is 50 still, and an earlier day 52. The first places are free with day 5, on which the
/// numbers of day 0 are forgotten.
#[test]
fn a_full_book() {
    let mut book = Book::new();
    for number in 0..BOOK_PLACES as u64 {
        assert_eq!(take_row(&mut book, (number, number as u32 / 100, number, 10 * number)), Ok(()));
    }
    assert_eq!((book.day(), book.totals()), (1, Totals { files: 200, payments: 19_900, euros: 199_000 }));
    for day in 1..5 {
        assert_eq!(take(&mut book, 200, day), refused(51, 0, 0));
        assert_eq!(take(&mut book, 199, day), refused(50, 0, 0));
        assert_eq!(take(&mut book, 0, day), refused(50, 0, 0));
    }
    assert_eq!(take(&mut book, 200, 0), refused(52, 0, 0));
    assert_eq!(take(&mut book, 0, 0), refused(52, 0, 0));
    assert_eq!(take_row(&mut book, (0, 5, 7, 8)), Ok(()));
    let rows: Vec<Row> = (100..200).map(|number| (number, 1, number, 10 * number)).chain([(0, 5, 7, 8)]).collect();
    is_left(&book, 5, &rows, (101, 14_957, 149_508));
}

/// `free_from` is the first day on which a take of the number is not refused. The last day is 4,294,967,295.
#[test]
fn when_a_number_is_free() {
    for day in [0, 7, u32::MAX - 6, u32::MAX - 5] {
        let mut book = Book::new();
        assert_eq!(take(&mut book, u64::MAX, day), Ok(()));
        let free = book.held()[0].free_from().unwrap();
        assert_eq!(free, day + 5);
        assert_eq!(take(&mut book, u64::MAX, free - 1), refused(50, 0, 0));
        assert_eq!(take(&mut book, u64::MAX, free), Ok(()));
    }
    for day in u32::MAX - 4..=u32::MAX {
        let mut book = Book::new();
        assert_eq!(take(&mut book, 0, day), Ok(()));
        assert_eq!(book.held()[0].free_from(), None);
        assert_eq!(take(&mut book, 0, u32::MAX), refused(50, 0, 0));
    }
}
