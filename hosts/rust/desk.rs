//! The desk's calls for hosts written in Rust: safe functions over slices, above the calls of hosts/c/desk.h.
//!
//! They need libdesk.a, which is x86-64 code (`bash hosts/library` writes it; `-L target/library` finds it). The library asks
//! that what is lent for writing overlap nothing else that is lent: slices and borrows keep that. Any bytes, any country
//! lists and any room may be lent. Every call ends with an answer or a numbered refusal, and a refused call changes no byte
//! that it was lent. No call has a state of its own, so any number of threads may call at the same time.
//!
//! Restore needs the page and the country lists that prepare had; with others it may refuse the pair. So store the page
//! with the forwarded file and its notes.

use std::io::{self, ErrorKind, Read};
use std::{error, fmt, ops::Range};

/// The version of this layer, and of the library that it is made for.
pub const VERSION: &str = "4.9.1";

/// The bytes of the longest file that rule 1 lets pass: 9,999 payments.
pub const MOST_BYTES: u64 = 7_679_744;

/// The bytes of an M8 record.
pub const M8_RECORD: usize = 124;

/// The places of a book: as many numbers are held at most.
pub const BOOK_PLACES: usize = 200;

/// The receiver's Annex II, the countries of transfers: 156, in the order of docs/DIFFERENCES.md.
pub const ANNEX_II: &[u8] =
    b"AFEGALDZAOAGGQARAMAWAZETAUBSBHBDBBBZBMBTBOBABWBRBNBIKYCLCNCRCWDODJCISVECERSZFKFOFJPFGAGMGEGHGIGLGBGTGGGNGYHTHNHK\
    INIDIQIMILJMJPYEJEJOKHCMCACVKZQAKEKGCOCDXKKWLALSLBLYMOMGMWMYMVMLMAMUMXMDMNMEMZNANPNZNIANNENGMKOMPKPWPAPGPYPEPHPR\
    CGRWRUSBZMWSSASNRSSCSLZWSGSOSJLKSHKNZAKRSSSRTJTWTZTHTGTOTTTDTNTRTMTCUGUAUYUSUZVUAEVNBYCF";

/// The receiver's Annex I, the countries of cheques: 22.
pub const ANNEX_I: &[u8] = b"ARBOBRCLCRDOSVECGTGBHNCACOMXNIPAPYPEPRUYUSVE";

/// Codes of M8 records, to be lent to `m8`: six bytes for each rule from 20 to 35, in that order, four rules a line. The
/// receiver's specification lists the codes and nowhere says which belongs to which rule: the desk's reading of it stands in
/// docs/M8-CODES.md, with the reasons. A host may lend a table of its own.
pub const M8_CODES: [u8; 96] = *b"\
    FI0103TX0101FI0103TX0104\
    TX0103TX0106TX0106TX0106\
    LW0101TX0107FI0103TX0107\
    TX0105FI0103FI0103FI0103";

/// The code page: at which codes the office writes the four German characters Ä, Ö, Ü and ß, which become A, O, U and S. On the one
/// page the codes of the other become spaces.
#[derive(Clone, Copy, Debug, PartialEq, Eq)]
#[repr(u32)]
pub enum Page {
    /// Hex 5B, 5C, 5D and 7E.
    Din66003 = 0,
    /// Hex C4, D6, DC and DF.
    Iso8859_1 = 1,
}

/// Country lists: two bytes a country; a lone last byte is ignored. `Lists::ANNEXES` are the receiver's.
#[derive(Clone, Copy, Debug)]
pub struct Lists<'a> {
    pub transfer: &'a [u8],
    pub cheque: &'a [u8],
}

/// What a sound file holds: its payments, the sum of their whole euros, and the sum of their cents, which are not carried.
#[derive(Clone, Copy, Debug, PartialEq, Eq)]
pub struct Judgement {
    pub payments: u64,
    pub euros: u64,
    pub cents: u64,
}

/// What a reader answers of a sound file: the judge's answer, and how many characters `prepare` would change.
#[derive(Clone, Copy, Debug, PartialEq, Eq)]
pub struct Answer {
    pub judgement: Judgement,
    pub changes: u64,
}

/// The first broken rule, the record at which it is broken (Q is 0, payments count from 1, Z is last), and the offset in
/// that record of the lowest-placed field that breaks it. Only `judge` and a `Reader` tell this place, and only for rules
/// 10 to 42; else `at` is 0.
#[derive(Clone, Copy, Debug, PartialEq, Eq)]
pub struct Refusal {
    pub number: u64,
    pub record: u64,
    pub at: u64,
}

/// A field's name, and its columns as a clerk counts them: from 1, and the last is included.
#[derive(Clone, Copy, Debug, PartialEq, Eq)]
pub struct Columns {
    pub field: &'static str,
    pub first: u64,
    pub last: u64,
}

/// What `prepare` left: how many notes, and the payments and their whole euros, kept and returned, which add up to the
/// submitted Z4 and Z3.
#[derive(Clone, Copy, Debug, PartialEq, Eq)]
pub struct Prepared {
    pub notes: usize,
    pub kept: usize,
    pub returned: usize,
    pub kept_euros: u64,
    pub returned_euros: u64,
}

/// A note of a changed character: its place in the file that went on, and the byte that was there.
#[derive(Clone, Copy, Debug, PartialEq, Eq)]
pub struct Note {
    pub place: usize,
    pub original: u8,
}

/// The text fields: Q5 of record 0, the others of a payment.
#[derive(Clone, Copy, Debug, PartialEq, Eq)]
pub enum Field {
    Q5 = 1,
    T8,
    T9b,
    T10b,
    T12,
    T15,
    T20,
    T23,
    T24,
}

/// Judges a file as it arrives, in cuts of any size, empty ones too: it keeps one unfinished record and never the file.
/// Fed with the same lists throughout, it answers at the end as `judge` does over all the bytes.
#[derive(Clone, Debug)]
pub struct Reader {
    own: c::Reader,
}

/// A file number in a book, the business day on which it was taken, and how many payments and whole euros the file has.
#[derive(Clone, Copy, Debug, PartialEq, Eq)]
#[repr(C)]
pub struct Entry {
    pub number: u64,
    pub day: u32,
    pub payments: u64,
    pub euros: u64,
}

/// What a book holds: how many files, and the payments and the whole euros of all of them together.
#[derive(Clone, Copy, Debug, PartialEq, Eq)]
pub struct Totals {
    pub files: usize,
    pub payments: u64,
    pub euros: u64,
}

/// The book of taken file numbers, of 200 places. A number that is taken on a day is forgotten once the day is five or more
/// later: one that was taken on day 7 is held through day 11, and may be taken again on day 12. The host counts the business
/// days, from 0. With its number a file's payments and whole euros are taken, and the book has the totals of what it holds.
/// There is no way to a book but by `new` and `take`, so a host's book is always one that takes have left.
#[derive(Clone)]
pub struct Book {
    own: c::Book,
}

/// Judges a file on page 0 (DIN 66003) without taken numbers: record × 100 + number; 0 for a sound file. For a file in ISO
/// 8859-1 there is `judge` with that page; here its umlauts would be read as spaces.
pub fn judge_code(file: &[u8], lists: Lists) -> u64 {
    let Lists { transfer, cheque } = lists;
    // SAFETY: each pointer and count is one slice's.
    unsafe {
        c::desk_judge(file.as_ptr(), file.len(), transfer.as_ptr(), transfer.len(), cheque.as_ptr(), cheque.len())
    }
}

/// Judges a file, also by the taken file numbers: 50, at record 0, comes after every other rule. A file's number is its Q4,
/// Q6 and Q7 as one number (docs/RULES.md, 5.6).
pub fn judge(page: Page, file: &[u8], lists: Lists, taken: &[u64]) -> Result<Judgement, Refusal> {
    let Lists { transfer, cheque } = lists;
    // SAFETY: each pointer and count is one slice's.
    let judged = unsafe {
        c::desk_judge_full(
            page as u32,
            file.as_ptr(),
            file.len(),
            transfer.as_ptr(),
            transfer.len(),
            cheque.as_ptr(),
            cheque.len(),
            taken.as_ptr(),
            taken.len(),
        )
    };
    judgement(judged)
}

/// Prepares the good payments of a file for forwarding, and names the others. Where a file breaks rules of 20 to 35 alone,
/// the payments that break one are returned and the rest goes on, as the kept file: Q, the kept T records in their order,
/// and Z with fresh Z3 and Z4. Where nothing is returned it is the very file.
///
/// `out` then begins with the forwarded kept file, which is `Prepared::bytes` long, and `notes` with a note for each changed
/// character, by rising place in the kept file. `returned` begins with a number for each returned payment, rising, of which
/// `Refusal::of_returned` tells record and rule. The rest of all three keeps its values.
///
/// Asked in this order: structure; the rules of Q; 33 for the first payment with a non-digit in T14a or T14b, whatever else
/// is broken there or before; 40 to 42, of the submitted file; 43; 60 and 61, measured on the kept file; 63. So it may tell
/// another rule than `judge` does, which stays strict. hosts/c/desk.h has what to know besides: of rule 21, of the kept
/// file's number, and of the field in which a returned payment breaks its rule.
pub fn prepare(
    page: Page,
    file: &[u8],
    lists: Lists,
    out: &mut [u8],
    notes: &mut [u32],
    returned: &mut [u32],
) -> Result<Prepared, Refusal> {
    let Lists { transfer, cheque } = lists;
    // SAFETY: each pointer and count is one slice's; out, notes and returned are borrowed for writing, so they overlap
    // nothing.
    let prepared = unsafe {
        c::desk_prepare(
            page as u32,
            file.as_ptr(),
            file.len(),
            transfer.as_ptr(),
            transfer.len(),
            cheque.as_ptr(),
            cheque.len(),
            out.as_mut_ptr(),
            out.len(),
            notes.as_mut_ptr(),
            notes.len(),
            returned.as_mut_ptr(),
            returned.len(),
        )
    };
    let c::Prepared { number, record, notes, kept, returned, kept_euros, returned_euros } = prepared;
    let [notes, kept, returned] = [notes, kept, returned].map(|count| count as usize);
    answer(Refusal { number, record, at: 0 }, Prepared { notes, kept, returned, kept_euros, returned_euros })
}

/// Prepares a sound file as a whole, and answers how many notes there are: one broken rule, and nothing goes on. `out` then
/// begins with the forwarded file and `notes` with its notes; the rest of both keeps its values. Soundness is asked first,
/// then 60, then 61. This is what `prepare` was before.
pub fn prepare_strict(
    page: Page,
    file: &[u8],
    lists: Lists,
    out: &mut [u8],
    notes: &mut [u32],
) -> Result<usize, Refusal> {
    let Lists { transfer, cheque } = lists;
    // SAFETY: each pointer and count is one slice's; out and notes are borrowed for writing, so they overlap nothing.
    let prepared = unsafe {
        c::desk_prepare_strict(
            page as u32,
            file.as_ptr(),
            file.len(),
            transfer.as_ptr(),
            transfer.len(),
            cheque.as_ptr(),
            cheque.len(),
            out.as_mut_ptr(),
            out.len(),
            notes.as_mut_ptr(),
            notes.len(),
        )
    };
    let c::Strict { number, record, notes } = prepared;
    answer(Refusal { number, record, at: 0 }, notes as usize)
}

/// Writes an M8 record for each payment that `prepare` returns on the same page and with the same lists, in the order of
/// its list, and answers how many there are: `out` then begins with them, and the rest keeps its bytes.
/// `Prepared::m8_bytes` is room enough. `codes` has six bytes for each rule from 20 to 35, in that order, as `M8_CODES`
/// has. Asked in this order: what `prepare` asks up to 43; 62 where `codes` is not 96 bytes, also where nothing is
/// returned; 60. hosts/c/desk.h has what stands in a record.
pub fn m8(page: Page, file: &[u8], lists: Lists, codes: &[u8], out: &mut [u8]) -> Result<usize, Refusal> {
    let Lists { transfer, cheque } = lists;
    // SAFETY: each pointer and count is one slice's; out is borrowed for writing, so it overlaps nothing.
    let returns = unsafe {
        c::desk_m8(
            page as u32,
            file.as_ptr(),
            file.len(),
            transfer.as_ptr(),
            transfer.len(),
            cheque.as_ptr(),
            cheque.len(),
            codes.as_ptr(),
            codes.len(),
            out.as_mut_ptr(),
            out.len(),
        )
    };
    let c::Returns { number, record, count } = returns;
    answer(Refusal { number, record, at: 0 }, count as usize)
}

/// What a code of six bytes means in the receiver's list, in English. `None` for those of recalls, which begin with RR, and
/// for one that is not in the list.
pub fn m8_meaning(code: &[u8]) -> Option<&'static str> {
    MEANINGS.iter().find(|row| row.0.as_bytes() == code).map(|row| row.1)
}

/// Restores the file that went on, from the forwarded file and all of its notes: `out` then begins with it, and the rest
/// keeps its bytes. After `prepare` that is the kept file: returned payments are in the submitted file alone, so keep it.
/// 60 is asked first, then 70.
pub fn restore(page: Page, forwarded: &[u8], notes: &[u32], lists: Lists, out: &mut [u8]) -> Result<(), Refusal> {
    let Lists { transfer, cheque } = lists;
    // SAFETY: each pointer and count is one slice's; out is borrowed for writing, so it overlaps nothing.
    let restored = unsafe {
        c::desk_restore(
            page as u32,
            forwarded.as_ptr(),
            forwarded.len(),
            notes.as_ptr(),
            notes.len(),
            transfer.as_ptr(),
            transfer.len(),
            cheque.as_ptr(),
            cheque.len(),
            out.as_mut_ptr(),
            out.len(),
        )
    };
    let c::Restored { number, record } = restored;
    answer(Refusal { number, record, at: 0 }, ())
}

/// A text field as it was written: the very part of the file. `None` where the structure is broken, the record doesn't
/// exist, or it has no such field.
pub fn show(file: &[u8], record: u64, field: Field) -> Option<&[u8]> {
    place(file, record, field).map(|part| &file[part])
}

/// Where a text field stands in the file: the places of what `show` shows.
pub fn place(file: &[u8], record: u64, field: Field) -> Option<Range<usize>> {
    // SAFETY: the pointer and the count are one slice's.
    let part = unsafe { c::desk_show(file.as_ptr(), file.len(), record, field as u64) };
    let start = part.start as usize;
    (part.length > 0).then(|| start..start + part.length as usize)
}

/// The fields of a record of kind `Q`, `T` or `Z`, in their order.
pub fn fields(kind: char) -> impl Iterator<Item = Columns> {
    FIELDS.into_iter().filter(move |row| row.field.starts_with(kind))
}

/// The field of such a record in which an offset lies. `None` where it lies in none: in the length digits, in the letter, or
/// beyond the record.
pub fn columns_at(kind: char, offset: u64) -> Option<Columns> {
    fields(kind).find(|row| offset < row.last && offset + 1 >= row.first)
}

/// A file's number: its Q4, Q6 and Q7 as one number (docs/RULES.md, 5.6). `None` where a byte of these is no digit, or
/// missing. Whether the file is sound is not asked; of one that `judge` or `prepare` does not refuse there is a number.
pub fn file_number(file: &[u8]) -> Option<u64> {
    let [q4, q6, q7] = [13..23, 163..169, 169..171].map(|place| file.get(place));
    let digits = [q4?, q6?, q7?].concat();
    digits.iter().try_fold(0, |number, byte| byte.is_ascii_digit().then(|| number * 10 + u64::from(byte - b'0')))
}

impl Lists<'static> {
    /// The receiver's Annex II for transfers, and Annex I for cheques.
    pub const ANNEXES: Lists<'static> = Lists { transfer: ANNEX_II, cheque: ANNEX_I };
}

impl Reader {
    /// A reader that has got no byte yet; the end of it would be 2 at record 0.
    pub fn new(page: Page) -> Reader {
        // SAFETY: it takes a number alone.
        Reader { own: unsafe { c::desk_reader_new(page as u32) } }
    }

    /// Takes the next cut. A payment is judged by the lists that come with its last byte. After the end no cut changes
    /// anything.
    pub fn feed(&mut self, cut: &[u8], lists: Lists) {
        let Lists { transfer, cheque } = lists;
        // SAFETY: each pointer and count is one slice's.
        self.own = unsafe {
            c::desk_reader_feed(
                self.own,
                cut.as_ptr(),
                cut.len(),
                transfer.as_ptr(),
                transfer.len(),
                cheque.as_ptr(),
                cheque.len(),
            )
        };
    }

    /// Takes what a source gives, cut by cut, to its end; of a source that is longer than any file, as many bytes as show
    /// it. Where the source fails, its error is handed on, and what came before it has been taken.
    pub fn feed_from(&mut self, source: impl Read, lists: Lists) -> io::Result<()> {
        const CUT: usize = 64 * 1024;
        let mut source = source.take(MOST_BYTES + 1);
        let mut cut = [0; CUT];
        loop {
            match source.read(&mut cut) {
                Ok(0) => return Ok(()),
                Ok(count) => self.feed(&cut[..count], lists),
                Err(error) if error.kind() == ErrorKind::Interrupted => {}
                Err(error) => return Err(error),
            }
        }
    }

    /// What all the cuts make, also by the taken file numbers. The first end decides: asked again it answers the same,
    /// whatever numbers are lent.
    pub fn end(&mut self, taken: &[u64]) -> Result<Answer, Refusal> {
        // SAFETY: the pointer and the count are one slice's.
        let c::Read { reader, judged, changes } = unsafe { c::desk_reader_end(self.own, taken.as_ptr(), taken.len()) };
        self.own = reader;
        judgement(judged).map(|judgement| Answer { judgement, changes })
    }
}

impl Entry {
    /// The first day on which the number may be taken again; `None` where no day is left for it.
    pub fn free_from(&self) -> Option<u32> {
        self.day.checked_add(5)
    }
}

impl Book {
    /// A book on day 0 that holds nothing.
    pub fn new() -> Book {
        // SAFETY: it takes nothing.
        Book { own: unsafe { c::desk_book_new() } }
    }

    /// Takes a file number on a day, with the file's payments and whole euros: the book is on that day then, and what was
    /// forgotten by then is gone from it and from its totals. Refused, in this order: 53 where there are more than 9,999
    /// payments, or more than 999,999,999,999,999 euros; 52 where the day is earlier than the book's; 50 where the number is
    /// held on that day; 51 where 200 are. A refused take leaves the book as it is, its day and its totals included: it
    /// forgets nothing.
    pub fn take(&mut self, number: u64, day: u32, payments: u64, euros: u64) -> Result<(), Refusal> {
        // SAFETY: it takes values alone.
        let c::Taken { book, number } = unsafe { c::desk_book_take(self.own, number, day, payments, euros) };
        self.own = answer(Refusal { number, record: 0, at: 0 }, book)?;
        Ok(())
    }

    /// The totals as the book has them stored; nothing is added up. They are those of the book's day: files that are
    /// forgotten by today count until the next take that is not refused.
    pub fn totals(&self) -> Totals {
        // SAFETY: it takes a value alone.
        let c::Totals { files, payments, euros } = unsafe { c::desk_book_totals(self.own) };
        Totals { files: files as usize, payments, euros }
    }

    /// The day of the last take that was not refused; of a new book 0.
    pub fn day(&self) -> u32 {
        self.own.day
    }

    /// The held numbers, in the order in which they were taken: so no day is earlier than the one before it, and the last is
    /// the book's.
    pub fn held(&self) -> &[Entry] {
        &self.own.places[..self.own.held as usize]
    }
}

impl Default for Book {
    fn default() -> Book {
        Book::new()
    }
}

/// By day, totals and what is held. The totals follow from what is held, but they are stored, and so they are compared.
impl PartialEq for Book {
    fn eq(&self, other: &Book) -> bool {
        (self.day(), self.totals(), self.held()) == (other.day(), other.totals(), other.held())
    }
}

impl Eq for Book {}

impl fmt::Debug for Book {
    fn fmt(&self, f: &mut fmt::Formatter) -> fmt::Result {
        let mut book = f.debug_struct("Book");
        book.field("day", &self.day()).field("totals", &self.totals()).field("held", &self.held()).finish()
    }
}

/// The page of a number that comes from outside. Where there is none it is refused as the calls in C refuse it: 7, at
/// record 0.
impl TryFrom<u32> for Page {
    type Error = Refusal;

    fn try_from(page: u32) -> Result<Page, Refusal> {
        match page {
            0 => Ok(Page::Din66003),
            1 => Ok(Page::Iso8859_1),
            _ => Err(Refusal { number: 7, record: 0, at: 0 }),
        }
    }
}

/// `page 1 (ISO 8859-1)`.
impl fmt::Display for Page {
    fn fmt(&self, f: &mut fmt::Formatter) -> fmt::Result {
        match self {
            Page::Din66003 => f.write_str("page 0 (DIN 66003)"),
            Page::Iso8859_1 => f.write_str("page 1 (ISO 8859-1)"),
        }
    }
}

impl Field {
    /// All of them, in the order in which they stand in a record.
    pub const ALL: [Field; 9] = {
        use Field::*;
        [Q5, T8, T9b, T10b, T12, T15, T20, T23, T24]
    };
}

impl fmt::Display for Field {
    fn fmt(&self, f: &mut fmt::Formatter) -> fmt::Result {
        fmt::Debug::fmt(self, f)
    }
}

impl Prepared {
    /// The bytes of the forwarded kept file: Q, the kept payments and Z.
    pub fn bytes(&self) -> usize {
        256 + 768 * self.kept + 256
    }

    /// The bytes of the M8 records, one for each returned payment.
    pub fn m8_bytes(&self) -> usize {
        M8_RECORD * self.returned
    }
}

impl From<u32> for Note {
    fn from(note: u32) -> Note {
        Note { place: (note / 256) as usize, original: (note % 256) as u8 }
    }
}

impl Refusal {
    /// What a number of `prepare`'s returned list says: the payment's record, and the first rule that it breaks.
    pub fn of_returned(number: u32) -> Refusal {
        Refusal { number: u64::from(number % 100), record: u64::from(number / 100), at: 0 }
    }

    /// When the rule is broken, or why else the call is refused.
    pub fn words(&self) -> &'static str {
        let row = WORDS.iter().find(|row| row.0 == self.number);
        row.map_or("no rule of the desk", |row| row.1)
    }

    /// The kind of record that breaks the rule.
    pub fn kind(&self) -> Option<char> {
        match self.number {
            10..=16 => Some('Q'),
            20..=35 => Some('T'),
            40..=42 => Some('Z'),
            _ => None,
        }
    }

    /// The lowest-placed field that breaks the rule, where the refusal tells its place.
    pub fn columns(&self) -> Option<Columns> {
        columns_at(self.kind()?, self.at)
    }
}

/// In one line: `rule 15 at record 0, Q9, column 178: Q9 is not N`. A number that is no rule of a file (7, and 43 to 70)
/// has no record there.
impl fmt::Display for Refusal {
    fn fmt(&self, f: &mut fmt::Formatter) -> fmt::Result {
        let Refusal { number, record, .. } = self;
        let is_rule = self.kind().is_some() || (1..=5).contains(number);
        if is_rule {
            write!(f, "rule {number} at record {record}")?;
        } else {
            write!(f, "number {number}")?;
        }
        if let Some(columns) = self.columns() {
            write!(f, ", {columns}")?;
        }
        write!(f, ": {}", self.words())
    }
}

impl fmt::Display for Columns {
    fn fmt(&self, f: &mut fmt::Formatter) -> fmt::Result {
        let Columns { field, first, last } = self;
        if first == last {
            write!(f, "{field}, column {first}")
        } else {
            write!(f, "{field}, columns {first} to {last}")
        }
    }
}

impl error::Error for Refusal {}

/// The refusals, in the English words of docs/WORDS.md.
const WORDS: [(u64, &str); 42] = [
    (1, "file longer than 7,679,744 bytes (9,999 payments)"),
    (2, "file ends inside a record, or where one is due"),
    (3, "length digits wrong for the letter"),
    (4, "letter not allowed here"),
    (5, "bytes after Z"),
    (7, "judge, prepare, M8, restore: code page neither 0 nor 1"),
    (10, "Q3 is not 50400042"),
    (11, "Q4 is not eight zeros and two digits"),
    (12, "first line of Q5 blank"),
    (13, "Q6 is no date YYMMDD (years 2000 to 2099)"),
    (14, "a non-digit in Q7, Q8, Q10 or Q11"),
    (15, "Q9 is not N"),
    (16, "Q12 not all spaces"),
    (20, "a non-digit in T3 or T4b, or T4a not EUR"),
    (21, "T3 or T4b differs from record 1"),
    (22, "T5, T6 or T7b not all zeros, or T7a not spaces"),
    (23, "T22 is not 00 (transfer), 20 or 22 (cheques)"),
    (24, "T21 not 00, 01 or 02; for a cheque, not 00"),
    (25, "cheque: T8 or T9b not blank, or T9a not spaces"),
    (26, "transfer: T9a wrong: beside a BIC neither three spaces nor two capitals and a space; without one, not a listed country and a space"),
    (27, "transfer: T8 has no BIC shape and T9b is blank"),
    (28, "T10a not a listed country and a space"),
    (29, "first line of T10b blank; for a cheque, also line 3 or line 4"),
    (30, "T11 not all spaces"),
    (31, "transfer: T12 does not begin with `/` and a non-space; cheque: T12 not blank"),
    (32, "T13 not EUR"),
    (33, "a non-digit in T14a or T14b, last digit of T14b not 0, or amount zero"),
    (34, "a non-digit in T16 to T19 or T25, or T27 not 00"),
    (35, "T26 not all spaces"),
    (40, "a non-digit in Z3 or Z4, or Z5 not all spaces"),
    (41, "Z4 is not the number of T records"),
    (42, "Z3 is not the sum of all T14a (whole euros, no cents)"),
    (43, "prepare, M8: every payment would be returned"),
    (50, "judge, book: the file number (Q4, Q6, Q7) is a taken one"),
    (51, "book: 200 numbers are held"),
    (52, "book: the day is earlier than the book's"),
    (53, "book: more than 9,999 payments, or more than 999,999,999,999,999 euros"),
    (60, "prepare, M8, restore: output room shorter than the file that goes on or is restored, or than the M8 records"),
    (61, "prepare: more changes in the file that goes on than note places"),
    (62, "M8: the code table is not 96 bytes"),
    (63, "prepare: returned list has fewer places than returned payments"),
    (70, "restore: no sound file yields this pair"),
];

/// The codes of docs/M8-CODES.md, in its words.
const MEANINGS: [(&str, &str); 15] = [
    ("FO0101", "invalid file format"),
    ("FI0101", "file submitted twice"),
    ("FI0102", "the sum of the amounts is not the control total"),
    ("FI0103", "format fault in a T record"),
    ("BE0101", "the account holder has given no right to submit"),
    ("BL0101", "fault of a bulk (a group of payments)"),
    ("LW0101", "no route can be found"),
    ("TX0101", "the account number in the order is not that of the account to be charged"),
    ("TX0102", "type of payment not permitted"),
    ("TX0103", "form of the charges not permitted"),
    ("TX0104", "kind of payment in the order not admitted"),
    ("TX0105", "currency not permitted"),
    ("TX0106", "details of the payee's bank not correct"),
    ("TX0107", "details of the payee missing, or in a transfer the payee's account number"),
    ("TX0201", "maximum number of faulty transactions reached"),
];

/// The fields of docs/RULES.md, 2. A name begins with the letter of its record's kind.
const FIELDS: [Columns; 43] = [
    columns("Q3", 6, 13),
    columns("Q4", 14, 23),
    columns("Q5", 24, 163),
    columns("Q6", 164, 169),
    columns("Q7", 170, 171),
    columns("Q8", 172, 177),
    columns("Q9", 178, 178),
    columns("Q10", 179, 180),
    columns("Q11", 181, 188),
    columns("Q12", 189, 256),
    columns("T3", 6, 13),
    columns("T4a", 14, 16),
    columns("T4b", 17, 26),
    columns("T5", 27, 32),
    columns("T6", 33, 40),
    columns("T7a", 41, 43),
    columns("T7b", 44, 53),
    columns("T8", 54, 64),
    columns("T9a", 65, 67),
    columns("T9b", 68, 207),
    columns("T10a", 208, 210),
    columns("T10b", 211, 350),
    columns("T11", 351, 420),
    columns("T12", 421, 455),
    columns("T13", 456, 458),
    columns("T14a", 459, 472),
    columns("T14b", 473, 475),
    columns("T15", 476, 615),
    columns("T16", 616, 617),
    columns("T17", 618, 619),
    columns("T18", 620, 621),
    columns("T19", 622, 623),
    columns("T20", 624, 648),
    columns("T21", 649, 650),
    columns("T22", 651, 652),
    columns("T23", 653, 679),
    columns("T24", 680, 714),
    columns("T25", 715, 715),
    columns("T26", 716, 766),
    columns("T27", 767, 768),
    columns("Z3", 6, 20),
    columns("Z4", 21, 35),
    columns("Z5", 36, 256),
];

const fn columns(field: &'static str, first: u64, last: u64) -> Columns {
    Columns { field, first, last }
}

/// The judge's answer: what a sound file holds, or the refusal.
fn judgement(judged: c::Judged) -> Result<Judgement, Refusal> {
    let c::Judged { number, record, at, payments, euros, cents } = judged;
    answer(Refusal { number, record, at }, Judgement { payments, euros, cents })
}

/// A call's answer where its number is 0, and otherwise the refusal.
fn answer<T>(refusal: Refusal, sound: T) -> Result<T, Refusal> {
    match refusal.number {
        0 => Ok(sound),
        _ => Err(refusal),
    }
}

/// The calls of hosts/c/desk.h.
mod c {
    use super::{Entry, BOOK_PLACES};

    #[repr(C)]
    pub struct Judged {
        pub number: u64,
        pub record: u64,
        pub at: u64,
        pub payments: u64,
        pub euros: u64,
        pub cents: u64,
    }

    /// A `desk_reader`. What is in it is the desk's own; bytes between its fields may have no value.
    #[repr(C)]
    #[derive(Clone, Copy, Debug)]
    pub struct Reader {
        own: [std::mem::MaybeUninit<u64>; 118],
    }

    /// A `desk_read`, whose answer is the judge's, and the changes behind it.
    #[repr(C)]
    pub struct Read {
        pub reader: Reader,
        pub judged: Judged,
        pub changes: u64,
    }

    #[repr(C)]
    pub struct Prepared {
        pub number: u64,
        pub record: u64,
        pub notes: u64,
        pub kept: u64,
        pub returned: u64,
        pub kept_euros: u64,
        pub returned_euros: u64,
    }

    #[repr(C)]
    pub struct Strict {
        pub number: u64,
        pub record: u64,
        pub notes: u64,
    }

    #[repr(C)]
    pub struct Restored {
        pub number: u64,
        pub record: u64,
    }

    #[repr(C)]
    pub struct Returns {
        pub number: u64,
        pub record: u64,
        pub count: u64,
    }

    #[repr(C)]
    pub struct Part {
        pub start: u64,
        pub length: u64,
    }

    #[repr(C)]
    #[derive(Clone, Copy)]
    pub struct Book {
        pub day: u32,
        pub held: u64,
        pub payments: u64,
        pub euros: u64,
        pub places: [Entry; BOOK_PLACES],
    }

    #[repr(C)]
    pub struct Taken {
        pub book: Book,
        pub number: u64,
    }

    #[repr(C)]
    pub struct Totals {
        pub files: u64,
        pub payments: u64,
        pub euros: u64,
    }

    #[link(name = "desk", kind = "static")]
    extern "C" {
        pub fn desk_judge(
            file: *const u8,
            n: usize,
            transfer: *const u8,
            nt: usize,
            cheque: *const u8,
            nc: usize,
        ) -> u64;

        pub fn desk_judge_full(
            page: u32,
            file: *const u8,
            n: usize,
            transfer: *const u8,
            nt: usize,
            cheque: *const u8,
            nc: usize,
            taken: *const u64,
            taken_n: usize,
        ) -> Judged;

        pub fn desk_reader_new(page: u32) -> Reader;

        pub fn desk_reader_feed(
            reader: Reader,
            cut: *const u8,
            n: usize,
            transfer: *const u8,
            nt: usize,
            cheque: *const u8,
            nc: usize,
        ) -> Reader;

        pub fn desk_reader_end(reader: Reader, taken: *const u64, taken_n: usize) -> Read;

        pub fn desk_prepare(
            page: u32,
            file: *const u8,
            n: usize,
            transfer: *const u8,
            nt: usize,
            cheque: *const u8,
            nc: usize,
            out: *mut u8,
            out_n: usize,
            notes: *mut u32,
            notes_n: usize,
            returned: *mut u32,
            returned_n: usize,
        ) -> Prepared;

        pub fn desk_prepare_strict(
            page: u32,
            file: *const u8,
            n: usize,
            transfer: *const u8,
            nt: usize,
            cheque: *const u8,
            nc: usize,
            out: *mut u8,
            out_n: usize,
            notes: *mut u32,
            notes_n: usize,
        ) -> Strict;

        pub fn desk_m8(
            page: u32,
            file: *const u8,
            n: usize,
            transfer: *const u8,
            nt: usize,
            cheque: *const u8,
            nc: usize,
            codes: *const u8,
            codes_n: usize,
            out: *mut u8,
            out_n: usize,
        ) -> Returns;

        pub fn desk_restore(
            page: u32,
            forwarded: *const u8,
            n: usize,
            notes: *const u32,
            notes_n: usize,
            transfer: *const u8,
            nt: usize,
            cheque: *const u8,
            nc: usize,
            out: *mut u8,
            out_n: usize,
        ) -> Restored;

        pub fn desk_show(file: *const u8, n: usize, record: u64, field: u64) -> Part;

        pub fn desk_book_new() -> Book;

        pub fn desk_book_take(book: Book, file_number: u64, day: u32, payments: u64, euros: u64) -> Taken;

        pub fn desk_book_totals(book: Book) -> Totals;
    }
}
