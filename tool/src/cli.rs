//! The words that the command understands.

use clap::builder::PossibleValue;
use clap::{Args, Parser, Subcommand, ValueEnum};
use clap_complete::Shell;
use desk::{Field, Page};
use std::path::PathBuf;

/// The desk for DTAZV payment files, before they go to the Bundesbank's HBV-IMPAY: judges them, prepares them for forwarding
/// with a note of every changed character, gives the original back, and keeps the book of taken files.
#[derive(Parser)]
#[command(name = "kaaravizhe", version, max_term_width = 100, after_help = AFTER_HELP, after_long_help = AFTER_LONG_HELP)]
pub struct Words {
    #[command(subcommand)]
    pub command: Command,

    /// Tell the answer as JSON, for machines; what cannot be done is told in words on standard error
    #[arg(long, global = true)]
    pub json: bool,
}

const AFTER_HELP: &str = "\
Exit status: 0 done; 1 refused; 2 used wrongly, or could not read or write.
No existing file is written over without --force, and no file that was read.";

const AFTER_LONG_HELP: &str = "\
An office's day, with a file payments.dtazv:

  kaaravizhe judge payments.dtazv
  kaaravizhe page payments.dtazv -o payments.html
  kaaravizhe prepare payments.dtazv --out forwarded.dtazv \\
      --notes payments.notes --returned returned.txt --m8 returned.m8
  kaaravizhe book new taken.book                       (once)
  kaaravizhe book take taken.book 7 payments.dtazv     (on business day 7)
  kaaravizhe restore forwarded.dtazv --notes payments.notes \\
      --out original.dtazv

Send forwarded.dtazv. Keep payments.dtazv and payments.notes: payments that
come back are in payments.dtazv alone, and need a file with a new number.

Where umlauts come out as spaces, the file is on the other code page: --page 0.
Of a file from which payments came back, restore gives back what went on.

Exit status: 0 done; 1 refused; 2 used wrongly, or could not read or write.
No existing file is written over without --force, and no file that was read.";

#[derive(Subcommand)]
pub enum Command {
    /// Judge a file: is it sound, and if not, which rule is broken first, and in which field?
    Judge(Judge),
    /// Prepare a file: payments that break a rule come back, the others go on; each changed character is noted
    Prepare(Prepare),
    /// Restore the file that went on, from the forwarded file and its notes
    Restore(Restore),
    /// Show a text field of a record as it was written
    Show(Show),
    /// Write a page to look at: one HTML file, for reading and printing
    Page(PageOf),
    /// Keep the book of taken file numbers
    Book {
        #[command(subcommand)]
        work: BookWork,
    },
    /// Print the countries by which files are judged, as a file of --lists has them
    Countries(CountriesOf),
    /// Print completions for a shell
    Completions { shell: Shell },
}

#[derive(Args)]
pub struct Judge {
    /// The payment file; - is standard input
    pub file: PathBuf,
    #[command(flatten)]
    pub reading: Reading,
}

/// By what a file is judged.
#[derive(Args)]
pub struct Reading {
    /// At which codes the office writes Ä, Ö, Ü and ß
    #[arg(long, value_enum, default_value = "1")]
    pub page: PageNumber,
    #[command(flatten)]
    pub lists: ListsFrom,
}

#[derive(Args)]
pub struct ListsFrom {
    /// A folder with other country lists than the receiver's Annex II and Annex I: transfer.txt and cheque.txt, with two
    /// capitals a country, spaces or line ends between them, and # before a comment
    #[arg(long, value_name = "DIR")]
    pub lists: Option<PathBuf>,
}

#[derive(Args)]
pub struct Replacing {
    /// Write over existing files, but never over a file that was read
    #[arg(long)]
    pub force: bool,
}

#[derive(Args)]
pub struct Prepare {
    /// The payment file; - is standard input
    pub file: PathBuf,
    /// Where the forwarded file goes
    #[arg(short, long, value_name = "F")]
    pub out: PathBuf,
    /// Where its notes go; keep them, for restore needs them
    #[arg(long, value_name = "N")]
    pub notes: PathBuf,
    /// Where the list of what comes back goes, in words
    #[arg(long, value_name = "R")]
    pub returned: Option<PathBuf>,
    /// Where M8 records of what comes back go, 124 bytes each; empty where nothing does
    #[arg(long, value_name = "M")]
    pub m8: Option<PathBuf>,
    /// Send the file as a whole or not at all: then nothing comes back, and --returned and --m8 are not for it
    #[arg(long, conflicts_with_all = ["returned", "m8"])]
    pub strict: bool,
    #[command(flatten)]
    pub reading: Reading,
    #[command(flatten)]
    pub replacing: Replacing,
}

#[derive(Args)]
pub struct Restore {
    /// The forwarded file; - is standard input
    pub forwarded: PathBuf,
    /// Its notes, which tell the page too
    #[arg(long, value_name = "N")]
    pub notes: PathBuf,
    /// Where the restored file goes
    #[arg(short, long, value_name = "F")]
    pub out: PathBuf,
    #[command(flatten)]
    pub lists: ListsFrom,
    #[command(flatten)]
    pub replacing: Replacing,
}

#[derive(Args)]
pub struct Show {
    /// The payment file; - is standard input
    pub file: PathBuf,
    /// The record: 0 is Q, the payments count from 1
    pub record: u64,
    /// The field: Q5 of record 0, the others of a payment
    #[arg(value_enum, ignore_case = true)]
    pub field: FieldName,
    /// At which codes the office writes Ä, Ö, Ü and ß
    #[arg(long, value_enum, default_value = "1")]
    pub page: PageNumber,
}

#[derive(Args)]
pub struct PageOf {
    /// The payment file; - is standard input
    pub file: PathBuf,
    /// Where the page goes
    #[arg(short, long, value_name = "HTML")]
    pub out: PathBuf,
    /// The language of the page
    #[arg(long, value_enum, ignore_case = true, default_value = "en")]
    pub lang: Lang,
    #[command(flatten)]
    pub reading: Reading,
    #[command(flatten)]
    pub replacing: Replacing,
}

#[derive(Subcommand)]
pub enum BookWork {
    /// Make a book: on day 0, nothing is held
    New {
        /// The book file to be made
        book: PathBuf,
    },
    /// Take the number of a file of which something goes on, with its payments and whole euros
    Take(Take),
    /// Tell what is held, and from which day on each number is free again
    List {
        /// The book file
        book: PathBuf,
    },
    /// Tell how many files, payments and whole euros are held on the book's day
    Totals {
        /// The book file
        book: PathBuf,
    },
}

#[derive(Args)]
pub struct Take {
    /// The book file
    pub book: PathBuf,
    /// The business day, which the office counts: never an earlier one than before. A number is held on five days, this one
    /// included
    #[arg(value_parser = day)]
    pub day: u32,
    /// The payment file; - is standard input
    pub file: PathBuf,
    /// Take it only where the whole file goes on
    #[arg(long)]
    pub strict: bool,
    /// Take it although the day is more than 20 after the book's
    #[arg(long)]
    pub jump: bool,
    #[command(flatten)]
    pub reading: Reading,
}

#[derive(Args)]
pub struct CountriesOf {
    /// Those of transfers, or those of cheques
    #[arg(value_enum)]
    pub kind: Kind,
    #[command(flatten)]
    pub lists: ListsFrom,
}

#[derive(Clone, Copy, ValueEnum)]
pub enum PageNumber {
    /// DIN 66003: hex 5B, 5C, 5D and 7E
    #[value(name = "0")]
    Din66003,
    /// ISO 8859-1: hex C4, D6, DC and DF
    #[value(name = "1")]
    Iso8859_1,
}

#[derive(Clone, Copy, ValueEnum)]
pub enum Kind {
    Transfer,
    Cheque,
}

#[derive(Clone, Copy, PartialEq, Eq, ValueEnum)]
pub enum Lang {
    /// English
    En,
    /// Deutsch
    De,
}

/// A text field, by its name.
#[derive(Clone, Copy)]
pub struct FieldName(pub Field);

impl From<PageNumber> for Page {
    fn from(number: PageNumber) -> Page {
        match number {
            PageNumber::Din66003 => Page::Din66003,
            PageNumber::Iso8859_1 => Page::Iso8859_1,
        }
    }
}

impl ValueEnum for FieldName {
    fn value_variants<'a>() -> &'a [FieldName] {
        use Field::*;
        const ALL: [FieldName; 9] = [
            FieldName(Q5),
            FieldName(T8),
            FieldName(T9b),
            FieldName(T10b),
            FieldName(T12),
            FieldName(T15),
            FieldName(T20),
            FieldName(T23),
            FieldName(T24),
        ];
        &ALL
    }

    fn to_possible_value(&self) -> Option<PossibleValue> {
        const NAMES: [&str; 9] = ["Q5", "T8", "T9b", "T10b", "T12", "T15", "T20", "T23", "T24"];
        Some(PossibleValue::new(NAMES[self.0 as usize - 1]))
    }
}

/// A day in digits: no sign, no space.
fn day(word: &str) -> Result<u32, String> {
    let digits = Some(word).filter(|word| word.bytes().all(|byte| byte.is_ascii_digit()));
    let day = digits.and_then(|digits| digits.parse().ok());
    day.ok_or_else(|| "a day is a number from 0 to 4294967295, in digits".into())
}
