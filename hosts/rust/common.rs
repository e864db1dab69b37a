//! What the example hosts have in common, and the command with them: the page and the paths that their words name, a file as
//! it is read, and how they tell what they find, and what they cannot do.

use super::desk::{Page, Refusal, MOST_BYTES};
use std::ffi::{OsStr, OsString};
use std::fmt::Display;
use std::fs::File;
use std::io::{self, BufWriter, Read, Stdout, Write};
use std::os::unix::ffi::OsStrExt;
use std::path::Path;
use std::process::ExitCode;

/// The bytes of the records.
pub const Q: usize = 256;
pub const T: usize = 768;
pub const Z: usize = 256;

/// Something could not be done: what is said of it, in which a path keeps its very bytes.
pub type Failure = OsString;

/// Ends with this status; where something failed with 2, and says what.
pub fn ended(done: Result<u8, Failure>) -> ExitCode {
    match done {
        Ok(status) => ExitCode::from(status),
        Err(line) => {
            say(line); // where this cannot be said either, the status says it
            ExitCode::from(2)
        }
    }
}

/// Says a line on standard error, where that can be written.
pub fn say(mut line: OsString) {
    line.push("\n");
    let _ = io::stderr().write_all(line.as_bytes());
}

/// The page for which a word asks.
pub fn page_of(word: &OsStr) -> Result<Page, Failure> {
    match word.to_str() {
        Some("0") => Ok(Page::Din66003),
        Some("1") => Ok(Page::Iso8859_1),
        _ => Err(no_page(joined(&[&"page ", &word]))),
    }
}

/// What is wrong with the page, and which there are.
pub fn no_page(why: OsString) -> Failure {
    joined(&[&why, &format!(": there is {} and {}", Page::Din66003, Page::Iso8859_1)])
}

/// The path that a word names: not where it begins as an option does.
pub fn path_of(word: &OsStr) -> Result<&Path, Failure> {
    match word.as_bytes().starts_with(b"-") {
        true => Err(joined(&[&word, &": no option in this place; a file of that name is ./", &word])),
        false => Ok(Path::new(word)),
    }
}

/// The file's bytes; of one that is too long, as many as show it.
pub fn read(path: &Path) -> Result<Vec<u8>, Failure> {
    let mut bytes = Vec::new();
    let read = File::open(path).and_then(|file| file.take(MOST_BYTES + 1).read_to_end(&mut bytes));
    read.map_err(|error| failed(path, &error))?;
    Ok(bytes)
}

/// What was told on standard output, where all of it could be printed.
pub fn told<T>(tell: impl FnOnce(&mut BufWriter<Stdout>) -> io::Result<T>) -> Result<T, Failure> {
    let mut out = BufWriter::new(io::stdout());
    match tell(&mut out).and_then(|told| out.flush().map(|()| told)) {
        Ok(told) if !at_start::output_was_closed() => Ok(told),
        _ => Err("standard output cannot be written".into()),
    }
}

/// Tells why nothing goes on. Prepare tells no field; the judge does, where it stops at the same rule. Where it stops at an
/// earlier one, that is told too.
pub fn tell_refusal(page: Page, refusal: Refusal, judged: Option<Refusal>, out: &mut impl Write) -> io::Result<()> {
    let Refusal { number, record, .. } = refusal;
    match judged {
        Some(first) if (first.number, first.record) == (number, record) => refused(page, first, out),
        Some(first) => {
            refused(page, refusal, out)?;
            writeln!(out, "first broken: {first}")
        }
        None => refused(page, refusal, out),
    }
}

pub fn refused(page: Page, refusal: Refusal, out: &mut impl Write) -> io::Result<()> {
    writeln!(out, "refused on {page}: {refusal}")
}

/// What is wrong with a path, or with standard input.
pub fn wrong(path: impl AsRef<OsStr>, why: &str) -> Failure {
    joined(&[&path, &": ", &why])
}

pub fn joined(parts: &[&dyn AsRef<OsStr>]) -> OsString {
    parts.iter().map(|part| part.as_ref()).collect()
}

/// The system's words for what is wrong with a path, without the number that Rust puts behind them.
pub fn failed(path: impl AsRef<OsStr>, error: &impl Display) -> Failure {
    let words = error.to_string();
    wrong(path, words.split(" (os error ").next().unwrap_or(&words))
}

/// Before main begins, Rust's library opens /dev/null in place of a closed standard input or output: the one would be
/// empty, and what is told on the other be lost, without a failure. So whether they are open is asked earlier, while the
/// program is loaded.
pub mod at_start {
    use std::sync::atomic::{AtomicBool, Ordering::Relaxed};

    static INPUT_WAS_CLOSED: AtomicBool = AtomicBool::new(false);
    static OUTPUT_WAS_CLOSED: AtomicBool = AtomicBool::new(false);

    pub fn input_was_closed() -> bool {
        INPUT_WAS_CLOSED.load(Relaxed)
    }

    pub fn output_was_closed() -> bool {
        OUTPUT_WAS_CLOSED.load(Relaxed)
    }

    #[used]
    #[link_section = ".init_array"]
    static LOOK: extern "C" fn() = look;

    extern "C" fn look() {
        INPUT_WAS_CLOSED.store(is_closed(0), Relaxed);
        OUTPUT_WAS_CLOSED.store(is_closed(1), Relaxed);
    }

    fn is_closed(descriptor: i32) -> bool {
        const F_GETFD: i32 = 1;
        // SAFETY: it reads the flags of a descriptor, and answers -1 where that is closed.
        unsafe { fcntl(descriptor, F_GETFD) == -1 }
    }

    extern "C" {
        fn fcntl(descriptor: i32, command: i32, ...) -> i32;
    }
}
