//! The country lists by which files are judged: the receiver's annexes, or those of a folder.

use crate::common::{joined, wrong, Failure};
use crate::input::{Identity, Input};
use crate::sums::{sum, Sum};
use desk::Lists;
use std::ffi::OsStr;
use std::path::Path;

/// Two bytes a country.
pub struct Countries {
    transfer: Vec<u8>,
    cheque: Vec<u8>,
    /// The files from which they were read.
    pub read: Vec<Identity>,
}

/// More than any list of two-letter countries needs.
const MOST_LIST_BYTES: u64 = 64 * 1024;

impl Countries {
    /// The lists of a folder; without one, the annexes.
    pub fn of(folder: Option<&Path>) -> Result<Countries, Failure> {
        let folder = match folder {
            None => {
                let Lists { transfer, cheque } = Lists::ANNEXES;
                return Ok(Countries { transfer: transfer.into(), cheque: cheque.into(), read: Vec::new() });
            }
            Some(folder) => folder,
        };
        let (transfer, transfer_file) = read_list(&folder.join("transfer.txt"))?;
        let (cheque, cheque_file) = read_list(&folder.join("cheque.txt"))?;
        Ok(Countries { transfer, cheque, read: vec![transfer_file, cheque_file] })
    }

    pub fn lists(&self) -> Lists<'_> {
        Lists { transfer: &self.transfer, cheque: &self.cheque }
    }

    /// The sum of the transfer list and of the cheque list. Lists of the same countries have the same sum, in whatever order
    /// they stand.
    pub fn sums(&self) -> [Sum; 2] {
        [&self.transfer, &self.cheque].map(|list| {
            let mut countries: Vec<&[u8]> = list.chunks_exact(2).collect();
            countries.sort_unstable();
            countries.dedup();
            sum(&countries.concat())
        })
    }
}

fn read_list(path: &Path) -> Result<(Vec<u8>, Identity), Failure> {
    let input = Input::open(path)?;
    let identity = input.identity();
    let text = input.read_up_to(MOST_LIST_BYTES + 1)?;
    if text.len() as u64 > MOST_LIST_BYTES {
        return Err(wrong(path, "is too long for a country list"));
    }
    match countries(&text) {
        Ok(list) if list.is_empty() => Err(wrong(path, "has no country in it")),
        Ok(list) => Ok((list, identity)),
        Err((line, word)) => Err(joined(&[
            &path,
            &format!(": line {line}: "),
            &OsStr::new(&String::from_utf8_lossy(word).escape_debug().to_string()),
            &": a country is two capitals; countries are parted by spaces or line ends, and # begins a comment",
        ])),
    }
}

/// The countries of a list's text; or the line, from 1, and the word that is none.
fn countries(text: &[u8]) -> Result<Vec<u8>, (usize, &[u8])> {
    let mut list = Vec::new();
    for (number, line) in (1..).zip(text.split(|&byte| byte == b'\n')) {
        let line = line.split(|&byte| byte == b'#').next().unwrap_or_default();
        for word in line.split(u8::is_ascii_whitespace).filter(|word| !word.is_empty()) {
            if word.len() != 2 || !word.iter().all(u8::is_ascii_uppercase) {
                return Err((number, word));
            }
            list.extend(word);
        }
    }
    Ok(list)
}

#[cfg(test)]
mod tests {
    use super::*;

    #[test]
    fn words_of_a_list() {
        assert_eq!(countries(b"AU EG\r\n# DE\nFR#GB\n\n  US").as_deref(), Ok(&b"AUEGFRUS"[..]));
        assert_eq!(countries(b"").as_deref(), Ok(&b""[..]));
        assert_eq!(countries(b"AU\nEg"), Err((2, &b"Eg"[..])));
        assert_eq!(countries(b"AUEG"), Err((1, &b"AUEG"[..])));
        assert_eq!(countries(b"\xEF\xBB\xBFAU"), Err((1, &b"\xEF\xBB\xBFAU"[..])));
    }

    #[test]
    fn sums_know_no_order() {
        let of = |transfer: &[u8]| Countries { transfer: transfer.into(), cheque: b"US".to_vec(), read: Vec::new() };
        assert!(of(b"AUEG").sums() == of(b"EGAUEG").sums());
        assert!(of(b"AUEG").sums() != of(b"AUE").sums());
    }
}
