//! A small host that knows the installed crate alone: `host FILE` prepares a file and tells what comes of it; `host` alone
//! tells the crate's version. tests/release builds it; tests/outside/host.c does the same.

use desk::{prepare, Lists, Page, Refusal};
use std::process::ExitCode;

fn main() -> ExitCode {
    let path = match std::env::args_os().nth(1) {
        Some(path) => path,
        None => {
            println!("{}", desk::VERSION);
            return ExitCode::SUCCESS;
        }
    };
    let file = std::fs::read(path).unwrap();
    let (mut out, mut notes, mut returned) = (vec![0; file.len()], vec![0; file.len()], vec![0; file.len() / 768]);
    match prepare(Page::Iso8859_1, &file, Lists::ANNEXES, &mut out, &mut notes, &mut returned) {
        Ok(sent) => {
            println!("{} payments go on, {} come back, {} characters change", sent.kept, sent.returned, sent.notes);
            for &number in &returned[..sent.returned] {
                println!("{}", Refusal::of_returned(number));
            }
            ExitCode::SUCCESS
        }
        Err(refusal) => {
            println!("{refusal}");
            ExitCode::FAILURE
        }
    }
}
