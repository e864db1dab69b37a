//! The command kaaravizhe: the desk for an office. It judges, prepares, restores and shows payment files, writes a page to look
//! at, and keeps the book, all by the proved calls of the crate desk; `kaaravizhe --help` has its words.

extern crate desk;

mod cli;
mod commands;
#[allow(dead_code)] // the examples use more of it
#[path = "../../hosts/rust/common.rs"]
mod common;
mod examine;
mod faults;
mod html;
mod input;
#[path = "../../hosts/rust/keeping.rs"]
mod keeping;
mod lists;
mod marks;
mod names;
mod notes;
mod outputs;
mod records;
#[path = "../../hosts/rust/sending.rs"]
mod sending;
mod sums;
mod table;
mod tell;
#[path = "../../hosts/rust/text.rs"]
mod text;

use clap::Parser;
use std::io::Write;
use std::process::ExitCode;

fn main() -> ExitCode {
    let done = match cli::Words::try_parse() {
        Ok(words) => commands::run(&words).map(|end| end as u8),
        Err(asked) if !asked.use_stderr() => common::told(|out| write!(out, "{asked}")).map(|()| 0), // help, version
        Err(misused) => misused.exit(),
    };
    common::ended(done.map_err(|line| names::plain(common::joined(&[&"kaaravizhe: ", &line])).into()))
}
