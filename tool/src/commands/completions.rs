//! `completions SHELL`: what a shell needs to complete the command's words.

use crate::cli::Words;
use crate::common::{told, Failure};
use crate::tell::End;
use clap::CommandFactory;
use clap_complete::{generate, Shell};
use std::io::Write;

pub fn completions(shell: Shell) -> Result<End, Failure> {
    let mut text = Vec::new();
    generate(shell, &mut Words::command(), "kaaravizhe", &mut text);
    told(|out| out.write_all(&text))?;
    Ok(End::Done)
}
