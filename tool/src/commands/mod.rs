//! What the command does with its words, each of its works in a file.

mod book;
mod completions;
mod countries;
mod judge;
mod page;
mod prepare;
mod restore;
mod show;

use crate::cli::{BookWork, Command, Reading, Words};
use crate::common::Failure;
use crate::lists::Countries;
use crate::sending::Way;
use crate::tell::End;

/// Does what the words ask for.
pub fn run(words: &Words) -> Result<End, Failure> {
    let is_json = words.json;
    match &words.command {
        Command::Judge(words) => judge::judge(words, is_json),
        Command::Prepare(words) => prepare::prepare(words, is_json),
        Command::Restore(words) => restore::restore(words, is_json),
        Command::Show(words) => show::show(words, is_json),
        Command::Page(words) => page::page(words, is_json),
        Command::Book { work } => match work {
            BookWork::New { book } => book::make(book, is_json),
            BookWork::Take(words) => book::take(words, is_json),
            BookWork::List { book } => book::list(book, is_json),
            BookWork::Totals { book } => book::totals(book, is_json),
        },
        Command::Countries(words) => countries::countries(words, is_json),
        Command::Completions { shell } => completions::completions(*shell),
    }
}

/// By what a file is read, and whether it goes on as a whole or not at all.
fn way<'a>(reading: &Reading, countries: &'a Countries, is_strict: bool) -> Way<'a> {
    Way { page: reading.page.into(), lists: countries.lists(), is_strict }
}
