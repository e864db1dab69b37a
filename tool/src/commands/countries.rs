//! `countries transfer|cheque`: the list by which files are judged, as --lists reads it.

use crate::cli::{self, Kind};
use crate::common::Failure;
use crate::lists::Countries;
use crate::tell::{tell, End};
use desk::Lists;
use serde_json::json;

/// So many stand in a line.
const IN_A_LINE: usize = 20;

pub fn countries(words: &cli::CountriesOf, is_json: bool) -> Result<End, Failure> {
    let countries = Countries::of(words.lists.lists.as_deref())?;
    let Lists { transfer, cheque } = countries.lists();
    let (kind, list) = match words.kind {
        Kind::Transfer => ("transfer", transfer),
        Kind::Cheque => ("cheque", cheque),
    };
    let list: Vec<String> = list.chunks_exact(2).map(|country| String::from_utf8_lossy(country).into()).collect();
    tell(
        is_json,
        || json!({ "command": "countries", "kind": kind, "countries": &list }),
        |out| list.chunks(IN_A_LINE).try_for_each(|line| writeln!(out, "{}", line.join(" "))),
    )?;
    Ok(End::Done)
}
