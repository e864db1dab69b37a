//! `judge FILE`: is the file sound, and if not, which rule is broken first, and in which field?

use super::way;
use crate::cli;
use crate::common::Failure;
use crate::examine::{letters_elsewhere, sound_elsewhere};
use crate::faults;
use crate::input::Input;
use crate::lists::Countries;
use crate::names::counted;
use crate::sending::{self, Outgoing, Way};
use crate::table::replacements;
use crate::tell::{self, code_page, name, tell, tell_letters_elsewhere, End, Shown};
use desk::{Judgement, Prepared, Refusal};
use serde_json::{json, Value};

pub fn judge(words: &cli::Judge, is_json: bool) -> Result<End, Failure> {
    let countries = Countries::of(words.reading.lists.lists.as_deref())?;
    let way = way(&words.reading, &countries, true);
    let input = Input::open(&words.file)?;
    let answer = json!({ "command": "judge", "file": name(input.name()), "page": way.page as u32 });
    let file = input.read()?;
    match desk::judge(way.page, &file, way.lists, &[]) {
        Ok(judgement) => sound(way, answer, &file, judgement, is_json),
        Err(refusal) => refused(way, answer, &file, refusal, is_json),
    }
}

fn sound(way: Way, mut answer: Value, file: &[u8], judgement: Judgement, is_json: bool) -> Result<End, Failure> {
    let Judgement { payments, euros, cents } = judgement;
    let number = desk::file_number(file).expect("rules 11, 13 and 14 ask for digits");
    let prepared = sending::prepare(way, file).map_err(|refusal| format!("{refusal}, though the file is sound"))?;
    let (Outgoing { notes, .. }, _) = prepared;
    tell::add(
        &mut answer,
        json!({
            "sound": true,
            "file_number": number,
            "payments": payments,
            "euros": euros,
            "cents": cents,
            "changes": notes.len(),
            "letters_on_the_other_page": letters_elsewhere(way.page, &notes),
        }),
    );
    tell(
        is_json,
        || answer,
        |out| {
            let payments = counted(payments, "payment");
            writeln!(out, "sound on {}: {payments}, {euros} euros and {cents} cents", code_page(way.page))?;
            writeln!(out, "file number {number}")?;
            writeln!(out, "{} would be changed", counted(notes.len(), "character"))?;
            tell_letters_elsewhere(way.page, &notes, out)
        },
    )?;
    Ok(End::Done)
}

fn refused(way: Way, mut answer: Value, file: &[u8], refusal: Refusal, is_json: bool) -> Result<End, Failure> {
    let shown = Shown { page: way.page, table: &replacements(way.page) };
    let fault = faults::judged(way, file, refusal);
    let sorted = sorted(way, file);
    let other_page = sound_elsewhere(way, file);
    tell::add(&mut answer, json!({ "sound": false }));
    tell::add(&mut answer, shown.refused_json(refusal, fault.as_ref(), file));
    tell::add(
        &mut answer,
        json!({
            "prepare_would": sorted.map(|sent| json!({ "send": sent.kept, "return": sent.returned })),
            "sound_on_page": other_page.map(|page| page as u32),
        }),
    );
    tell(
        is_json,
        || answer,
        |out| {
            shown.refused(refusal, fault.as_ref(), file, out)?;
            if let Some(Prepared { kept, returned, .. }) = sorted {
                writeln!(out, "prepare would send {} on, and return {returned}", counted(kept, "payment"))?;
            }
            match other_page {
                Some(page) => {
                    writeln!(out, "on {} the file is sound: --page {} names it", code_page(page), page as u32)
                }
                None => Ok(()),
            }
        },
    )?;
    Ok(End::Refused)
}

/// What prepare's default way would do with a file in which a payment breaks a rule; nothing where it refuses it too.
fn sorted(way: Way, file: &[u8]) -> Option<Prepared> {
    let prepared = sending::prepare(Way { is_strict: false, ..way }, file);
    prepared.ok().map(|(_, figures)| figures)
}
