//! Tests of the annexes: every copy of the receiver's lists of countries is held to the appendix of docs/DIFFERENCES.md.

#[allow(dead_code)] // no call is made here
#[path = "../hosts/rust/desk.rs"]
mod desk;

use desk::Lists;

/// The appendix: Annex II for transfers, Annex I for cheques, each without the spaces and line ends between the countries.
fn page() -> (String, String) {
    let appendix = include_str!("../docs/DIFFERENCES.md").split("## Appendix").nth(1).unwrap();
    let annex = |heading| {
        let codes = appendix.split(heading).nth(1).unwrap().split("```").nth(1).unwrap();
        codes.split_whitespace().collect()
    };
    (annex("Annex II, transfers:"), annex("Annex I, cheques:"))
}

/// The text that a name is given in a source: what stands between quotes behind it, up to the end of the statement.
fn given(source: &str, name: &str) -> String {
    let statement = source.split(name).nth(1).unwrap_or_else(|| panic!("{name}"));
    let end = [";\n", "\n\n"].iter().filter_map(|end| statement.find(end)).min().unwrap();
    let quoted: String = statement[..end].split('"').skip(1).step_by(2).collect();
    quoted.chars().filter(|&c| !c.is_whitespace() && c != '\\').collect()
}

#[test]
fn the_page() {
    let (transfer, cheque) = page();
    for (annex, count) in [(&transfer, 156), (&cheque, 22)] {
        let mut countries: Vec<_> = annex.as_bytes().chunks(2).collect();
        assert!(countries.iter().all(|country| country.len() == 2 && country.iter().all(u8::is_ascii_uppercase)));
        assert_eq!(countries.len(), count);
        countries.sort();
        countries.dedup();
        assert_eq!(countries.len(), count, "none stands there twice");
    }
}

#[test]
fn hosts() {
    let (transfer, cheque) = page();
    assert_eq!(desk::ANNEX_II, transfer.as_bytes());
    assert_eq!(desk::ANNEX_I, cheque.as_bytes());
    assert_eq!((Lists::ANNEXES.transfer, Lists::ANNEXES.cheque), (desk::ANNEX_II, desk::ANNEX_I));
    assert_eq!(c::annexes(), (transfer.as_bytes(), cheque.as_bytes()));
}

/// The program's own lists, the ones of which that is proved, and those of the comparison.
#[test]
fn sources() {
    let due = page();
    let program = include_str!("../crates/report/src/lib.rt");
    assert_eq!((given(program, "const ANNEX_II:"), given(program, "const ANNEX_I:")), due);
    let proved = include_str!("../crates/report/specs/Annexes.antt");
    assert_eq!((given(proved, "\nannex_ii ="), given(proved, "\nannex_i =")), due);
    let compared = include_str!("sample.c");
    assert_eq!((given(compared, " annex_ii["), given(compared, " annex_i[")), due);
}

/// The lists of hosts/c/desk.h.
mod c {
    extern "C" {
        static desk_transfer_countries: [u8; 312];
        static desk_cheque_countries: [u8; 44];
    }

    pub fn annexes() -> (&'static [u8], &'static [u8]) {
        // SAFETY: they are constants of these sizes.
        unsafe { (&desk_transfer_countries, &desk_cheque_countries) }
    }
}
