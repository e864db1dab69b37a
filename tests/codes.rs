//! Tests of the codes of M8 records that hosts/rust/desk.rs and hosts/c/codes.c both have, held to docs/M8-CODES.md.

#[allow(dead_code)] // no call is made here
#[path = "../hosts/rust/desk.rs"]
mod desk;

/// The cells of the page's tables, row by row.
fn rows() -> impl Iterator<Item = Vec<&'static str>> {
    let rows = include_str!("../docs/M8-CODES.md").lines();
    rows.filter_map(|row| Some(row.strip_prefix("| ")?.strip_suffix(" |")?.split(" | ").collect()))
}

/// Rule and code of the page's first table.
fn rules() -> Vec<(usize, &'static str)> {
    rows().filter_map(|cells| Some((cells[0].parse().ok()?, cells[1]))).collect()
}

fn is_code(cell: &str) -> bool {
    cell.len() == 6 && cell[..2].bytes().all(|b| b.is_ascii_uppercase()) && cell[2..].bytes().all(|b| b.is_ascii_digit())
}

/// Code, meaning in English, and last cell of the other tables.
fn meanings() -> Vec<(&'static str, &'static str, &'static str)> {
    rows().filter(|cells| is_code(cells[0])).map(|cells| (cells[0], cells[2], cells[3])).collect()
}

#[test]
fn codes() {
    let rules = rules();
    assert_eq!(rules.iter().map(|row| row.0).collect::<Vec<_>>(), (20..=35).collect::<Vec<_>>());
    assert!(rules.iter().all(|row| is_code(row.1)));
    let page: String = rules.iter().map(|row| row.1).collect();
    assert_eq!(std::str::from_utf8(&desk::M8_CODES), Ok(&page[..]));
    assert_eq!(c::codes(), desk::M8_CODES);
}

#[test]
fn meanings_in_english() {
    let meanings = meanings();
    assert_eq!(meanings.len(), 15);
    for &(code, meaning, _) in &meanings {
        assert_eq!(desk::m8_meaning(code.as_bytes()), Some(meaning), "{code}");
        assert_eq!(c::meaning(code.as_bytes()), Some(meaning), "{code}");
    }
    for code in ["RR0101", "RR0207", "FI0100", "FI0104", "TX0108", "TX0202", "fi0103", "      ", "\0\0\0\0\0\0"] {
        assert_eq!(desk::m8_meaning(code.as_bytes()), None, "{code}");
        assert_eq!(c::meaning(code.as_bytes()), None, "{code}");
    }
    assert_eq!(desk::m8_meaning(b"FI010"), None);
    assert_eq!(desk::m8_meaning(b"FI01033"), None);
}

/// The page tells of each code for which rules it is; one that is for none tells why instead.
#[test]
fn rules_of_each_code() {
    let rules = rules();
    for (code, _, last) in meanings() {
        let own = rules.iter().filter(|row| row.1 == code).map(|row| row.0.to_string());
        let own = own.collect::<Vec<_>>().join(", ");
        assert!(if own.is_empty() { last.ends_with('.') } else { last == own }, "{code}: {last}");
    }
}

/// The tables of hosts/c/desk.h.
mod c {
    use std::{ffi::CStr, os::raw::c_char};

    extern "C" {
        static desk_m8_codes: [u8; 96];
        fn desk_m8_meaning(code: *const u8) -> *const c_char;
    }

    pub fn codes() -> [u8; 96] {
        // SAFETY: it is a constant of that size.
        unsafe { desk_m8_codes }
    }

    pub fn meaning(code: &[u8]) -> Option<&'static str> {
        assert_eq!(code.len(), 6);
        // SAFETY: it reads six bytes, and gives null or a constant text.
        unsafe { desk_m8_meaning(code.as_ptr()).as_ref() }.map(|text| unsafe { CStr::from_ptr(text) }.to_str().unwrap())
    }
}
