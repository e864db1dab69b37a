//! What each character becomes when a file is forwarded. The table is the desk's: it is asked of prepare.

use crate::common::{Q, T};
use desk::{Field, Lists, Page};

/// A sound file, on both pages; T15 of its payments may hold any bytes.
pub const SAMPLE: &[u8] = include_bytes!("../../samples/sound.dtazv");

/// Where T15 begins in a T record.
const T15: usize = 475;

/// What each byte of a text field becomes on a page.
pub fn replacements(page: Page) -> [u8; 256] {
    let (mut file, mut forwarded) = (SAMPLE.to_vec(), SAMPLE.to_vec());
    let halves = [Q + T15, Q + T + T15].map(|begin| begin..begin + 128);
    let bytes: Vec<u8> = (0..=255).collect();
    file[halves[0].clone()].copy_from_slice(&bytes[..128]);
    file[halves[1].clone()].copy_from_slice(&bytes[128..]);
    let mut notes = vec![0; file.len()];
    desk::prepare_strict(page, &file, Lists::ANNEXES, &mut forwarded, &mut notes).expect("no rule reads T15");
    let becomes = [&forwarded[halves[0].clone()], &forwarded[halves[1].clone()]].concat();
    becomes.try_into().expect("two halves are 256 bytes")
}

/// The bytes of a field as the rules read them, where that differs: those of text are read replaced.
pub fn read_as(table: &[u8; 256], field: &str, bytes: &[u8]) -> Option<Vec<u8>> {
    let replaced: Vec<u8> = bytes.iter().map(|&byte| table[byte as usize]).collect();
    (is_text(field) && replaced != bytes).then_some(replaced)
}

/// Whether a field is one of text.
pub fn is_text(field: &str) -> bool {
    Field::ALL.iter().any(|text| text.to_string() == field)
}

#[cfg(test)]
mod tests {
    use super::*;

    /// docs/RULES.md, 3.1.
    #[test]
    fn both_pages() {
        let (din, iso) = (replacements(Page::Din66003), replacements(Page::Iso8859_1));
        for table in [din, iso] {
            for byte in *b"AZaz09 .,-/+%" {
                assert_eq!(table[byte as usize], byte);
            }
            assert_eq!((table[b'&' as usize], table[b'$' as usize], table[b'=' as usize]), (b'+', b'S', b' '));
        }
        assert_eq!([0x5B, 0x5C, 0x5D, 0x7E].map(|byte| din[byte]), *b"AOUS");
        assert_eq!([0xC4, 0xD6, 0xDC, 0xDF].map(|byte| din[byte]), *b"    ");
        assert_eq!([0x5B, 0x5C, 0x5D, 0x7E].map(|byte| iso[byte]), *b"    ");
        assert_eq!([0xC4, 0xD6, 0xDC, 0xDF].map(|byte| iso[byte]), *b"AOUS");
        assert_eq!((0..256).filter(|&byte| iso[byte] as usize == byte).count(), 69);
    }
}
