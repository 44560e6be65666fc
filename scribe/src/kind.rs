//! Whether a journal is written as text or in bytes.

use crate::text::LINE_ENDS;

/// A text is UTF-8 with no control character but tabs and the ends of lines. A record in bytes has
/// three zeros behind its level, or else is refused with 6: no journal that is served anything can
/// be taken for a text. Nothing at all is a text that says nothing.
pub fn is_text(journal: &[u8]) -> bool {
    let is_blank = |letter: char| letter == '\t' || LINE_ENDS.contains(&letter);
    let plain = |letter: char| !letter.is_control() || is_blank(letter);
    let is_plain = |text: &str| text.chars().all(plain);
    std::str::from_utf8(journal).is_ok_and(is_plain)
}

#[cfg(test)]
mod tests {
    use super::*;
    use crate::record::Record;

    #[test]
    fn a_text_may_have_letters_of_any_language() {
        assert!(is_text(b"EL1 MRS X0, CNTVCT_EL0 @ 1000\t# its count\r\n"));
        assert!(is_text(b""));
        assert!(is_text("# z\u{e4}hlt, und \u{221e} l\u{e4}uft".as_bytes()));
    }

    #[test]
    fn control_characters_are_no_text() {
        for odd in [b"EL1 \0", b"EL1 \x1B", b"EL1 \x7F", b"EL1 \xFF"] {
            assert!(!is_text(odd), "{odd:?}");
        }
    }

    #[test]
    fn a_record_is_no_text_though_its_numbers_spell_one() {
        for level in 0..4 {
            let record = Record {
                word: u32::from_be_bytes(*b"EL1 "),
                level,
                reserved: 0,
                operand: u64::from_be_bytes(*b"MRS X0, "),
                count: u64::from_be_bytes(*b"CNTVCT\n\n"),
            };
            assert!(!is_text(&record.pack()), "EL{level}");
        }
    }

    #[test]
    fn a_journal_cut_short_anywhere_is_no_text() {
        let journal = crate::pack("EL1 MRS X0, CNTVCT_EL0 @ 1000").expect("a record");
        for length in 1..=journal.len() {
            assert!(!is_text(&journal[..length]), "{length} bytes");
        }
    }
}
