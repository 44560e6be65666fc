//! A text as lines.

/// What ends a line; CR LF is one end.
pub(crate) const LINE_ENDS: [char; 2] = ['\n', '\r'];

/// What some editors put before a text, which is no part of it.
const BYTE_ORDER_MARK: char = '\u{FEFF}';

/// The lines of a text, without their ends. Where a last line has its end, an empty one follows.
pub(super) fn lines(text: &str) -> impl Iterator<Item = &str> {
    let text = text.strip_prefix(BYTE_ORDER_MARK).unwrap_or(text);
    text.split("\r\n").flat_map(|part| part.split(LINE_ENDS))
}

#[cfg(test)]
mod tests {
    use super::*;

    fn all(text: &str) -> Vec<&str> {
        lines(text).collect()
    }

    #[test]
    fn a_line_ends_in_either_end_or_in_both() {
        for text in ["a\nb\n\nc", "a\rb\r\rc", "a\r\nb\r\n\r\nc", "a\nb\r\n\rc"] {
            assert_eq!(all(text), ["a", "b", "", "c"], "{text:?}");
        }
    }

    #[test]
    fn a_mark_before_the_text_is_no_part_of_it() {
        assert_eq!(all("\u{FEFF}a\n\u{FEFF}b"), ["a", "\u{FEFF}b"]);
    }
}
