//! One line of text as words and signs, each with its column.

/// A word or a sign, with the column of its first character counted from 1.
#[derive(Clone, Copy, Debug, PartialEq, Eq)]
pub(super) struct Token<'a> {
    pub(super) text: &'a str,
    pub(super) column: usize,
}

fn is_sign(character: char) -> bool {
    matches!(character, ',' | '=' | '@')
}

/// The tokens of a line up to its comment, and the column after the last of them.
pub(super) fn tokens(line: &str) -> (Vec<Token<'_>>, usize) {
    let text = line.split('#').next().unwrap_or_default();
    let mut found: Vec<Token> = Vec::new();
    let mut start = None;
    for (place, character) in text.char_indices() {
        if is_sign(character) || character.is_whitespace() {
            close_word(text, &mut start, place, &mut found);
        } else if start.is_none() {
            start = Some(place);
        }
        if is_sign(character) {
            found.push(token(text, place, place + 1));
        }
    }
    close_word(text, &mut start, text.len(), &mut found);
    let end = text.trim_end().chars().count() + 1;
    (found, end)
}

/// The comment of a line, from its `#` on.
pub(super) fn comment(line: &str) -> Option<&str> {
    line.find('#').map(|place| line[place..].trim_end())
}

fn close_word<'a>(
    text: &'a str,
    start: &mut Option<usize>,
    end: usize,
    found: &mut Vec<Token<'a>>,
) {
    if let Some(start) = start.take() {
        found.push(token(text, start, end));
    }
}

fn token(text: &str, start: usize, end: usize) -> Token<'_> {
    Token {
        text: &text[start..end],
        column: text[..start].chars().count() + 1,
    }
}

#[cfg(test)]
mod tests {
    use super::*;

    fn plain(line: &str) -> Vec<(&str, usize)> {
        tokens(line).0.iter().map(|t| (t.text, t.column)).collect()
    }

    #[test]
    fn words_and_signs_carry_their_columns() {
        assert_eq!(
            plain("  EL1 MRS X0,CNT @5 # what it shows"),
            [
                ("EL1", 3),
                ("MRS", 7),
                ("X0", 11),
                (",", 13),
                ("CNT", 14),
                ("@", 18),
                ("5", 19)
            ]
        );
        assert_eq!(tokens("é é").0[1].column, 3, "columns count characters");
    }

    #[test]
    fn the_end_is_the_column_after_the_last_token() {
        assert_eq!(tokens("EL1 MRS   # rest"), (tokens("EL1 MRS").0, 8));
        assert_eq!(tokens("# only a comment"), (vec![], 1));
    }

    #[test]
    fn a_comment_is_kept_as_it_is_written() {
        assert_eq!(comment("EL1 MRS #   a # b \t"), Some("#   a # b"));
        assert_eq!(comment("EL1 MRS"), None);
    }
}
