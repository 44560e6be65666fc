//! What was given, as a message repeats it.

/// More letters than this say nothing.
const LONGEST: usize = 40;

/// The words between two backticks, cut where they are long. What cannot be seen, or would move the
/// cursor of a terminal, is escaped.
pub fn quoted(words: &str) -> String {
    let shown: String = words.chars().take(LONGEST).map(visible).collect();
    let cut = match words.chars().nth(LONGEST) {
        Some(_) => "..",
        None => "",
    };
    format!("`{shown}{cut}`")
}

fn visible(letter: char) -> String {
    match letter {
        '"' | '\'' => letter.to_string(),
        _ => letter.escape_debug().to_string(),
    }
}
