//! The comments of a text beside what is shown of its records.

use crate::show::lines;
use crate::text::Entry;

/// Where the column of comments begins at the furthest: a longer line has its comment close behind.
const WIDEST_COLUMN: usize = 72;

/// The lines of a text's records, each with its comment; the comments in one column.
pub fn with_comments(shown: &str, entries: &[Entry]) -> String {
    let column = column_of_comments(shown, entries);
    let beside = |(line, entry): (&str, &Entry)| match entry.comment {
        Some(comment) => format!("{line:column$}   {comment}"),
        None => line.to_string(),
    };
    lines(shown.lines().zip(entries).map(beside))
}

fn column_of_comments(shown: &str, entries: &[Entry]) -> usize {
    let commented = shown.lines().zip(entries);
    let commented = commented.filter(|(_, entry)| entry.comment.is_some());
    let widths = commented.map(|(line, _)| line.chars().count());
    widths
        .filter(|&width| width <= WIDEST_COLUMN)
        .max()
        .unwrap_or_default()
}
