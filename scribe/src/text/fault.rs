//! What is wrong with a text, and where.

use std::fmt;

/// A fault in a text. Lines and columns count from 1.
#[derive(Clone, Debug, PartialEq, Eq)]
pub struct Fault {
    pub line: usize,
    pub column: usize,
    pub message: String,
}

impl fmt::Display for Fault {
    fn fmt(&self, f: &mut fmt::Formatter<'_>) -> fmt::Result {
        write!(f, "{}:{}: {}", self.line, self.column, self.message)
    }
}

/// A fault in a line whose number is not yet known.
pub(super) struct FaultInLine {
    column: usize,
    message: String,
}

/// What a line, or a part of one, says.
pub(super) type Parsed<T> = Result<T, FaultInLine>;

impl FaultInLine {
    pub(super) fn expected(wanted: &str, found: &str, column: usize) -> FaultInLine {
        FaultInLine {
            column,
            message: format!("expected {wanted}, found {found}"),
        }
    }

    /// The fault with more words behind it.
    pub(super) fn with(mut self, words: &str) -> FaultInLine {
        self.message += words;
        self
    }

    /// The fault in the line of that index, which counts from 0.
    pub(super) fn at(self, index: usize) -> Fault {
        Fault {
            line: index + 1,
            column: self.column,
            message: self.message,
        }
    }
}
