//! One line, taken from left to right.

use std::iter::Peekable;
use std::vec::IntoIter;

use super::fault::{FaultInLine, Parsed};
use super::number::{number_of, signed_number_of};
use super::quoted::quoted;
use super::token::{tokens, Token};

/// What is left of a line. Each part of it is asked for in the words that a fault tells it with.
pub(super) struct Line<'a> {
    rest: Peekable<IntoIter<Token<'a>>>,
    end: usize,
}

impl Token<'_> {
    pub(super) fn is(&self, word: &str) -> bool {
        self.text.eq_ignore_ascii_case(word)
    }

    pub(super) fn fault(&self, wanted: &str) -> FaultInLine {
        FaultInLine::expected(wanted, &quoted(self.text), self.column)
    }
}

impl<'a> Line<'a> {
    pub(super) fn of(text: &'a str) -> Line<'a> {
        let (found, end) = tokens(text);
        Line {
            rest: found.into_iter().peekable(),
            end,
        }
    }

    pub(super) fn is_over(&mut self) -> bool {
        self.rest.peek().is_none()
    }

    pub(super) fn next(&mut self, wanted: &str) -> Parsed<Token<'a>> {
        self.rest
            .next()
            .ok_or_else(|| FaultInLine::expected(wanted, "the end of the line", self.end))
    }

    pub(super) fn next_is(&mut self, word: &str) -> bool {
        self.rest.peek().is_some_and(|token| token.is(word))
    }

    /// Takes the word if it is the next.
    pub(super) fn skip(&mut self, word: &str) -> bool {
        self.rest.next_if(|token| token.is(word)).is_some()
    }

    pub(super) fn sign(&mut self, sign: &str) -> Parsed<()> {
        let wanted = format!("`{sign}`");
        let token = self.next(&wanted)?;
        if token.is(sign) {
            Ok(())
        } else {
            Err(token.fault(&wanted))
        }
    }

    pub(super) fn next_is_number(&mut self) -> bool {
        let begins_one = |first: char| first.is_ascii_digit() || first == '-';
        let next = self.rest.peek();
        next.is_some_and(|token| token.text.starts_with(begins_one))
    }

    pub(super) fn number(&mut self, what: &str, bits: u32) -> Parsed<u64> {
        let wanted = format!("{what} of at most {bits} bits, decimal or 0x");
        let token = self.next(&wanted)?;
        number_of(token.text)
            .filter(|number| u64::MAX >> (64 - bits) >= *number)
            .ok_or_else(|| token.fault(&wanted))
    }

    /// A number of 64 bits, which may be written as a negative one.
    pub(super) fn signed_number(&mut self, what: &str) -> Parsed<u64> {
        let wanted = format!("{what} of at most 64 bits, decimal, 0x or negative like -5");
        let token = self.next(&wanted)?;
        signed_number_of(token.text).ok_or_else(|| token.fault(&wanted))
    }

    pub(super) fn bit(&mut self, what: &str) -> Parsed<u64> {
        let wanted = format!("{what}, 0 or 1");
        let token = self.next(&wanted)?;
        number_of(token.text)
            .filter(|number| *number < 2)
            .ok_or_else(|| token.fault(&wanted))
    }

    pub(super) fn end(mut self) -> Parsed<()> {
        match self.rest.next() {
            Some(token) => Err(token.fault("the end of the line")),
            None => Ok(()),
        }
    }
}
