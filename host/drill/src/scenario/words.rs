//! Lines of words: reading them one after another, with errors that say what was expected.

use crate::text::grouped;
use std::fmt::{self, Display, Formatter};

/// What is wrong with a scenario, and in which line.
#[derive(Debug, Clone, PartialEq, Eq)]
pub struct Fault {
    pub line: usize,
    pub what: String,
}

impl Display for Fault {
    fn fmt(&self, out: &mut Formatter<'_>) -> fmt::Result {
        write!(out, "line {}: {}", self.line, self.what)
    }
}

impl std::error::Error for Fault {}

/// The words of a line that are still to be read.
#[derive(Debug, Clone)]
pub struct Words<'a> {
    pub line: usize,
    /// The line without its comment.
    pub text: &'a str,
    rest: std::str::SplitWhitespace<'a>,
}

/// A line without its comment: `#` at the start of a word begins one.
fn without_comment(line: &str) -> &str {
    let starts = |(at, _): &(usize, &str)| {
        let before = line.get(..*at).unwrap_or_default();
        before.is_empty() || before.ends_with(char::is_whitespace)
    };
    let comment = line.match_indices('#').find(starts);
    let end = comment.map_or(line.len(), |(at, _)| at);
    line.get(..end).unwrap_or_default().trim()
}

impl<'a> Words<'a> {
    pub fn of(line: usize, text: &'a str) -> Self {
        let text = without_comment(text);
        Self {
            line,
            text,
            rest: text.split_whitespace(),
        }
    }

    pub fn fault(&self, what: impl Into<String>) -> Fault {
        Fault {
            line: self.line,
            what: what.into(),
        }
    }

    pub fn word(&mut self) -> Option<&'a str> {
        self.rest.next()
    }

    /// The next word; without one the error says what should have stood there.
    pub fn expect(&mut self, expected: &str) -> Result<&'a str, Fault> {
        self.word()
            .ok_or_else(|| self.fault(format!("the line ends where {expected} was expected")))
    }

    /// All words that are left.
    pub fn all(&mut self) -> Vec<&'a str> {
        self.rest.by_ref().collect()
    }

    /// The text after the line's first word, blanks kept.
    pub fn text_after_first(&self) -> &'a str {
        let split = self.text.split_once(char::is_whitespace);
        split.map_or("", |(_, text)| text.trim())
    }

    /// Nothing may follow.
    pub fn end(&mut self) -> Result<(), Fault> {
        match self.word() {
            None => Ok(()),
            Some(word) => Err(self.fault(format!(
                "`{word}` was not expected: the line should end before it"
            ))),
        }
    }

    /// A number, digits grouped by `,` or `_` if the author likes.
    pub fn number<N: Number>(&mut self, expected: &str) -> Result<N, Fault> {
        let word = self.expect(expected)?;
        number(word)
            .ok_or_else(|| self.fault(format!("`{word}` is not {expected}{}", bound::<N>(word))))
    }
}

/// The kinds of numbers in a scenario.
pub trait Number: TryFrom<u64> {
    const MOST: u64;
}

impl Number for u16 {
    const MOST: u64 = Self::MAX as u64;
}

impl Number for u32 {
    const MOST: u64 = Self::MAX as u64;
}

impl Number for u64 {
    const MOST: u64 = Self::MAX;
}

impl Number for usize {
    const MOST: u64 = Self::MAX as u64;
}

/// Digits, grouped or not.
fn decimal(word: &str) -> bool {
    word.starts_with(|first: char| first.is_ascii_digit())
        && word
            .chars()
            .all(|c| c.is_ascii_digit() || matches!(c, ',' | '_'))
}

/// What is to be said of the greatest number, where a word is a number and too great.
pub fn bound<N: Number>(word: &str) -> String {
    if decimal(word) {
        format!(": at most {}", grouped(N::MOST))
    } else {
        String::new()
    }
}

/// A decimal number that fits.
pub fn number<N: Number>(word: &str) -> Option<N> {
    if !decimal(word) {
        return None;
    }
    let digits: String = word.chars().filter(|c| !matches!(c, ',' | '_')).collect();
    let number: u64 = digits.parse().ok()?;
    N::try_from(number).ok()
}
