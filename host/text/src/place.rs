//! Where something stands in a text, and what is said of it.

use std::fmt;
use std::ops::Range;

/// A place in a text: some bytes of one line.
#[derive(Clone, Copy, Debug, PartialEq, Eq)]
pub struct Span {
    /// The line, from 1.
    pub line: u32,
    /// The first byte of it, from 0.
    pub start: u32,
    /// The byte after the last.
    pub end: u32,
}

impl Span {
    /// From the start of this place to the end of another in the same line.
    pub(crate) const fn to(self, last: Self) -> Self {
        Self {
            end: last.end,
            ..self
        }
    }

    /// The bytes of the line.
    pub const fn columns(&self) -> Range<usize> {
        self.start as usize..self.end as usize
    }
}

/// What is wrong with a text, and where.
#[derive(Clone, Debug, PartialEq, Eq)]
pub struct TextError {
    /// The word or words that are wrong.
    pub place: Span,
    /// What is wrong.
    pub sentence: String,
    /// What helps to mend it.
    pub notes: Vec<Note>,
}

/// A sentence beside an error, and the second place that it speaks of, if it does of one.
#[derive(Clone, Debug, PartialEq, Eq)]
pub struct Note {
    /// The place.
    pub place: Option<Span>,
    /// The sentence.
    pub sentence: String,
}

impl TextError {
    pub(crate) fn new(place: Span, sentence: impl Into<String>) -> Self {
        Self {
            place,
            sentence: sentence.into(),
            notes: Vec::new(),
        }
    }

    pub(crate) fn with_note(mut self, place: Option<Span>, sentence: impl Into<String>) -> Self {
        self.notes.push(Note {
            place,
            sentence: sentence.into(),
        });
        self
    }
}

impl fmt::Display for TextError {
    fn fmt(&self, f: &mut fmt::Formatter<'_>) -> fmt::Result {
        write!(f, "line {}: {}", self.place.line, self.sentence)
    }
}

impl std::error::Error for TextError {}
