//! Messages for standard error: what is wrong or worth knowing, and where.

use std::fmt;
use std::io::{self, Write};

use sheet_text::Span;
use wargnifla::{Error, Place as Refused, TextError};

use super::excerpt::excerpt;

#[derive(Clone, Copy, Debug, PartialEq, Eq)]
pub enum Severity {
    Error,
    Note,
}

/// One message.
#[derive(Debug)]
pub struct Diagnostic {
    pub severity: Severity,
    /// The refusal's number, where the library refused something.
    pub number: Option<u32>,
    pub place: Option<Place>,
    pub sentence: String,
    /// What helps to mend it, each perhaps with a place of its own.
    pub notes: Vec<Diagnostic>,
}

/// A place in a file, or the whole of one.
#[derive(Debug)]
pub struct Place {
    pub file: String,
    /// Where it stands in a text.
    pub columns: Option<Columns>,
    /// The call of a binary sheet, by its index.
    pub call: Option<usize>,
    /// The line of a text with a mark under the place, where it is to be shown.
    pub excerpt: String,
}

/// A word of a text: its line and its first column, and the column behind it. Lines and columns count from 1, columns by characters.
#[derive(Clone, Copy, Debug, PartialEq, Eq)]
pub struct Columns {
    pub line: usize,
    pub start: usize,
    pub end: usize,
}

impl Diagnostic {
    pub fn error(sentence: impl Into<String>) -> Self {
        Self::new(Severity::Error, sentence.into())
    }

    pub fn note(sentence: impl Into<String>) -> Self {
        Self::new(Severity::Note, sentence.into())
    }

    fn new(severity: Severity, sentence: String) -> Self {
        Self {
            severity,
            number: None,
            place: None,
            sentence,
            notes: Vec::new(),
        }
    }

    /// A refusal of the library.
    pub fn refusal(error: &Error) -> Self {
        let refused = match error.place() {
            Refused::Call { name, .. } => name.into(),
            other => other.to_string(),
        };
        Self::refusal_of(&refused, error, error.sentence())
    }

    /// A refusal of the library in other words than its own: what is refused, and why.
    pub fn refusal_of(refused: &str, error: &Error, sentence: &str) -> Self {
        Self {
            number: Some(error.number()),
            ..Self::error(format!("{refused}: {}: {sentence}", error.name()))
        }
    }

    /// What is wrong with a text.
    pub fn malformed(file: &str, text: &str, error: &TextError) -> Self {
        let notes = error.notes.iter().map(|note| {
            let place = note.place.map(|place| Place::in_text(file, text, place));
            Self::note(&note.sentence).at(place)
        });
        Self::error(&error.sentence)
            .at(Place::in_text(file, text, error.place))
            .with(notes)
    }

    pub fn at(self, place: impl Into<Option<Place>>) -> Self {
        Self {
            place: place.into(),
            ..self
        }
    }

    pub fn with(mut self, notes: impl IntoIterator<Item = Self>) -> Self {
        self.notes.extend(notes);
        self
    }
}

impl Place {
    /// A file as a whole.
    pub fn file(file: &str) -> Self {
        Self {
            file: file.into(),
            columns: None,
            call: None,
            excerpt: String::new(),
        }
    }

    /// A call of a binary sheet.
    pub fn call(file: &str, call: usize) -> Self {
        Self {
            call: Some(call),
            ..Self::file(file)
        }
    }

    /// Columns of a file of which no line is shown.
    pub fn columns(file: &str, columns: Columns) -> Self {
        Self {
            columns: Some(columns),
            ..Self::file(file)
        }
    }

    /// A word of a text, whose line is shown.
    pub fn in_text(file: &str, text: &str, place: Span) -> Self {
        Self {
            excerpt: excerpt(text, place).unwrap_or_default(),
            ..Self::columns(file, Columns::new(text, place))
        }
    }

    /// The same place, of which no line is shown.
    pub fn without_excerpt(self) -> Self {
        Self {
            excerpt: String::new(),
            ..self
        }
    }
}

impl Columns {
    fn new(text: &str, place: Span) -> Self {
        let line = place.line as usize;
        let written = text.lines().nth(line.saturating_sub(1)).unwrap_or_default();
        let column = |at: usize| {
            let before = written.get(..at).unwrap_or(written);
            before.chars().count() + 1
        };
        let bytes = place.columns();
        Self {
            line,
            start: column(bytes.start),
            end: column(bytes.end),
        }
    }
}

/// `FILE:LINE:COLUMN: `, as editors read it, or `FILE: `.
impl fmt::Display for Place {
    fn fmt(&self, f: &mut fmt::Formatter<'_>) -> fmt::Result {
        match self.columns {
            Some(columns) => write!(f, "{}:{}:{}: ", self.file, columns.line, columns.start),
            None => write!(f, "{}: ", self.file),
        }
    }
}

/// The place, the severity and the sentence; below, the line that they are about, and the notes.
impl fmt::Display for Diagnostic {
    fn fmt(&self, f: &mut fmt::Formatter<'_>) -> fmt::Result {
        if let Some(place) = &self.place {
            write!(f, "{place}")?;
        }
        match (self.severity, self.number) {
            (Severity::Error, Some(number)) => write!(f, "error[{number}]: ")?,
            (Severity::Error, None) => f.write_str("error: ")?,
            (Severity::Note, _) => f.write_str("note: ")?,
        }
        if let Some(call) = self.place.as_ref().and_then(|place| place.call) {
            write!(f, "call {call}: ")?;
        }
        writeln!(f, "{}", self.sentence)?;
        if let Some(place) = &self.place {
            f.write_str(&place.excerpt)?;
        }
        self.notes.iter().try_for_each(|note| write!(f, "{note}"))
    }
}

/// Prints messages to standard error. Where that can't be written there is nowhere left to say so.
pub fn print_all(diagnostics: &[Diagnostic]) {
    let text: String = diagnostics.iter().map(Diagnostic::to_string).collect();
    let _ = io::stderr().lock().write_all(text.as_bytes());
}

#[cfg(test)]
mod tests {
    use super::*;

    #[test]
    fn columns_count_characters_from_1() {
        let place = Span {
            line: 2,
            start: 5,
            end: 8,
        };
        let columns = Columns::new("n\n\u{e9}\u{20ac}end", place);
        let expected = Columns {
            line: 2,
            start: 3,
            end: 6,
        };
        assert_eq!(columns, expected);
    }

    #[test]
    fn a_message_has_its_place_in_front_and_its_notes_below() {
        let text = "n\n  bind end";
        let place = Span {
            line: 2,
            start: 7,
            end: 10,
        };
        let note = Diagnostic::note("it is made here").at(Place::call("b", 3));
        let message = Diagnostic::error("end is wrong")
            .at(Place::in_text("a.txt", text, place))
            .with([note, Diagnostic::note("try another")]);
        let expected = "a.txt:2:8: error: end is wrong\n    bind end\n         ^^^\n\
                        b: note: call 3: it is made here\nnote: try another\n";
        assert_eq!(message.to_string(), expected);
    }
}
