//! A text cut into words.

use crate::{Span, TextError, shown};

/// A word, or one of `;`, `(` and `)`.
#[derive(Clone, Copy)]
pub(crate) struct Token<'a> {
    pub text: &'a str,
    pub place: Span,
}

impl Token<'_> {
    pub fn is_word(&self) -> bool {
        !matches!(self.text, ";" | "(" | ")")
    }

    /// The word, quoted for a message.
    pub fn quoted(&self) -> String {
        format!("'{}'", shown(self.text))
    }

    /// The name in `NAME:`.
    pub fn without_colon(self) -> Self {
        let text = self.text.trim_end_matches(':');
        let colons = (self.text.len() - text.len()) as u32;
        let place = Span {
            end: self.place.end - colons,
            ..self.place
        };
        Self { text, place }
    }

    pub fn error(&self, sentence: impl Into<String>) -> TextError {
        TextError::new(self.place, sentence)
    }
}

/// The words of a text, with a `;` at the end of every line.
pub(crate) fn tokens(text: &str) -> Vec<Token<'_>> {
    let mut tokens = Vec::new();
    for (line, content) in (1..).zip(text.lines()) {
        let code = content.split('#').next().unwrap_or_default();
        tokens.extend(words(code).map(|(start, text)| Token {
            text,
            place: span(line, start, start + text.len()),
        }));
        tokens.push(Token {
            text: ";",
            place: span(line, code.len(), code.len()),
        });
    }
    tokens
}

fn span(line: u32, start: usize, end: usize) -> Span {
    let column = |at| u32::try_from(at).unwrap_or(u32::MAX);
    Span {
        line,
        start: column(start),
        end: column(end),
    }
}

/// The words of a line, each with its first byte. A word ends before a blank, `;`, `(` or `)`, and after a `:`.
fn words(line: &str) -> impl Iterator<Item = (usize, &str)> {
    let mut at = 0;
    std::iter::from_fn(move || {
        at += line[at..].find(|c: char| !c.is_whitespace())?;
        let start = at;
        at += word_length(&line[start..]);
        Some((start, &line[start..at]))
    })
}

fn word_length(rest: &str) -> usize {
    if rest.starts_with([';', '(', ')']) {
        return 1;
    }
    let ends = |c: char| c.is_whitespace() || matches!(c, ';' | '(' | ')' | ':');
    match rest.find(ends) {
        Some(end) if rest[end..].starts_with(':') => end + 1,
        Some(end) => end,
        None => rest.len(),
    }
}

/// The words of a statement that stands in some bytes of a line, as bytes of that line.
pub fn words_in(line: &str, statement: Span) -> Vec<Span> {
    let Some(part) = line.get(statement.columns()) else {
        return Vec::new();
    };
    let first = statement.start as usize;
    words(part)
        .map(|(start, text)| {
            let start = first + start;
            span(statement.line, start, start + text.len())
        })
        .collect()
}

#[cfg(test)]
mod tests {
    use super::*;

    #[test]
    fn words_have_their_places() {
        let text = "end:jmp\u{a0}end;n # c\n (b 00)";
        let read: Vec<(&str, u32, u32)> = tokens(text)
            .iter()
            .map(|token| (token.text, token.place.line, token.place.start))
            .collect();
        let expected = [
            ("end:", 1, 0),
            ("jmp", 1, 4),
            ("end", 1, 9),
            (";", 1, 12),
            ("n", 1, 13),
            (";", 1, 15),
            ("(", 2, 1),
            ("b", 2, 2),
            ("00", 2, 4),
            (")", 2, 6),
            (";", 2, 7),
        ];
        assert_eq!(read, expected);
    }

    #[test]
    fn words_of_a_statement_are_found_again() {
        let line = "n; jump 0  5 0 # c";
        let words = words_in(line, span(1, 3, 14));
        let texts: Vec<&str> = words.iter().map(|word| &line[word.columns()]).collect();
        assert_eq!(texts, ["jump", "0", "5", "0"]);
    }
}
