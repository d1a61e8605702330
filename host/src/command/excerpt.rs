//! A line of a text with a mark under some of its words.

use sheet_text::{Span, escaped};

use super::width::{is_combining, width};

/// The most characters of a line that are shown before and after what is marked, and of what is marked.
const MOST_BEFORE: usize = 60;
const MOST_AFTER: usize = 30;
const MOST_MARKED: usize = 60;

/// The line that a place stands in, and a line that marks the place; nothing where the text has no such place.
pub fn excerpt(text: &str, place: Span) -> Option<String> {
    let line = text.lines().nth(place.line.checked_sub(1)? as usize)?;
    let columns = place.columns();
    let (before, rest) = (line.get(..columns.start)?, line.get(columns.clone())?);
    let after = line.get(columns.end..)?;
    let before = shown(&tail(before, MOST_BEFORE));
    let marked = shown(&head(rest, MOST_MARKED));
    let line = format!("{before}{marked}{}", shown(&head(after, MOST_AFTER)));
    let blank = before.len() - before.trim_start().len();
    let mark = "^".repeat(width(&marked).max(1));
    let indent = " ".repeat(width(&before[blank..]));
    Some(format!("    {}\n    {indent}{mark}\n", line.trim()))
}

fn head(text: &str, most: usize) -> String {
    let kept: String = text.chars().take(most).collect();
    let cut = if kept.len() < text.len() { ".." } else { "" };
    format!("{kept}{cut}")
}

fn tail(text: &str, most: usize) -> String {
    let skipped = text.chars().count().saturating_sub(most);
    let kept: String = text.chars().skip(skipped).collect();
    let cut = if skipped > 0 { ".." } else { "" };
    format!("{cut}{kept}")
}

/// Blanks of all kinds as one space each, and what has no shape as its escape.
fn shown(text: &str) -> String {
    let character = |c: char| match c {
        _ if c.is_whitespace() => " ".into(),
        _ if is_combining(c) => c.into(),
        _ => escaped(c),
    };
    text.chars().map(character).collect()
}

#[cfg(test)]
mod tests {
    use super::*;

    fn span(line: u32, start: u32, end: u32) -> Span {
        Span { line, start, end }
    }

    #[test]
    fn the_word_is_marked() {
        let text = "n\n\tjump 0 5x 0 # c";
        assert_eq!(
            excerpt(text, span(2, 8, 10)).unwrap(),
            "    jump 0 5x 0 # c\n           ^^\n"
        );
        assert_eq!(excerpt(text, span(1, 1, 1)).unwrap(), "    n\n     ^\n");
        assert_eq!(excerpt(text, span(3, 0, 0)), None);
    }

    #[test]
    fn long_lines_are_cut_around_the_word() {
        let text = format!("{} b 0g {}", "a".repeat(100), "c".repeat(100));
        let shown = excerpt(&text, span(1, 103, 105)).unwrap();
        let (line, mark) = shown.split_once('\n').unwrap();
        assert!(
            line.starts_with("    ..a") && line.ends_with("c.."),
            "{line}"
        );
        assert!(line.chars().count() < 110, "{line}");
        let at = mark.find('^').unwrap();
        assert_eq!(&line[at..at + 2], "0g");
    }

    #[test]
    fn marks_stand_under_wide_characters_and_not_under_combining_ones() {
        let marked = |text: &str, word: &str| {
            let start = text.find(word).unwrap() as u32;
            excerpt(text, span(1, start, start + word.len() as u32)).unwrap()
        };
        assert_eq!(
            marked("n \u{6f22}\u{5b57} x", "x"),
            "    n \u{6f22}\u{5b57} x\n           ^\n"
        );
        assert_eq!(
            marked("n \u{1f600}\u{ff21} x", "\u{1f600}\u{ff21}"),
            "    n \u{1f600}\u{ff21} x\n      ^^^^\n"
        );
        assert_eq!(
            marked("e\u{301}\u{e9} cafe\u{301}s y", "cafe\u{301}s"),
            "    e\u{301}\u{e9} cafe\u{301}s y\n       ^^^^^\n"
        );
    }

    #[test]
    fn what_a_terminal_would_obey_is_escaped() {
        let shown = excerpt("n \u{1b}[2J", span(1, 0, 1)).unwrap();
        assert_eq!(shown, "    n \\u{1b}[2J\n    ^\n");
    }
}
