//! Words of a text as messages show them.

/// The most characters of a word that a message shows, and how many it keeps of a longer one.
const MOST_SHOWN: usize = 40;
const KEPT: usize = 32;

/// A word as a message shows it: cut where it is long, and characters that a terminal would obey or hide written as escapes.
pub fn shown(word: &str) -> String {
    let cut = word.chars().nth(MOST_SHOWN).is_some();
    let kept = if cut { KEPT } else { MOST_SHOWN };
    let mut shown = String::with_capacity(word.len());
    for c in word.chars().take(kept) {
        push_escaped(&mut shown, c);
    }
    if cut {
        shown.push_str("..");
    }
    shown
}

/// A character as it is, or its escape where it has no shape of its own.
pub fn escaped(c: char) -> String {
    let mut escaped = String::new();
    push_escaped(&mut escaped, c);
    escaped
}

/// Without a string for each character: listings show a name in most lines.
fn push_escaped(text: &mut String, c: char) {
    match c {
        '\'' | '"' | '\\' => text.push(c),
        _ => text.extend(c.escape_debug()),
    }
}

/// A number of things: `0 labels`, `1 label`, `2 labels`.
pub fn counted(number: usize, noun: &str) -> String {
    match number {
        1 => format!("1 {noun}"),
        _ => format!("{number} {noun}s"),
    }
}

#[cfg(test)]
mod tests {
    use super::*;

    #[test]
    fn long_words_are_cut() {
        let word = "x".repeat(40);
        assert_eq!(shown(&word), word);
        assert_eq!(shown(&"x".repeat(41)), format!("{}..", "x".repeat(32)));
    }

    #[test]
    fn what_a_terminal_would_obey_is_escaped() {
        assert_eq!(shown("a\u{1b}[2Jb\u{7}"), "a\\u{1b}[2Jb\\u{7}");
        assert_eq!(shown("\u{202e}x\0\u{200b}"), "\\u{202e}x\\0\\u{200b}");
        assert_eq!(shown("caf\u{e9}'s"), "caf\u{e9}'s");
    }
}
