//! What a mistyped word was perhaps meant to be.

/// The nearest of some words, if it is near: at most two letters wrong, missing, too many or in the place of their neighbour, and fewer than half of
/// the word.
pub fn nearest<'a>(word: &str, known: impl IntoIterator<Item = &'a str>) -> Option<&'a str> {
    const MOST_WRONG: usize = 2;
    const MOST_LENGTH: usize = 40;
    if word.chars().count() > MOST_LENGTH {
        return None;
    }
    let word = word.to_lowercase();
    known
        .into_iter()
        .map(|known| (distance(&word, &known.to_lowercase()), known))
        .filter(|(wrong, _)| *wrong <= MOST_WRONG && 2 * wrong < word.chars().count())
        .min_by_key(|(wrong, _)| *wrong)
        .map(|(_, known)| known)
}

/// The nearest of some words as the end of a sentence, or nothing.
pub(crate) fn meant<'a>(word: &str, known: impl IntoIterator<Item = &'a str>) -> Option<String> {
    nearest(word, known).map(|near| format!("; did you mean '{near}'?"))
}

/// The least number of letters to change, add, leave out or swap with the next, to make one word of another.
fn distance(from: &str, to: &str) -> usize {
    let (from, to): (Vec<char>, Vec<char>) = (from.chars().collect(), to.chars().collect());
    let mut rows: Vec<Vec<usize>> = vec![(0..=to.len()).collect()];
    for (i, a) in from.iter().enumerate() {
        let mut row = vec![i + 1];
        for (j, b) in to.iter().enumerate() {
            let changed = rows[i][j] + usize::from(a != b);
            let mut least = changed.min(rows[i][j + 1] + 1).min(row[j] + 1);
            if i > 0 && j > 0 && *a == to[j - 1] && from[i - 1] == *b {
                least = least.min(rows[i - 1][j - 1] + 1);
            }
            row.push(least);
        }
        rows.push(row);
    }
    rows[from.len()][to.len()]
}

#[cfg(test)]
mod tests {
    use super::*;

    #[test]
    fn near_words_are_found() {
        let known = ["label", "align", "bytes", "jmp"];
        assert_eq!(nearest("labl", known), Some("label"));
        assert_eq!(nearest("LABEL", known), Some("label"));
        assert_eq!(nearest("byets", known), Some("bytes"));
        assert_eq!(nearest("jmpp", known), Some("jmp"));
        assert_eq!(nearest("hop", known), None);
        assert_eq!(nearest("x", known), None);
        assert_eq!(nearest(&"l".repeat(100_000), known), None);
    }
}
