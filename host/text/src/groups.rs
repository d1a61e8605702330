//! Where the groups of a text end.

use std::collections::HashMap;

use crate::tokens::Token;

/// For each `(` that is closed, by its index, the index of its `)`.
pub(crate) struct Groups {
    ends: HashMap<usize, usize>,
}

impl Groups {
    pub fn new(tokens: &[Token<'_>]) -> Self {
        let mut ends = HashMap::new();
        let mut open = Vec::new();
        for (at, token) in tokens.iter().enumerate() {
            match token.text {
                "(" => open.push(at),
                ")" => ends.extend(open.pop().map(|start| (start, at))),
                _ => {}
            }
        }
        Self { ends }
    }

    pub fn end(&self, start: usize) -> Option<usize> {
        self.ends.get(&start).copied()
    }
}

#[cfg(test)]
mod tests {
    use super::*;
    use crate::tokens::tokens;

    #[test]
    fn the_innermost_group_is_closed_first() {
        let groups = Groups::new(&tokens("2 ( 3 ( n ) ) ) 4 ( 5 ( n )"));
        let ends = [1, 3, 9, 11].map(|start| groups.end(start));
        assert_eq!(ends, [Some(6), Some(5), None, Some(13)]);
    }
}
