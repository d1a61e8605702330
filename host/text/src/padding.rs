//! What alignments spend.

use std::fmt;

use crate::counted;

/// The most bytes that an alignment spends where nothing else is said: enough for every multiple.
pub const DEFAULT_MOST: u32 = 4095;

/// The most bytes that an alignment may spend, from its word in a sheet, where 0 stands for [`DEFAULT_MOST`].
pub const fn most_of_word(word: u32) -> u32 {
    match word {
        0 => DEFAULT_MOST,
        most => most,
    }
}

/// What an alignment comes to at an offset.
#[derive(Clone, Copy, Debug, PartialEq, Eq)]
pub enum Padding {
    /// So many bytes, up to its multiple: as many as are needed.
    Spent(u32),
    /// No byte, since so many are needed, and these are more than it may spend.
    Skipped(u32),
}

impl Padding {
    /// What an alignment to a multiple, which is not 0, comes to if it may spend at most so many bytes.
    pub const fn at(offset: u64, multiple: u32, most: u32) -> Self {
        let past = (offset % multiple as u64) as u32;
        let needed = (multiple - past) % multiple;
        if needed <= most {
            Self::Spent(needed)
        } else {
            Self::Skipped(needed)
        }
    }

    /// The bytes that are spent.
    pub const fn spent(self) -> u32 {
        match self {
            Self::Spent(needed) => needed,
            Self::Skipped(_) => 0,
        }
    }

    /// Whether it is skipped.
    pub const fn is_skipped(self) -> bool {
        matches!(self, Self::Skipped(_))
    }
}

/// `11 bytes of padding`, `no padding`, or `skipped, 7 needed`.
impl fmt::Display for Padding {
    fn fmt(&self, f: &mut fmt::Formatter<'_>) -> fmt::Result {
        match self {
            Self::Spent(0) => f.write_str("no padding"),
            Self::Spent(needed) => write!(f, "{} of padding", counted(*needed as usize, "byte")),
            Self::Skipped(needed) => write!(f, "skipped, {needed} needed"),
        }
    }
}

#[cfg(test)]
mod tests {
    use super::*;

    #[test]
    fn what_is_needed_is_spent_or_nothing_is() {
        assert_eq!(Padding::at(1, 8, 7), Padding::Spent(7));
        assert_eq!(Padding::at(1, 8, 6), Padding::Skipped(7));
        assert_eq!(Padding::at(1, 8, u32::MAX), Padding::Spent(7));
        assert_eq!(Padding::at(8, 8, 0), Padding::Spent(0));
        assert_eq!(Padding::at(9, 8, 0), Padding::Skipped(7));
        assert_eq!(Padding::at(3, 1, 0), Padding::Spent(0));
        assert_eq!(Padding::at(u64::MAX, 1 << 31, 1), Padding::Spent(1));
        assert_eq!(Padding::Skipped(7).spent(), 0);
        assert_eq!(Padding::Spent(7).spent(), 7);
    }

    #[test]
    fn in_words() {
        let words = [Padding::Spent(0), Padding::Spent(1), Padding::Skipped(7)];
        let words = words.map(|padding| padding.to_string());
        assert_eq!(
            words,
            ["no padding", "1 byte of padding", "skipped, 7 needed"]
        );
    }

    #[test]
    fn the_default_skips_nothing() {
        for past in [1, 2, 4095] {
            let padding = Padding::at(past, 4096, most_of_word(0));
            assert_eq!(padding, Padding::Spent(4096 - past as u32));
        }
        assert_eq!(most_of_word(1), 1);
        assert_eq!(most_of_word(u32::MAX), u32::MAX);
    }
}
