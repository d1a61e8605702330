//! Everything that a caller lends to the C functions.

use std::ops::{Index, IndexMut};

/// One thing that is lent: the counts, a table, what finish writes to, ELF entries, or what join takes and writes beside these.
#[derive(Clone, Copy, Debug, PartialEq, Eq)]
pub enum Part {
    Counts,
    Code,
    Labels,
    Events,
    Uses,
    Refs,
    Constants,
    Asked,
    Relocations,
    Segments,
    Output,
    Record,
    /// ELF entries, written and read.
    Relas,
    /// What ELF entries are read into.
    Entries,
    /// Records that are joined, and how many symbols each piece defines.
    Pieces,
    Definitions,
    JoinedLabels,
    JoinedRelocations,
}

impl Part {
    pub const COUNT: usize = 18;

    pub const ALL: [Self; Self::COUNT] = [
        Self::Counts,
        Self::Code,
        Self::Labels,
        Self::Events,
        Self::Uses,
        Self::Refs,
        Self::Constants,
        Self::Asked,
        Self::Relocations,
        Self::Segments,
        Self::Output,
        Self::Record,
        Self::Relas,
        Self::Entries,
        Self::Pieces,
        Self::Definitions,
        Self::JoinedLabels,
        Self::JoinedRelocations,
    ];

    /// The tables of a recording, in the order of their counts.
    pub const TABLES: [Self; 8] = [
        Self::Code,
        Self::Labels,
        Self::Events,
        Self::Uses,
        Self::Refs,
        Self::Constants,
        Self::Asked,
        Self::Relocations,
    ];

    /// The bytes of one entry; those of the whole for counts and record.
    pub const fn entry_bytes(self) -> usize {
        match self {
            Self::Code | Self::Output => 1,
            Self::Labels | Self::Asked | Self::JoinedLabels => 4,
            Self::Definitions => 8,
            Self::Uses => 12,
            Self::Refs | Self::Segments => 16,
            Self::Events => 20,
            Self::Relocations
            | Self::Record
            | Self::Relas
            | Self::Entries
            | Self::JoinedRelocations => 24,
            Self::Pieces => 28,
            Self::Counts => 52,
            Self::Constants => 72,
        }
    }
}

/// The bytes of each part, as long as they are lent.
#[derive(Clone, Debug, Default, PartialEq, Eq)]
pub struct Lent([Vec<u8>; Part::COUNT]);

impl Lent {
    /// How many whole entries a part has room for.
    pub fn room(&self, part: Part) -> usize {
        self[part].len() / part.entry_bytes()
    }

    /// The word of a number within an entry.
    pub fn word(&self, part: Part, entry: usize, number: usize) -> u32 {
        let at = entry * part.entry_bytes() + number * 4;
        let bytes = self[part][at..at + 4].try_into();
        u32::from_le_bytes(bytes.expect("a word has four bytes"))
    }

    pub fn set_word(&mut self, part: Part, entry: usize, number: usize, word: u32) {
        let at = entry * part.entry_bytes() + number * 4;
        self[part][at..at + 4].copy_from_slice(&word.to_le_bytes());
    }

    /// The first words of an entry.
    pub fn words<const N: usize>(&self, part: Part, entry: usize) -> [u32; N] {
        std::array::from_fn(|number| self.word(part, entry, number))
    }

    pub fn set_words(&mut self, part: Part, entry: usize, words: &[u32]) {
        for (number, word) in words.iter().enumerate() {
            self.set_word(part, entry, number, *word);
        }
    }
}

impl Index<Part> for Lent {
    type Output = Vec<u8>;

    fn index(&self, part: Part) -> &Vec<u8> {
        &self.0[part as usize]
    }
}

impl IndexMut<Part> for Lent {
    fn index_mut(&mut self, part: Part) -> &mut Vec<u8> {
        &mut self.0[part as usize]
    }
}
