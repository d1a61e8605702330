//! A recording's counts, and what every call looks at first.

use super::Refusal;
use super::open::{self, MOST_OPEN, Tables};
use crate::{AARCH64, Lent, MOST_CODE, MOST_ENTRIES, Part, X64, X86};

/// The architectures that occur.
pub fn is_arch(arch: u32) -> bool {
    [X86, X64, AARCH64].contains(&arch)
}

/// The refusals that a recording records.
pub fn is_recorded(refusal: Refusal) -> bool {
    [6, 7, 8, 10, 11, 12].contains(&refusal)
}

/// The thirteen words of the counts.
#[derive(Clone, Copy, Default)]
pub struct Counts {
    pub arch: u32,
    pub symbols: u32,
    pub finished: u32,
    pub refusal: u32,
    /// Entries of each table, in the order of [`Part::TABLES`].
    tables: [u32; 8],
    /// Entries that name a label that is not bound.
    pub open: u32,
}

impl Counts {
    pub fn start(arch: u32, symbols: u32) -> Self {
        Self {
            arch,
            symbols,
            ..Self::default()
        }
    }

    /// Nothing if too few bytes are lent for counts.
    pub fn read(lent: &Lent) -> Option<Self> {
        if lent.room(Part::Counts) == 0 {
            return None;
        }
        let [arch, symbols, finished, refusal, tables @ .., open] =
            lent.words::<13>(Part::Counts, 0);
        Some(Self {
            arch,
            symbols,
            finished,
            refusal,
            tables,
            open,
        })
    }

    pub fn write(&self, lent: &mut Lent) {
        let first = [self.arch, self.symbols, self.finished, self.refusal];
        let words = [&first[..], &self.tables, &[self.open]].concat();
        lent.set_words(Part::Counts, 0, &words);
    }

    /// The entries of a table.
    pub fn of(&self, table: Part) -> usize {
        self.tables[Self::column(table)] as usize
    }

    pub fn set(&mut self, table: Part, entries: usize) {
        self.tables[Self::column(table)] = entries as u32;
    }

    fn column(table: Part) -> usize {
        let column = Part::TABLES.iter().position(|other| *other == table);
        column.expect("only tables are counted")
    }

    /// 1, the recorded refusal, 3 or 4: what every call answers before its own refusals. `tables` are those that it is lent; `within` says that
    /// nothing else lent passes a limit.
    pub fn standing(&self, lent: &Lent, tables: &[Part], within: bool) -> Result<(), Refusal> {
        let fit = tables
            .iter()
            .all(|table| self.of(*table) <= lent.room(*table));
        let refusal_occurs = self.refusal == 0 || is_recorded(self.refusal);
        if !is_arch(self.arch) || !refusal_occurs || !fit || self.open > MOST_OPEN {
            return Err(1);
        }
        if self.refusal != 0 {
            return Err(self.refusal);
        }
        if !within || tables.iter().any(|table| passes_limit(lent, *table)) {
            return Err(3);
        }
        if self.finished != 0 {
            return Err(4);
        }
        Ok(())
    }

    /// How many entries of what is lent are open.
    pub fn counted(&self, lent: &Lent) -> u32 {
        open::counted(&Tables { lent, counts: self })
    }
}

/// More is lent of a part than document 01 allows.
pub fn passes_limit(lent: &Lent, part: Part) -> bool {
    match part {
        Part::Code | Part::Output => lent.room(part) > MOST_CODE,
        _ => lent.room(part) > MOST_ENTRIES,
    }
}
