//! Request Five: how many uses, refs, jumps and relocations against labels name a label that is not bound.

use super::calls::{BRANCH, JUMP};
use super::counts::Counts;
use crate::{LABEL_TARGET, Lent, NONE, Part};

/// "Any call answers 1 to one above 262,144."
pub const MOST_OPEN: u32 = 262_144;

/// "Every call that is handed the right one keeps it equal to the count over the tables; a wrong one changes by as much, never below 0."
pub fn changed(open: u32, before: u32, after: u32) -> u32 {
    open.saturating_add(after).saturating_sub(before)
}

/// What is lent, as far as its counts reach. Direct calls are not lent all of it; what they are not lent they leave, and so is counted alike before
/// and after them.
pub struct Tables<'a> {
    pub lent: &'a Lent,
    pub counts: &'a Counts,
}

impl Tables<'_> {
    fn entries<const N: usize>(&self, table: Part) -> impl Iterator<Item = [u32; N]> {
        let entries = self.counts.of(table).min(self.lent.room(table));
        (0..entries).map(move |entry| self.lent.words(table, entry))
    }

    /// "Unknown labels count as unbound."
    fn is_unbound(&self, label: u32) -> bool {
        let label = label as usize;
        let known = self
            .counts
            .of(Part::Labels)
            .min(self.lent.room(Part::Labels));
        label >= known || self.lent.word(Part::Labels, label, 0) == NONE
    }

    /// The labels that uses, or refs, name.
    fn fields(&self, table: Part) -> impl Iterator<Item = u32> {
        self.entries(table).map(|[_, label]| label)
    }

    /// The labels that jumps and branches name, on whatever architecture.
    fn jumps(&self) -> impl Iterator<Item = u32> {
        let events = self.entries(Part::Events);
        events.filter_map(|[kind, _, _, label]| matches!(kind, JUMP | BRANCH).then_some(label))
    }

    /// The labels that relocations name.
    fn relocations(&self) -> impl Iterator<Item = u32> {
        let relocations = self.entries(Part::Relocations);
        relocations.filter_map(|[_, _, target]| target.checked_sub(LABEL_TARGET))
    }

    /// How many of some labels are not bound.
    fn unbound(&self, labels: impl Iterator<Item = u32>) -> u32 {
        labels.filter(|label| self.is_unbound(*label)).count() as u32
    }
}

/// "How many label uses, refs, jumps and label relocations point to an unbound label."
pub fn counted(tables: &Tables<'_>) -> u32 {
    let fields = tables.fields(Part::Uses).chain(tables.fields(Part::Refs));
    tables.unbound(fields.chain(tables.jumps()).chain(tables.relocations()))
}

/// The right number for what is lent; nothing if too few bytes are lent for counts.
pub fn right_number(lent: &Lent) -> Option<u32> {
    let counts = Counts::read(lent)?;
    Some(counted(&Tables {
        lent,
        counts: &counts,
    }))
}
