//! The table entries that no recording writes: number 1 at finish.

use super::calls::{
    ALIGNMENT, JUMP, MOST_CONSTANT, is_alignment, is_known_reloc, is_known_target, is_reloc_offset,
};
use super::ceilings::spent;
use super::counts::Counts;
use super::{fields, sheet};
use crate::{Lent, NONE, Part, X64};

/// Every entry of every table is one that a recording can write.
pub fn fit(lent: &Lent, counts: &Counts) -> bool {
    let tables = Tables { lent, counts };
    tables.only_kept_tables()
        && tables.events_fit()
        && tables.labels_fit()
        && tables.fields_fit(Part::Uses)
        && tables.fields_fit(Part::Refs)
        && tables.constants_fit()
        && tables.asking_fits()
        && tables.relocations_fit()
}

struct Tables<'a> {
    lent: &'a Lent,
    counts: &'a Counts,
}

impl Tables<'_> {
    fn entries<const N: usize>(&self, table: Part) -> impl Iterator<Item = [u32; N]> {
        (0..self.counts.of(table)).map(move |entry| self.lent.words(table, entry))
    }

    /// Only X64 keeps events and refs.
    fn only_kept_tables(&self) -> bool {
        let kept = [Part::Events, Part::Refs];
        self.counts.arch == X64 || kept.iter().all(|table| self.counts.of(*table) == 0)
    }

    fn is_label(&self, label: u32) -> bool {
        (label as usize) < self.counts.of(Part::Labels)
    }

    fn events_fit(&self) -> bool {
        let mut last_end = 0;
        self.entries(Part::Events).all(|event| {
            let [_, start, length, _, _] = event;
            let end = u64::from(start) + u64::from(length);
            let follows = u64::from(start) >= last_end;
            last_end = end;
            follows && end <= self.counts.of(Part::Code) as u64 && self.event_form_fits(event)
        })
    }

    fn event_form_fits(&self, [kind, start, length, what, how]: [u32; 5]) -> bool {
        match kind {
            JUMP => (2..=15).contains(&length) && self.is_label(what) && how <= 16,
            ALIGNMENT => is_alignment(what) && length == spent(start, what, how),
            _ => false,
        }
    }

    /// Labels stand within the code and not strictly inside an event.
    fn labels_fit(&self) -> bool {
        let mut inside = vec![false; self.counts.of(Part::Code) + 1];
        for [_, start, length] in self.entries(Part::Events) {
            for offset in start + 1..start + length {
                inside[offset as usize] = true;
            }
        }
        self.entries(Part::Labels).all(|[offset]| {
            let inside = inside.get(offset as usize);
            offset == NONE || inside == Some(&false)
        })
    }

    /// Uses or refs.
    fn fields_fit(&self, table: Part) -> bool {
        self.entries(table).all(|[_, label, code]| {
            fields::is_known(code, self.counts.arch) && self.is_label(label)
        })
    }

    fn constants_fit(&self) -> bool {
        self.entries(Part::Constants).all(|[size, label]| {
            size as usize <= MOST_CONSTANT && (label == NONE || self.is_label(label))
        })
    }

    /// Exactly the constants that have a label were asked for, each once, and no two share one.
    fn asking_fits(&self) -> bool {
        let mut asked = vec![false; self.counts.of(Part::Constants)];
        let mut named = vec![false; self.counts.of(Part::Labels)];
        for [constant] in self.entries(Part::Asked) {
            let Some(asked) = asked.get_mut(constant as usize) else {
                return false;
            };
            let label = self.lent.word(Part::Constants, constant as usize, 1);
            let Some(named) = named.get_mut(label as usize) else {
                return false;
            };
            if *asked || *named {
                return false;
            }
            (*asked, *named) = (true, true);
        }
        let constants = self.entries(Part::Constants);
        constants
            .zip(asked)
            .all(|([_, label], asked)| asked == (label != NONE))
    }

    fn relocations_fit(&self) -> bool {
        self.entries(Part::Relocations)
            .all(|[offset, kind, target]| {
                is_reloc_offset(offset)
                    && kind <= sheet::LAST_RELOC
                    && is_known_reloc(kind, self.counts.arch)
                    && is_known_target(self.counts, target)
            })
    }
}
