//! Calls that lead to given tables, so that the Rust can be brought to a recording that was made by hand.

use std::borrow::Cow;

use compare::{Lent, NONE, Part};
use reference::Call;

use crate::scenario::alignment;

/// The calls, if there are any: labels that constants share, or that do not rise in the order of asking, cannot be had by calls. Entries that no
/// recording writes give calls that are refused, or nothing.
pub fn calls(lent: &Lent) -> Option<Vec<Call<'static>>> {
    let tables = Tables::new(lent)?;
    let mut calls = tables.constants()?;
    calls.extend(tables.labels()?);
    calls.extend(tables.code()?);
    calls.extend(tables.fields_and_relocations());
    Some(calls)
}

struct Tables<'a> {
    lent: &'a Lent,
    /// Entries of each table, in the order of [`Part::TABLES`].
    counts: [u32; 8],
}

impl<'a> Tables<'a> {
    /// Nothing if a count passes what is lent, or the recording was refused or has finished.
    fn new(lent: &'a Lent) -> Option<Self> {
        if lent.room(Part::Counts) == 0 {
            return None;
        }
        let [_, _, finished, refusal, counts @ ..] = lent.words::<12>(Part::Counts, 0);
        let mut lent_counts = Part::TABLES.into_iter().zip(counts);
        let fit = lent_counts.all(|(table, count)| count as usize <= lent.room(table));
        (fit && finished == 0 && refusal == 0).then_some(Self { lent, counts })
    }

    fn entries<const N: usize>(&self, table: Part) -> Vec<[u32; N]> {
        let column = Part::TABLES.iter().position(|other| *other == table);
        let count = self.counts[column.expect("it is a table")];
        let entries = (0..count as usize).map(|entry| self.lent.words(table, entry));
        entries.collect()
    }

    fn constants(&self) -> Option<Vec<Call<'static>>> {
        let constants = self.entries(Part::Constants);
        let with_bytes = constants.iter().enumerate().map(|(number, [size])| {
            let at = number * Part::Constants.entry_bytes() + 8;
            let bytes = self.lent[Part::Constants].get(at..at + *size as usize)?;
            Some(Call::Constant(Cow::Owned(bytes.to_vec())))
        });
        with_bytes.collect()
    }

    /// New labels, and the askings that make the others.
    fn labels(&self) -> Option<Vec<Call<'static>>> {
        let constants = self.entries::<2>(Part::Constants);
        let labels = self.entries::<1>(Part::Labels).len() as u32;
        let asked = self.entries(Part::Asked);
        let mut asked = asked.iter().map(|[constant]| *constant).peekable();
        let mut calls = Vec::new();
        for label in 0..labels {
            let names = |constant: &u32| constants.get(*constant as usize).map(|[_, l]| *l);
            match asked.next_if(|constant| names(constant) == Some(label)) {
                Some(constant) => calls.push(Call::ConstantLabel(constant)),
                None => calls.push(Call::NewLabel),
            }
        }
        asked.next().is_none().then_some(calls)
    }

    /// Bytes, events, and binds in between.
    fn code(&self) -> Option<Vec<Call<'static>>> {
        let labels = self.entries(Part::Labels);
        let labels = labels.iter().enumerate();
        let mut binds: Vec<_> = labels
            .filter(|(_, [offset])| *offset != NONE)
            .map(|(label, [offset])| (*offset, label as u32))
            .collect();
        binds.sort_unstable();
        let mut walk = Walk {
            code: &self.lent[Part::Code][..self.counts[0] as usize],
            offset: 0,
            binds: &binds,
            calls: Vec::new(),
        };
        for [kind, start, length, what, how] in self.entries(Part::Events) {
            walk.copy_to(start)?;
            let end = start.checked_add(length)?;
            if kind == 1 {
                walk.copy_to(end)?;
                walk.calls.push(Call::Jump {
                    start,
                    length,
                    label: what,
                    condition: how,
                });
            } else {
                walk.bind();
                walk.calls.push(alignment(what, how));
                walk.offset = end;
            }
        }
        walk.copy_to(self.counts[0])?;
        walk.bind();
        walk.binds.is_empty().then_some(walk.calls)
    }

    fn fields_and_relocations(&self) -> Vec<Call<'static>> {
        let mut calls = Vec::new();
        for [offset, label, code] in self.entries(Part::Uses) {
            calls.push(Call::Use {
                offset,
                label,
                code,
            });
        }
        for [offset, label, code, addend] in self.entries(Part::Refs) {
            let addend = addend.cast_signed();
            calls.push(Call::Ref {
                offset,
                label,
                code,
                addend,
            });
        }
        for [offset, kind, target, _, low, high] in self.entries(Part::Relocations) {
            let addend = (u64::from(high) << 32 | u64::from(low)).cast_signed();
            calls.push(Call::Relocation {
                offset,
                kind,
                target,
                addend,
            });
        }
        calls
    }
}

/// A way through the code that binds each label where it stands.
struct Walk<'a> {
    code: &'a [u8],
    offset: u32,
    /// Offsets and labels, rising.
    binds: &'a [(u32, u32)],
    calls: Vec<Call<'static>>,
}

impl Walk<'_> {
    /// Binds the labels that stand here.
    fn bind(&mut self) {
        while let Some(((offset, label), rest)) = self.binds.split_first() {
            if *offset != self.offset {
                break;
            }
            self.calls.push(Call::Bind(*label));
            self.binds = rest;
        }
    }

    /// Nothing if `end` lies before the offset reached or past the code.
    fn copy_to(&mut self, end: u32) -> Option<()> {
        while self.offset < end {
            self.bind();
            let next = self.binds.first().map_or(end, |bind| bind.0.min(end));
            let bytes = self.code.get(self.offset as usize..next as usize)?;
            self.calls.push(Call::Bytes(Cow::Owned(bytes.to_vec())));
            self.offset = next;
        }
        (self.offset == end).then_some(())
    }
}
