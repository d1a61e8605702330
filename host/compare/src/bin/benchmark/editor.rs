//! A rule editor's keystrokes: a call each, and how many entries are open after it, kept by the recording or counted afresh by a plain loop.

use std::borrow::Cow;
use std::hint::black_box;

use compare::{LABEL_TARGET, NONE, Part};
use reference::{Call, write_sheet};

use crate::inputs::Step;
use crate::sides::{Side, Verified, word};

/// How an editor gets the number.
#[derive(Clone, Copy, PartialEq, Eq)]
pub enum Number {
    Kept,
    Afresh,
}

/// So often an editor makes a label, two fields that name it, and binds it.
const TIMES: u32 = 16;

/// The C functions. The rule that is edited is recorded before.
pub struct Editor<'a> {
    verified: Verified<'a>,
    number: Number,
    keystrokes: Vec<Vec<u8>>,
    /// The numbers that were shown.
    shown: Vec<u8>,
}

impl<'a> Editor<'a> {
    pub fn new(verified: Verified<'a>, number: Number) -> Self {
        Self {
            verified,
            number,
            keystrokes: Vec::new(),
            shown: Vec::new(),
        }
    }

    fn count(&self, which: usize) -> usize {
        word(self.verified.content(Part::Counts), which) as usize
    }

    fn open(&self) -> u32 {
        match self.number {
            Number::Kept => word(self.verified.content(Part::Counts), 12),
            Number::Afresh => self.counted(),
        }
    }

    /// The entries of a table, by the word of the counts that has their number.
    fn entries(&self, table: Part, which: usize) -> impl Iterator<Item = &[u8]> {
        let entries = self.verified.content(table);
        entries
            .chunks_exact(table.entry_bytes())
            .take(self.count(which))
    }

    fn counted(&self) -> u32 {
        let labels = self.verified.content(Part::Labels);
        let is_open = |label: u32| word(labels, label as usize) == NONE;
        let uses = self.entries(Part::Uses, 7).map(|entry| word(entry, 1));
        let refs = self.entries(Part::Refs, 8).map(|entry| word(entry, 1));
        let jumps = self.entries(Part::Events, 6);
        let jumps = jumps.filter(|entry| word(entry, 0) == 1);
        let relocations = self.entries(Part::Relocations, 11);
        let relocations = relocations.filter_map(|entry| word(entry, 2).checked_sub(LABEL_TARGET));
        // Four sums are faster than one over all of them.
        let count = |open: usize| open as u32;
        count(uses.filter(|label| is_open(*label)).count())
            + count(refs.filter(|label| is_open(*label)).count())
            + count(jumps.filter(|entry| is_open(word(entry, 3))).count())
            + count(relocations.filter(|label| is_open(*label)).count())
    }
}

/// Sheets of one call each, on a recording with so many labels.
fn keystrokes(labels: u32) -> Vec<Vec<u8>> {
    let mut calls = Vec::new();
    for label in labels..labels + TIMES {
        let (offset, code) = (label, 0);
        calls.push(Call::NewLabel);
        calls.push(Call::Bytes(Cow::Borrowed(&[0x48, 0x8D, 0x05, 0, 0, 0, 0])));
        calls.push(Call::Use {
            offset,
            label,
            code,
        });
        calls.push(Call::Ref {
            offset,
            label,
            code,
            addend: 0,
        });
        calls.push(Call::Bind(label));
    }
    let sheet = |call| write_sheet(&[call]).expect("a call fits a sheet");
    calls.into_iter().map(sheet).collect()
}

impl Side for Editor<'_> {
    fn clear(&mut self) {}

    fn record(&mut self, steps: &[Step]) {
        self.verified.record(steps);
        self.keystrokes = keystrokes(self.count(5) as u32);
        self.shown.clear();
    }

    fn finish(&mut self) {
        for keystroke in std::mem::take(&mut self.keystrokes) {
            self.verified.run_sheet(&keystroke);
            let open = black_box(self.open());
            self.shown.extend(open.to_le_bytes());
        }
    }

    fn code(&mut self) -> &[u8] {
        &self.shown
    }
}
