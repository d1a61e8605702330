//! The tables of a recording, as the C functions are lent them: bytes that grow before a call could be refused for room, up to document 01's limits
//! and never beyond. include/wargnifla.h says what their entries hold; here they are read.

use crate::event::LayoutEvent;
use crate::recording::{
    AsmConstant, AsmFixup, AsmReloc, Constant, Label, LabelRef, Names, Recording, RelocTarget,
};
use crate::{Arch, LabelUse, MOST_CODE, MOST_ENTRIES, Reloc, UNBOUND};

/// The counts of a recording: 13 words.
#[derive(Clone)]
pub(crate) struct Counts(pub [u8; 52]);

impl Counts {
    /// Those of a recording that is to be started.
    pub const ZERO: Self = Self([0; 52]);

    pub fn is_started(&self) -> bool {
        self.word(0) != 0
    }

    fn word(&self, index: usize) -> u32 {
        word(&self.0, index)
    }

    pub fn symbols(&self) -> u32 {
        self.word(1)
    }

    pub fn is_finished(&self) -> bool {
        self.word(2) != 0
    }

    /// The first recorded refusal, or 0.
    pub fn refusal(&self) -> u32 {
        self.word(3)
    }

    /// How many entries of a table the recording counts as its own.
    pub fn of(&self, table: TableName) -> usize {
        self.word(4 + table as usize) as usize
    }

    /// How many entries name a label that is not bound.
    pub fn open(&self) -> u32 {
        self.word(4 + TableName::COUNT)
    }
}

/// The tables, in the order of their counts.
#[derive(Clone, Copy)]
pub(crate) enum TableName {
    Code,
    Labels,
    Events,
    Uses,
    Refs,
    Constants,
    Asked,
    Relocs,
}

impl TableName {
    pub const COUNT: usize = 8;

    pub const ALL: [Self; Self::COUNT] = [
        Self::Code,
        Self::Labels,
        Self::Events,
        Self::Uses,
        Self::Refs,
        Self::Constants,
        Self::Asked,
        Self::Relocs,
    ];
}

/// The bytes that a table has at the least, once it has any: enough for a small rule, so that its tables are allocated once.
const FIRST_BYTES: usize = 512;

/// The bytes of a label's entry.
pub(crate) const LABEL_BYTES: usize = 4;

/// The bytes of a relocation's entry.
pub(crate) const RELOC_BYTES: usize = 24;

/// A table: whole entries of a size, of which a recording counts the first ones as its own, up to a limit.
#[derive(Clone)]
pub(crate) struct Table<const SIZE: usize, const MOST: usize = MOST_ENTRIES> {
    pub bytes: Vec<u8>,
}

impl<const SIZE: usize, const MOST: usize> Table<SIZE, MOST> {
    const fn new() -> Self {
        Self { bytes: Vec::new() }
    }

    /// Grows, if need be, to hold `more` entries beyond the `used` ones, as far as the limit lets it.
    #[inline]
    fn make_room(&mut self, used: usize, more: usize) {
        let needed = used.saturating_add(more);
        if needed.saturating_mul(SIZE) > self.bytes.len() {
            self.grow(needed);
        }
    }

    /// Apart from the test above, which stands before every call. Doubling keeps the cost of appending constant.
    #[cold]
    fn grow(&mut self, needed: usize) {
        let capacity = self.bytes.len() / SIZE;
        let first = FIRST_BYTES / SIZE;
        let entries = needed.max(2 * capacity).max(first).min(MOST);
        self.bytes.resize(entries * SIZE, 0);
    }

    fn entries(&self, used: usize) -> impl DoubleEndedIterator<Item = &[u8]> {
        self.bytes[..used * SIZE].chunks_exact(SIZE)
    }

    fn entry(&self, number: usize) -> Option<&[u8]> {
        self.bytes.get(number * SIZE..(number + 1) * SIZE)
    }
}

/// How many entries some calls may add to each table, at the most.
#[derive(Clone, Copy, Default)]
pub(crate) struct Room([usize; TableName::COUNT]);

impl Room {
    pub fn add(&mut self, table: TableName, more: usize) {
        self.0[table as usize] += more;
    }

    pub fn of(&self, table: TableName) -> usize {
        self.0[table as usize]
    }
}

/// A recording as the C functions see it.
#[derive(Clone)]
pub(crate) struct Tables {
    pub counts: Counts,
    /// That of the counts, which no call changes.
    pub arch: Arch,
    pub code: Table<1, MOST_CODE>,
    pub labels: Table<LABEL_BYTES>,
    pub events: Table<20>,
    pub uses: Table<12>,
    pub refs: Table<16>,
    pub constants: Table<72>,
    pub asked: Table<4>,
    pub relocs: Table<RELOC_BYTES>,
    /// The host's own: no C function is lent them.
    pub names: Names,
}

impl Tables {
    /// Empty tables, beside counts that start is to write.
    #[inline(always)]
    pub fn new(arch: Arch) -> Self {
        Self {
            arch,
            counts: Counts::ZERO,
            code: Table::new(),
            labels: Table::new(),
            events: Table::new(),
            uses: Table::new(),
            refs: Table::new(),
            constants: Table::new(),
            asked: Table::new(),
            relocs: Table::new(),
            names: Names::default(),
        }
    }

    /// Makes room in one table, as far as its limit lets it.
    #[inline(always)]
    pub fn make_room(&mut self, table: TableName, more: usize) {
        let used = self.counts.of(table);
        match table {
            TableName::Code => self.code.make_room(used, more),
            TableName::Labels => self.labels.make_room(used, more),
            TableName::Events => self.events.make_room(used, more),
            TableName::Uses => self.uses.make_room(used, more),
            TableName::Refs => self.refs.make_room(used, more),
            TableName::Constants => self.constants.make_room(used, more),
            TableName::Asked => self.asked.make_room(used, more),
            TableName::Relocs => self.relocs.make_room(used, more),
        }
    }

    /// Makes room in all tables.
    pub fn make_all_room(&mut self, room: &Room) {
        for table in TableName::ALL {
            self.make_room(table, room.of(table));
        }
    }

    /// All that the tables hold, but for the bytes of code.
    pub fn recording(&self) -> Recording {
        Recording {
            arch: self.arch,
            code_len: u32::try_from(self.code().len()).expect("code is below 2^32 bytes"),
            labels: self.labels().collect(),
            events: self.events().collect(),
            uses: self.uses().collect(),
            refs: self.refs().collect(),
            constants: self.constants().collect(),
            asked: self.asked().map(Constant::from_id).collect(),
            relocs: self.relocs().collect(),
            open: self.counts.open(),
            names: self.names.clone(),
        }
    }

    pub fn code(&self) -> &[u8] {
        &self.code.bytes[..self.counts.of(TableName::Code)]
    }

    pub fn label_count(&self) -> usize {
        self.counts.of(TableName::Labels)
    }

    pub fn event_count(&self) -> usize {
        self.counts.of(TableName::Events)
    }

    pub fn use_count(&self) -> usize {
        self.counts.of(TableName::Uses)
    }

    pub fn ref_count(&self) -> usize {
        self.counts.of(TableName::Refs)
    }

    pub fn constant_count(&self) -> usize {
        self.counts.of(TableName::Constants)
    }

    pub fn asked_count(&self) -> usize {
        self.counts.of(TableName::Asked)
    }

    /// Whether a jump stands, so that finish lays the code out anew.
    pub fn has_jump(&self) -> bool {
        self.events.entries(self.event_count()).any(is_relaxed)
    }

    pub fn labels(&self) -> impl Iterator<Item = u32> {
        self.labels.entries(self.label_count()).map(first_word)
    }

    /// The offset of a label that is known, or [`UNBOUND`].
    pub fn label_offset(&self, label: Label) -> Option<u32> {
        let id = label.id() as usize;
        (id < self.label_count()).then(|| word(&self.labels.bytes, id))
    }

    pub fn events(&self) -> impl DoubleEndedIterator<Item = LayoutEvent> {
        self.events.entries(self.event_count()).map(event)
    }

    pub fn uses(&self) -> impl Iterator<Item = AsmFixup> {
        self.uses.entries(self.use_count()).map(|entry| AsmFixup {
            offset: word(entry, 0),
            label: Label::from_id(word(entry, 1)),
            kind: label_use(word(entry, 2)),
        })
    }

    pub fn refs(&self) -> impl Iterator<Item = LabelRef> {
        self.refs.entries(self.ref_count()).map(|entry| LabelRef {
            offset: word(entry, 0),
            label: Label::from_id(word(entry, 1)),
            kind: label_use(word(entry, 2)),
            addend: word(entry, 3).cast_signed(),
        })
    }

    pub fn constants(&self) -> impl Iterator<Item = AsmConstant> {
        self.constants.entries(self.constant_count()).map(constant)
    }

    /// The label of each constant, if it was asked for.
    pub fn constant_labels(&self) -> impl Iterator<Item = Option<Label>> {
        let entries = self.constants.entries(self.constant_count());
        entries.map(constant_label)
    }

    pub fn asked(&self) -> impl Iterator<Item = u32> {
        self.asked.entries(self.asked_count()).map(first_word)
    }

    /// The sizes of the constants that were asked for, in order.
    pub fn asked_sizes(&self) -> impl Iterator<Item = usize> {
        self.asked().map(|number| {
            let entry = self.constants.entry(number as usize);
            first_word(entry.expect("constants that were asked for are known")) as usize
        })
    }

    pub fn relocs(&self) -> impl Iterator<Item = AsmReloc> {
        let count = self.counts.of(TableName::Relocs);
        self.relocs.entries(count).map(reloc)
    }
}

/// The offsets in a table of labels.
pub(crate) fn offsets_of(labels: &[u8]) -> Vec<u32> {
    labels.chunks_exact(LABEL_BYTES).map(first_word).collect()
}

/// The entries of a table of relocations.
pub(crate) fn relocs_of(relocs: &[u8]) -> Vec<AsmReloc> {
    relocs.chunks_exact(RELOC_BYTES).map(reloc).collect()
}

/// The offset of a label that is bound, out of one that may be [`UNBOUND`].
pub(crate) fn bound(offset: u32) -> Option<u32> {
    (offset != UNBOUND).then_some(offset)
}

/// A table of labels, from their offsets.
pub(crate) fn label_entries(offsets: &[u32]) -> Vec<u8> {
    let words = offsets.iter().map(|offset| offset.to_le_bytes());
    words.flatten().collect()
}

/// A table of relocations.
pub(crate) fn reloc_entries(relocs: &[AsmReloc]) -> Vec<u8> {
    let mut entries = Vec::with_capacity(relocs.len() * RELOC_BYTES);
    for reloc in relocs {
        let words = [reloc.offset, reloc.kind.number(), reloc.target.to_word(), 0];
        entries.extend(words.iter().flat_map(|word| word.to_le_bytes()));
        entries.extend(reloc.addend.to_le_bytes());
    }
    entries
}

fn reloc(entry: &[u8]) -> AsmReloc {
    AsmReloc {
        offset: word(entry, 0),
        kind: Reloc::from_number(word(entry, 1)).expect("recordings keep known kinds only"),
        target: RelocTarget::from_word(word(entry, 2)),
        addend: reloc_addend(entry),
    }
}

/// The addend in a relocation's entry.
pub(crate) fn reloc_addend(entry: &[u8]) -> i64 {
    i64::from_le_bytes(entry[16..24].try_into().expect("eight bytes"))
}

pub(crate) fn word(bytes: &[u8], index: usize) -> u32 {
    let at = 4 * index;
    u32::from_le_bytes(bytes[at..at + 4].try_into().expect("four bytes"))
}

fn first_word(entry: &[u8]) -> u32 {
    word(entry, 0)
}

fn label_use(code: u32) -> LabelUse {
    LabelUse::from_code(code).expect("recordings keep known codes only")
}

fn is_relaxed(event: &[u8]) -> bool {
    LayoutEvent::is_relaxed_kind(word(event, 0))
}

fn event(entry: &[u8]) -> LayoutEvent {
    LayoutEvent::from_words(std::array::from_fn(|index| word(entry, index)))
}

fn constant(entry: &[u8]) -> AsmConstant {
    let size = word(entry, 0) as usize;
    AsmConstant {
        data: entry[8..8 + size].to_vec(),
        label: constant_label(entry),
    }
}

fn constant_label(entry: &[u8]) -> Option<Label> {
    let label = word(entry, 1);
    (label != u32::MAX).then(|| Label::from_id(label))
}

#[cfg(test)]
mod tests {
    use super::*;

    #[test]
    fn room_starts_small_doubles_and_stops_at_the_limit() {
        let mut table = Table::<20, 100>::new();
        table.make_room(0, 0);
        assert_eq!(table.bytes.capacity(), 0);
        table.make_room(0, 3);
        assert_eq!(table.bytes.len(), 20 * 25);
        table.make_room(25, 1);
        assert_eq!(table.bytes.len(), 20 * 50);
        table.make_room(50, 13);
        assert_eq!(table.bytes.len(), 20 * 100);
        table.make_room(100, 1);
        table.make_room(100, usize::MAX);
        assert_eq!(table.bytes.len(), 20 * 100);
        let mut small = Table::<4, 10>::new();
        small.make_room(0, 1);
        assert_eq!(small.bytes.len(), 4 * 10);
    }

    #[test]
    fn room_is_what_is_needed_where_that_is_more() {
        let mut table = Table::<1, 10_000>::new();
        table.make_room(0, 3_000);
        assert_eq!(table.bytes.len(), 3_000);
        table.make_room(3_000, 4_000);
        assert_eq!(table.bytes.len(), 7_000);
    }

    #[test]
    fn growing_keeps_what_stands_in_a_table() {
        let mut table = Table::<1, 2_000>::new();
        table.make_room(0, 2);
        table.bytes[..2].copy_from_slice(&[7, 8]);
        table.make_room(2, 1_000);
        assert_eq!(table.bytes[..3], [7, 8, 0]);
    }
}
