//! What a recording comes to once its queued calls are made, as far as the acceptance of calls depends on it.

use sheet_text::{Padding, most_of_word};

use crate::recording::{Label, RelocTarget};
use crate::tables::{TableName, Tables};
use crate::{Arch, Call, Condition, MOST_CODE, MOST_ENTRIES, UNBOUND};

/// The label of a constant that was not asked for.
const NO_LABEL: u32 = u32::MAX;

/// The greatest multiple of an alignment.
const MOST_ALIGNMENT: u32 = 4096;

#[derive(Clone)]
pub(super) struct Mirror {
    pub arch: Arch,
    /// It has not finished, no refusal is recorded, and labels and constants are known here.
    pub is_recording: bool,
    /// A sheet was run since labels and constants were read.
    is_stale: bool,
    pub symbols: u32,
    /// The entries of each table, the bytes of code first.
    lengths: [usize; TableName::COUNT],
    bound: BoundLabels,
    /// The label of each constant, or `NO_LABEL`.
    constants: Vec<u32>,
    /// The end of the last event.
    last_end: u32,
    /// The greatest offset at which a label is bound, and the greatest below it; 0 if there is none, which lies inside no jump.
    greatest: u32,
    second: u32,
}

impl Mirror {
    /// That of a recording without calls.
    #[inline(always)]
    pub fn new(arch: Arch, symbols: u32) -> Self {
        Self {
            arch,
            is_recording: true,
            is_stale: false,
            symbols,
            lengths: [0; TableName::COUNT],
            bound: BoundLabels::default(),
            constants: Vec::new(),
            last_end: 0,
            greatest: 0,
            second: 0,
        }
    }

    /// Takes over the lengths that the calls of a sheet left. What they made of labels and constants is read after the next call, so that a sheet costs
    /// no look at all of them.
    pub fn pass_over(&mut self, tables: &Tables) {
        self.is_stale = true;
        self.is_recording = false;
        self.read_lengths(tables);
    }

    /// Takes over what the library left after a call that was not certain. Such a call neither makes nor binds a label, unless a sheet was passed over; a
    /// finish binds some, but then labels matter no more.
    pub fn follow(&mut self, tables: &Tables) {
        if self.is_stale {
            self.read_labels(tables);
            self.is_stale = false;
        }
        self.is_recording = !tables.counts.is_finished() && tables.counts.refusal() == 0;
        self.read_lengths(tables);
        self.constants.resize(tables.constant_count(), NO_LABEL);
        self.last_end = tables.events().next_back().map_or(0, |event| event.end());
    }

    fn read_lengths(&mut self, tables: &Tables) {
        self.lengths = TableName::ALL.map(|table| tables.counts.of(table));
    }

    fn read_labels(&mut self, tables: &Tables) {
        self.bound = BoundLabels::default();
        for (label, offset) in tables.labels().enumerate() {
            if offset != UNBOUND {
                self.bound.add(label);
            }
        }
        self.greatest = greatest_below(tables, UNBOUND);
        self.second = greatest_below(tables, self.greatest);
        let labels = tables.constant_labels();
        let labels = labels.map(|label| label.map_or(NO_LABEL, Label::id));
        self.constants = labels.collect();
    }

    /// Makes room for what the tables come to.
    pub fn make_room(&self, tables: &mut Tables) {
        for table in TableName::ALL {
            let more = self.len(table) - tables.counts.of(table);
            tables.make_room(table, more);
        }
    }

    /// Whether the tables are as long as here.
    pub fn is_as_long_as(&self, tables: &Tables) -> bool {
        let mut all = TableName::ALL.into_iter();
        all.all(|table| self.len(table) == tables.counts.of(table))
    }

    #[inline(always)]
    pub fn len(&self, table: TableName) -> usize {
        self.lengths[table as usize]
    }

    #[inline(always)]
    fn add(&mut self, table: TableName, more: usize) {
        self.lengths[table as usize] += more;
    }

    /// Where the next byte goes.
    #[inline(always)]
    pub fn offset(&self) -> u32 {
        self.len(TableName::Code) as u32
    }

    /// Whether a label is known and waits to be bound.
    #[inline(always)]
    pub fn is_unbound(&self, label: u32) -> bool {
        self.knows_label(label) && !self.bound.contains(label as usize)
    }

    /// The label of a constant that is known and was asked for.
    #[inline(always)]
    pub fn constant_label(&self, constant: u32) -> Option<u32> {
        let label = *self.constants.get(constant as usize)?;
        (label != NO_LABEL).then_some(label)
    }

    /// Whether the library is certain to accept a call. Where a sheet says it otherwise than the call does, the sheet's form is meant.
    #[inline(always)]
    pub fn is_certain(&self, call: &Call<&[u8]>) -> bool {
        let keeps = self.arch.tracks_layout();
        self.is_recording
            && match *call {
                Call::Bytes(bytes) => self.has_code_room(bytes.len()),
                Call::NewLabel => self.has_room(TableName::Labels),
                Call::Bind(label) => self.is_unbound(label),
                Call::Align { multiple, most } => self.takes_alignment(multiple, most),
                Call::Use { label, code, .. } => {
                    self.takes_field(label, code) && self.has_room(TableName::Uses)
                }
                Call::Ref { code, .. } if !keeps => code <= LAST_CODE,
                Call::Ref { label, code, .. } => {
                    self.takes_field(label, code) && self.has_room(TableName::Refs)
                }
                Call::Jump { .. } if !keeps => true,
                Call::Jump {
                    start,
                    length,
                    label,
                    condition,
                } => {
                    self.knows_label(label)
                        && condition <= Condition::NONE
                        && self.takes_jump(start, length)
                        && self.has_room(TableName::Events)
                }
                Call::Constant(_) => self.has_room(TableName::Constants),
                Call::ConstantLabel(constant) => self.takes_asking(constant),
                Call::Relocation {
                    offset,
                    kind,
                    target,
                    ..
                } => {
                    (offset as usize) < MOST_CODE
                        && is_native_reloc(self.arch, kind)
                        && self.knows_target(target)
                        && self.has_room(TableName::Relocs)
                }
            }
    }

    #[inline(always)]
    pub fn has_room(&self, table: TableName) -> bool {
        self.len(table) < MOST_ENTRIES
    }

    #[inline(always)]
    pub fn has_code_room(&self, more: usize) -> bool {
        more <= MOST_CODE - self.len(TableName::Code)
    }

    #[inline(always)]
    fn knows_label(&self, label: u32) -> bool {
        (label as usize) < self.len(TableName::Labels)
    }

    fn knows_target(&self, target: u32) -> bool {
        match RelocTarget::from_word(target) {
            RelocTarget::Sym(symbol) => symbol.id() < self.symbols,
            RelocTarget::Label(label) => self.knows_label(label.id()),
        }
    }

    #[inline(always)]
    fn takes_field(&self, label: u32, code: u32) -> bool {
        is_native_field(self.arch, code) && self.knows_label(label)
    }

    #[inline(always)]
    fn takes_alignment(&self, multiple: u32, most: u32) -> bool {
        multiple.is_power_of_two()
            && multiple <= MOST_ALIGNMENT
            && (!self.arch.tracks_layout() || self.has_room(TableName::Events))
            && self.has_code_room(self.padding(multiple, most))
    }

    /// What an alignment spends at the current offset.
    #[inline(always)]
    fn padding(&self, multiple: u32, most: u32) -> usize {
        let padding = Padding::at(self.offset().into(), multiple, most_of_word(most));
        padding.spent() as usize
    }

    /// Whether a jump has a fit length, ends at the current offset, starts behind the last event and holds no label strictly inside.
    #[inline(always)]
    fn takes_jump(&self, start: u32, length: u32) -> bool {
        let end = u64::from(start) + u64::from(length);
        (2..=15).contains(&length)
            && end == u64::from(self.offset())
            && start >= self.last_end
            && start >= self.nearest()
    }

    /// The greatest offset below the current one at which a label is bound.
    #[inline(always)]
    fn nearest(&self) -> u32 {
        if self.greatest < self.offset() {
            self.greatest
        } else {
            self.second
        }
    }

    #[inline(always)]
    fn takes_asking(&self, constant: u32) -> bool {
        match self.constants.get(constant as usize) {
            Some(&NO_LABEL) => self.has_room(TableName::Labels) && self.has_room(TableName::Asked),
            label => label.is_some(),
        }
    }

    /// Makes a call that is certain.
    #[inline(always)]
    pub fn make(&mut self, call: &Call<&[u8]>) {
        let keeps = self.arch.tracks_layout();
        match *call {
            Call::Bytes(bytes) => self.add(TableName::Code, bytes.len()),
            Call::NewLabel => self.add(TableName::Labels, 1),
            Call::Bind(label) => self.bind(label),
            Call::Align { multiple, most } => {
                self.add(TableName::Code, self.padding(multiple, most));
                self.make_event();
            }
            Call::Use { .. } => self.add(TableName::Uses, 1),
            Call::Ref { .. } => self.add(TableName::Refs, usize::from(keeps)),
            Call::Jump { .. } => self.make_event(),
            Call::Constant(_) => {
                self.add(TableName::Constants, 1);
                self.constants.push(NO_LABEL);
            }
            Call::ConstantLabel(constant) => self.ask(constant as usize),
            Call::Relocation { .. } => self.add(TableName::Relocs, 1),
        }
    }

    /// Binds a label to the current offset, which no bound label is past.
    #[inline(always)]
    fn bind(&mut self, label: u32) {
        let offset = self.offset();
        self.bound.add(label as usize);
        if self.greatest < offset {
            (self.greatest, self.second) = (offset, self.greatest);
        }
    }

    /// An event that ends at the current offset.
    #[inline(always)]
    fn make_event(&mut self) {
        if self.arch.tracks_layout() {
            self.add(TableName::Events, 1);
            self.last_end = self.offset();
        }
    }

    fn ask(&mut self, constant: usize) {
        if self.constants[constant] == NO_LABEL {
            self.constants[constant] = self.len(TableName::Labels) as u32;
            self.add(TableName::Labels, 1);
            self.add(TableName::Asked, 1);
        }
    }
}

/// The greatest offset below another at which a label is bound; 0 if there is none.
fn greatest_below(tables: &Tables, offset: u32) -> u32 {
    let below = tables.labels().filter(|at| *at < offset);
    below.max().unwrap_or(0)
}

/// The labels that are bound, a bit for each: those of a small rule take no allocation.
#[derive(Clone, Default)]
struct BoundLabels {
    first: u64,
    more: Vec<u64>,
}

impl BoundLabels {
    #[inline(always)]
    fn contains(&self, label: usize) -> bool {
        let word = match label / 64 {
            0 => self.first,
            number => self.more.get(number - 1).copied().unwrap_or(0),
        };
        word >> (label % 64) & 1 == 1
    }

    #[inline(always)]
    fn add(&mut self, label: usize) {
        let word = match label / 64 {
            0 => &mut self.first,
            number => self.word_mut(number - 1),
        };
        *word |= 1 << (label % 64);
    }

    fn word_mut(&mut self, number: usize) -> &mut u64 {
        if self.more.len() <= number {
            self.more.resize(number + 1, 0);
        }
        &mut self.more[number]
    }
}

/// The last code of a field.
const LAST_CODE: u32 = 16;

/// Whether an architecture has fields of a code, and uses of it can be patched.
#[inline(always)]
fn is_native_field(arch: Arch, code: u32) -> bool {
    match arch {
        Arch::X86 | Arch::X64 => code <= 1,
        Arch::AArch64 => matches!(code, 9..=14 | LAST_CODE),
    }
}

/// Whether an architecture has relocations of a kind.
fn is_native_reloc(arch: Arch, kind: u32) -> bool {
    match kind {
        0 | 1 => true,
        2..=6 | 9 | 10 => arch != Arch::AArch64,
        8 | 11..=21 => arch == Arch::AArch64,
        _ => false,
    }
}
