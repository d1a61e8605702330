//! Request Two: finished relocations as Elf64_Rela entries, and the entries read back.

use super::Refusal;
use super::counts::passes_limit;
use crate::{AARCH64, LABEL_TARGET, Lent, NONE, Part, X64};

/// An architecture, a kind of relocation, and the ELF type that it has there. There are no others.
pub const ELF_TYPES: [(u32, u32, u32); 12] = [
    (X64, 1, 1),
    (X64, 2, 2),
    (X64, 3, 4),
    (X64, 4, 4),
    (X64, 5, 9),
    (X64, 0, 10),
    (X64, 9, 19),
    (AARCH64, 1, 257),
    (AARCH64, 0, 258),
    (AARCH64, 19, 275),
    (AARCH64, 20, 277),
    (AARCH64, 8, 283),
];

/// The ELF type of a kind, if it has one.
fn elf_type(arch: u32, kind: u32) -> Option<u32> {
    let row = ELF_TYPES.iter().find(|row| (row.0, row.1) == (arch, kind));
    row.map(|row| row.2)
}

/// What finish left of a relocation.
struct Relocation {
    offset: u32,
    kind: u32,
    target: u32,
    addend: i64,
}

impl Relocation {
    fn read(lent: &Lent, entry: usize) -> Self {
        let [offset, kind, target, _, low, high] = lent.words(Part::Relocations, entry);
        Self {
            offset,
            kind,
            target,
            addend: (u64::from(high) << 32 | u64::from(low)).cast_signed(),
        }
    }

    /// The label that it names, or nothing for a symbol.
    fn label(&self) -> Option<usize> {
        let label = self.target.checked_sub(LABEL_TARGET);
        label.map(|label| label as usize)
    }
}

/// What finish left of a recording, as far as its record counts it.
struct Finished {
    arch: u32,
    labels: Vec<u32>,
    relocations: Vec<Relocation>,
}

impl Finished {
    /// Nothing if the record is lent too short, or counts more than is lent.
    fn read(lent: &Lent) -> Option<Self> {
        if lent.room(Part::Record) == 0 {
            return None;
        }
        let [arch, _, _, _, labels, relocations] = lent.words(Part::Record, 0);
        let (labels, relocations) = (labels as usize, relocations as usize);
        if labels > lent.room(Part::Labels) || relocations > lent.room(Part::Relocations) {
            return None;
        }
        let labels = (0..labels).map(|label| lent.word(Part::Labels, label, 0));
        let relocations = (0..relocations).map(|entry| Relocation::read(lent, entry));
        Some(Self {
            arch,
            labels: labels.collect(),
            relocations: relocations.collect(),
        })
    }

    /// The addend, and the offset of the label that is named.
    fn sum(&self, relocation: &Relocation) -> i128 {
        let offset = relocation.label().map_or(0, |label| self.labels[label]);
        i128::from(relocation.addend) + i128::from(offset)
    }
}

/// Writes the relocations to the ELF entries: the refusal, or 0.
pub fn write(lent: &mut Lent, section: u32) -> Refusal {
    let Some(finished) = Finished::read(lent) else {
        return 1;
    };
    if let Some(refusal) = unwritten(lent, &finished) {
        return refusal;
    }
    for (entry, relocation) in finished.relocations.iter().enumerate() {
        let words = written(&finished, relocation, section);
        lent.set_words(Part::Relas, entry, &words);
    }
    0
}

/// Reads the ELF entries into their table: the refusal, or 0.
pub fn read(lent: &mut Lent) -> Refusal {
    if let Some(refusal) = unread(lent) {
        return refusal;
    }
    for entry in 0..lent.room(Part::Relas) {
        let words = taken_back(lent.words(Part::Relas, entry));
        lent.set_words(Part::Entries, entry, &words);
    }
    0
}

/// Why relocations are not written: the first reason.
fn unwritten(lent: &Lent, finished: &Finished) -> Option<Refusal> {
    unsettled_label(finished)
        .or_else(|| tables_past_limit(lent))
        .or_else(|| foreign_arch(finished))
        .or_else(|| unwritable(finished))
        .or_else(|| short_output(lent, finished))
}

/// "The writer answers 1 to an unknown or unbound label."
fn unsettled_label(finished: &Finished) -> Option<Refusal> {
    let is_settled = |label: usize| finished.labels.get(label).is_some_and(|at| *at != NONE);
    let mut labels = finished.relocations.iter().filter_map(Relocation::label);
    (!labels.all(is_settled)).then_some(1)
}

fn tables_past_limit(lent: &Lent) -> Option<Refusal> {
    let mut tables = [Part::Labels, Part::Relocations].iter();
    let passes = tables.any(|table| passes_limit(lent, *table));
    passes.then_some(3)
}

/// "24 .. architecture outside these lists, .. without any entry too."
fn foreign_arch(finished: &Finished) -> Option<Refusal> {
    let is_foreign = ![X64, AARCH64].contains(&finished.arch);
    is_foreign.then_some(24)
}

/// "Per entry the first two."
fn unwritable(finished: &Finished) -> Option<Refusal> {
    let mut relocations = finished.relocations.iter();
    relocations.find_map(|one| without_type(finished, one).or(past_64_bits(finished, one)))
}

/// "24 a kind .. outside these lists."
fn without_type(finished: &Finished, relocation: &Relocation) -> Option<Refusal> {
    let has_none = elf_type(finished.arch, relocation.kind).is_none();
    has_none.then_some(24)
}

/// "25 the sum leaves signed 64 bits."
fn past_64_bits(finished: &Finished, relocation: &Relocation) -> Option<Refusal> {
    let leaves = i64::try_from(finished.sum(relocation)).is_err();
    leaves.then_some(25)
}

/// "26 the output is short."
fn short_output(lent: &Lent, finished: &Finished) -> Option<Refusal> {
    (lent.room(Part::Relas) < finished.relocations.len()).then_some(26)
}

/// "Symbol numbers go in unchanged. .. A label target becomes the section symbol that the caller names, its offset added to the addend."
fn written(finished: &Finished, relocation: &Relocation, section: u32) -> [u32; 6] {
    let elf_type = elf_type(finished.arch, relocation.kind);
    let elf_type = elf_type.expect("a kind without a type is refused");
    let symbol = match relocation.label() {
        Some(_) => section,
        None => relocation.target,
    };
    let sum = finished.sum(relocation);
    let (low, high) = (sum as u32, (sum >> 32) as u32);
    [relocation.offset, 0, elf_type, symbol, low, high]
}

/// Why entries are not read: the first reason.
fn unread(lent: &Lent) -> Option<Refusal> {
    broken_length(lent)
        .or_else(|| unfit_entry(lent))
        .or_else(|| table_past_limit(lent))
        .or_else(|| short_table(lent))
}

/// "1 to a length that is no multiple of 24."
fn broken_length(lent: &Lent) -> Option<Refusal> {
    let is_whole = lent[Part::Relas].len().is_multiple_of(24);
    (!is_whole).then_some(1)
}

/// "1 to .. an offset past 32 bits or a type in neither list."
fn unfit_entry(lent: &Lent) -> Option<Refusal> {
    let entries = 0..lent.room(Part::Relas);
    let mut entries = entries.map(|entry| lent.words(Part::Relas, entry));
    let is_unfit =
        |[_, high, elf_type]: [u32; 3]| high != 0 || !ELF_TYPES.iter().any(|row| row.2 == elf_type);
    entries.any(is_unfit).then_some(1)
}

fn table_past_limit(lent: &Lent) -> Option<Refusal> {
    passes_limit(lent, Part::Entries).then_some(3)
}

/// "11 where its table is short."
fn short_table(lent: &Lent) -> Option<Refusal> {
    (lent.room(Part::Entries) < lent.room(Part::Relas)).then_some(11)
}

/// "Takes them back to offset, type, symbol and addend", in the form of a relocation's entry.
fn taken_back([offset, _, elf_type, symbol, low, high]: [u32; 6]) -> [u32; 6] {
    [offset, elf_type, symbol, 0, low, high]
}
