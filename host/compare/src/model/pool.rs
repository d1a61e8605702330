//! The recording as finish gets it, its constants pooled.

use super::Refusal;
use super::calls::{JUMP, padding_bytes};
use super::ceilings::{DEFAULT_CEILING, spent};
use super::counts::Counts;
use crate::{LABEL_TARGET, Lent, MOST_CODE, NONE, Part, X64};

/// A jump with its condition, or an alignment.
#[derive(Clone, Copy)]
pub enum Event {
    Jump {
        start: u32,
        length: u32,
        label: u32,
        condition: u32,
    },
    Align {
        start: u32,
        length: u32,
        multiple: u32,
        /// Its ceiling.
        most: u32,
    },
}

impl Event {
    fn read([kind, start, length, what, how]: [u32; 5]) -> Self {
        if kind == JUMP {
            return Self::Jump {
                start,
                length,
                label: what,
                condition: how,
            };
        }
        Self::Align {
            start,
            length,
            multiple: what,
            most: how,
        }
    }

    pub fn start(&self) -> u32 {
        match self {
            Self::Jump { start, .. } | Self::Align { start, .. } => *start,
        }
    }

    pub fn end(&self) -> u32 {
        match self {
            Self::Jump { start, length, .. } | Self::Align { start, length, .. } => start + length,
        }
    }
}

/// A use, or a ref with its addend.
#[derive(Clone, Copy)]
pub struct Field {
    pub offset: u32,
    pub label: u32,
    pub code: u32,
    pub addend: i32,
}

/// What finish reads of a relocation.
pub struct Relocation {
    pub offset: u32,
    /// A symbol, or a label plus 2^31.
    target: u32,
}

/// A constant in the pool.
pub struct Constant {
    pub offset: u32,
    pub bytes: Vec<u8>,
}

/// Everything that finish works on.
pub struct Pooled {
    pub arch: u32,
    /// With zeros where constants go.
    pub code: Vec<u8>,
    pub events: Vec<Event>,
    pub labels: Vec<u32>,
    pub uses: Vec<Field>,
    pub refs: Vec<Field>,
    pub relocations: Vec<Relocation>,
    pub pool: Vec<Constant>,
}

impl Pooled {
    /// Reads tables whose entries fit, and pools the constants in the order of asking. 13: a constant's label is bound; 14: the code is too long.
    pub fn new(lent: &Lent, counts: &Counts) -> Result<Self, Refusal> {
        let mut pooled = Self::read(lent, counts);
        let asked = 0..counts.of(Part::Asked);
        let asked = asked.map(|entry| lent.word(Part::Asked, entry, 0) as usize);
        let constants: Vec<_> = asked
            .map(|constant| read_constant(lent, constant))
            .collect();
        let is_bound = |label: u32| pooled.labels[label as usize] != NONE;
        if constants.iter().any(|(label, _)| is_bound(*label)) {
            return Err(13);
        }
        for (label, bytes) in constants {
            pooled.add(label, bytes);
        }
        if pooled.code.len() > MOST_CODE {
            return Err(14);
        }
        Ok(pooled)
    }

    fn read(lent: &Lent, counts: &Counts) -> Self {
        let entries = |table: Part| 0..counts.of(table);
        let events = entries(Part::Events).map(|i| Event::read(lent.words(Part::Events, i)));
        let labels = entries(Part::Labels).map(|i| lent.word(Part::Labels, i, 0));
        let uses = entries(Part::Uses).map(|i| {
            let [offset, label, code] = lent.words(Part::Uses, i);
            read_field([offset, label, code, 0])
        });
        let refs = entries(Part::Refs).map(|i| read_field(lent.words(Part::Refs, i)));
        let relocations = entries(Part::Relocations).map(|i| {
            let [offset, _, target] = lent.words(Part::Relocations, i);
            Relocation { offset, target }
        });
        Self {
            arch: counts.arch,
            code: lent[Part::Code][..counts.of(Part::Code)].to_vec(),
            events: events.collect(),
            labels: labels.collect(),
            uses: uses.collect(),
            refs: refs.collect(),
            relocations: relocations.collect(),
            pool: Vec::new(),
        }
    }

    /// Aligns the end of the code for a constant, binds its label there, and leaves room for its bytes.
    fn add(&mut self, label: u32, bytes: Vec<u8>) {
        let start = self.code.len() as u32;
        let multiple = multiple_of(bytes.len());
        let length = spent(start, multiple, DEFAULT_CEILING);
        if self.arch == X64 {
            self.events.push(Event::Align {
                start,
                length,
                multiple,
                most: DEFAULT_CEILING,
            });
        }
        let offset = start + length;
        self.code.extend(padding_bytes(self.arch, length));
        self.code.extend(vec![0; bytes.len()]);
        self.labels[label as usize] = offset;
        self.pool.push(Constant { offset, bytes });
    }

    pub fn has_jump(&self) -> bool {
        let is_jump = |event: &Event| matches!(event, Event::Jump { .. });
        self.events.iter().any(is_jump)
    }

    /// "The greater of 32 and the largest alignment among pooled constants."
    pub fn alignment(&self) -> u32 {
        let sizes = self.pool.iter().map(|constant| constant.bytes.len());
        sizes.map(multiple_of).fold(32, u32::max)
    }

    /// An entry names a label that is not bound.
    pub fn is_open(&self) -> bool {
        let uses_and_refs = self.uses.iter().chain(&self.refs);
        let targets = self.relocations.iter().map(|relocation| relocation.target);
        let jumps = self.events.iter().filter_map(|event| match event {
            Event::Jump { label, .. } => Some(*label),
            Event::Align { .. } => None,
        });
        uses_and_refs
            .map(|field| field.label)
            .chain(targets.filter_map(|target| target.checked_sub(LABEL_TARGET)))
            .chain(jumps)
            .any(|label| self.labels[label as usize] == NONE)
    }
}

/// "A constant of more than 32 bytes stands on a multiple of 64, the others as before."
fn multiple_of(size: usize) -> u32 {
    match size {
        0..=8 => 8,
        9..=32 => 16,
        _ => 64,
    }
}

fn read_field([offset, label, code, addend]: [u32; 4]) -> Field {
    Field {
        offset,
        label,
        code,
        addend: addend.cast_signed(),
    }
}

/// A constant's label and bytes.
fn read_constant(lent: &Lent, constant: usize) -> (u32, Vec<u8>) {
    let [size, label] = lent.words(Part::Constants, constant);
    let at = constant * Part::Constants.entry_bytes() + 8;
    let bytes = &lent[Part::Constants][at..][..size as usize];
    (label, bytes.to_vec())
}
