//! Relocations as ELF, written and read, on both sides of every limit.

mod read;
mod written;

use compare::model::relas::ELF_TYPES;
use compare::{AARCH64, LABEL_TARGET, Part, Random, X64, X86};

use super::draft::Draft;
use super::mixed;
use crate::scenario::{Scenario, Step};

/// Fewer entries than this are made by hand, but for long tables.
const FEW: u32 = 5;

pub fn scenario(random: &mut Random) -> Scenario {
    match random.below(1_000) {
        0 => written::long(random),
        1 => read::long(random),
        2..250 => finished(random),
        250..650 => written::scenario(random),
        _ => read::scenario(random),
    }
}

/// A recording, its finish, and its relocations written, read and written again.
fn finished(random: &mut Random) -> Scenario {
    let mut draft = Draft::new(random.pick(&[X64, X64, X64, AARCH64, AARCH64, X86]));
    draft.careful = random.chance(90);
    let has_jumps = draft.keeps_events() && random.chance(60);
    for _ in 0..random.between(1, 12) {
        mixed::add_call(&mut draft, random, has_jumps);
    }
    let relocations = 0..random.below(FEW);
    let relocations: Vec<_> = relocations
        .map(|_| relocation(&mut draft, random))
        .collect();
    draft.bind_rest(random, 100);
    let (arch, symbols) = (draft.arch, draft.symbols);
    let mut steps = draft.into_steps();
    let finish = steps.len() - 1;
    steps.splice(finish..finish, relocations);
    steps.extend([Step::WriteRelas(section(random)), Step::WriteAgain]);
    let mut scenario = Scenario::new(arch, symbols, random.number(), steps);
    let relocations = scenario.room.bytes(Part::Relocations);
    for part in [Part::Relas, Part::Entries] {
        scenario.room.set_bytes(part, near(relocations, random));
    }
    scenario
}

/// A direct call, of a kind that mostly has a type.
fn relocation(draft: &mut Draft, random: &mut Random) -> Step {
    let kind = match draft.arch {
        arch @ (X64 | AARCH64) if random.chance(90) => row_of(arch, random).1,
        _ => draft.reloc_kind(random),
    };
    Step::Relocation {
        offset: random.below(draft.offset + 8),
        kind,
        target: draft.reloc_target(random),
        addend: addend(random, draft.offset),
    }
}

/// An architecture, one of its kinds that have a type, and the type.
fn row_of(arch: u32, random: &mut Random) -> (u32, u32, u32) {
    let rows = ELF_TYPES.into_iter().filter(|row| row.0 == arch);
    random.pick(&rows.collect::<Vec<_>>())
}

/// On both sides of where 31, 32 and 63 bits end; 63 with an offset added, too.
fn addend(random: &mut Random, offset: u32) -> i64 {
    if random.chance(30) {
        return random.number().cast_signed() >> random.below(64);
    }
    let limits = [
        0,
        1 << 31,
        -(1 << 31),
        1 << 32,
        -(1 << 32),
        i64::MAX,
        i64::MAX - i64::from(offset),
        i64::MIN,
    ];
    let around = i64::from(random.below(5)) - 2;
    random.pick(&limits).wrapping_add(around)
}

/// The low and the high word of an addend.
pub fn words_of(addend: i64) -> [u32; 2] {
    [addend as u32, (addend >> 32) as u32]
}

/// The number of the section symbol.
fn section(random: &mut Random) -> u32 {
    match random.below(6) {
        0 => 0,
        1 => u32::MAX,
        2 => LABEL_TARGET,
        _ => random.word() >> random.below(32),
    }
}

/// A length in bytes, or now and then one that differs by a byte or an entry.
fn near(bytes: usize, random: &mut Random) -> usize {
    match random.below(10) {
        0 => bytes.saturating_sub(1),
        1 => bytes.saturating_sub(24),
        2 => bytes + 1,
        3 => bytes + 23,
        4 => bytes + 24,
        _ => bytes,
    }
}

/// One of a list, if it has any.
fn any_of<'a, T>(list: &'a mut [T], random: &mut Random) -> Option<&'a mut T> {
    let last = list.len().checked_sub(1)?;
    let at = random.between(0, last as u32) as usize;
    list.get_mut(at)
}

/// Words written by hand from a part's start on.
pub fn write(part: Part, words: &[u32]) -> Step {
    let bytes = words.iter().flat_map(|word| word.to_le_bytes());
    Step::Write {
        part,
        at: 0,
        bytes: bytes.collect(),
    }
}
