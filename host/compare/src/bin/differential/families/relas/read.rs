//! The reader on ELF entries made by hand.

use compare::model::relas::ELF_TYPES;
use compare::{AARCH64, MOST_ENTRIES, Part, Random, X64};

use super::{FEW, addend, any_of, near, row_of, words_of, write};
use crate::scenario::{Scenario, Step};

/// Types that are in neither list, most of them beside one that is.
const UNLISTED: [u32; 18] = [
    0,
    3,
    5,
    8,
    11,
    18,
    20,
    256,
    259,
    274,
    276,
    278,
    282,
    284,
    513,
    65_537,
    1 << 31,
    u32::MAX,
];

/// Entries that are fit, or some of them spoilt, read and written again.
pub fn scenario(random: &mut Random) -> Scenario {
    let arch = random.pick(&[X64, AARCH64]);
    let relas = 0..random.below(FEW);
    let mut relas: Vec<_> = relas.map(|_| fit_rela(arch, random)).collect();
    let bytes = relas.len() * 24;
    let (mut relas_bytes, mut entries_bytes) = (bytes, bytes);
    match random.below(12) {
        0 | 1 => spoil_rela(&mut relas, random),
        2 => {
            if let Some(words) = any_of(&mut relas, random) {
                (_, _, words[2]) = random.pick(&ELF_TYPES);
            }
        }
        3 => relas_bytes = near(bytes, random),
        4 | 5 => entries_bytes = near(bytes, random),
        6 => {
            relas_bytes = near(bytes, random);
            entries_bytes = near(bytes, random);
            spoil_rela(&mut relas, random);
        }
        7 if random.chance(20) => {
            entries_bytes = (MOST_ENTRIES + 1) * 24;
            if random.chance(50) {
                spoil_rela(&mut relas, random);
            }
        }
        _ => {}
    }
    let steps = vec![write(Part::Relas, relas.as_flattened()), Step::WriteAgain];
    let mut scenario = Scenario::new(X64, 0, random.number(), steps);
    let relocations_bytes = near(bytes, random);
    let room = &mut scenario.room;
    room.set_bytes(Part::Relas, relas_bytes);
    room.set_bytes(Part::Entries, entries_bytes);
    room.set_bytes(Part::Relocations, relocations_bytes);
    scenario
}

/// As many entries as a table may have, or more.
pub fn long(random: &mut Random) -> Scenario {
    let past = random.below(3) as usize;
    let relas = 0..MOST_ENTRIES + past;
    let relas: Vec<_> = relas.map(|_| fit_rela(X64, random)).collect();
    let steps = vec![write(Part::Relas, relas.as_flattened()), Step::ReadRelas];
    let mut scenario = Scenario::new(X64, 0, random.number(), steps);
    let room_past = random.pick(&[0, 0, 1]);
    let room = &mut scenario.room;
    room.set(Part::Relas, relas.len());
    room.set(Part::Entries, MOST_ENTRIES + room_past);
    scenario
}

/// Most symbols are below 2^31, so that the entry can be written again.
fn fit_rela(arch: u32, random: &mut Random) -> [u32; 6] {
    let (_, _, elf_type) = row_of(arch, random);
    let symbol = random.word() >> random.pick(&[0, 1, 1, 1, 28]);
    let [low, high] = words_of(addend(random, 0));
    [random.word(), 0, elf_type, symbol, low, high]
}

fn spoil_rela(relas: &mut [[u32; 6]], random: &mut Random) {
    if let Some(words) = any_of(relas, random) {
        match random.below(2) {
            0 => words[1] = 1 << random.below(32),
            _ => words[2] = random.pick(&UNLISTED),
        }
    }
}
