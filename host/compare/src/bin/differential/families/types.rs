//! Relocations as ELF, all of a few forms: one of every kind on every architecture, and two of every fault; an entry of every type, two of every
//! fault, and every small length.

use compare::{AARCH64, LABEL_TARGET, MOST_ENTRIES, NONE, Part, X64, X86};

use super::digits::{self, Digits};
use super::relas::{words_of, write};
use crate::scenario::{Scenario, Step};

const KINDS: u64 = 30;
const MORE_KINDS: [u32; 4] = [255, 256, 257, u32::MAX];
const ARCHS: u64 = 9;
const MORE_ARCHS: [u32; 4] = [258, 262, LABEL_TARGET + 2, u32::MAX];
/// Label 0 is bound at 1, label 1 is not, and there are no others.
const TARGETS: [u32; 6] = [
    0,
    LABEL_TARGET - 1,
    LABEL_TARGET,
    LABEL_TARGET + 1,
    LABEL_TARGET + 2,
    u32::MAX,
];
const ADDENDS: [i64; 5] = [0, -1, i64::MAX - 1, i64::MAX, i64::MIN];
/// Bytes of output: one short, just enough, one more.
const OUTPUTS: [usize; 3] = [23, 24, 25];
const WRITTEN: u64 = (KINDS + MORE_KINDS.len() as u64)
    * (ARCHS + MORE_ARCHS.len() as u64)
    * (TARGETS.len() * ADDENDS.len() * OUTPUTS.len()) as u64
    * 2;

/// Kinds with a type and without.
const PAIR_KINDS: [u32; 2] = [1, 7];
/// A symbol, the bound label with a sum that fits and with one that does not, the unbound label, an unknown one.
const PAIR_TARGETS: [(u32, i64); 5] = [
    (3, 0),
    (LABEL_TARGET, 0),
    (LABEL_TARGET, i64::MAX),
    (LABEL_TARGET + 1, 0),
    (LABEL_TARGET + 2, 0),
];
const PAIR_ARCHS: [u32; 3] = [X86, X64, AARCH64];
/// Bytes of output, or of a table that two entries are read into.
const PAIR_ROOMS: [usize; 4] = [0, 24, 47, 48];
/// Entries of the labels: those there are, or too many.
const LABELS: [usize; 2] = [2, MOST_ENTRIES + 1];
const WRITTEN_PAIRS: u64 = (PAIR_KINDS.len() * PAIR_TARGETS.len()).pow(2) as u64
    * (PAIR_ARCHS.len() * PAIR_ROOMS.len() * LABELS.len()) as u64;

const TYPES: u64 = 301;
const MORE_TYPES: [u32; 5] = [513, 65_537, 1 << 24, 1 << 31, u32::MAX];
/// Bytes of the table: none, and around one entry.
const TABLES: [usize; 4] = [0, 23, 24, 25];
const READ_TYPES: u64 = (TYPES + MORE_TYPES.len() as u64) * TABLES.len() as u64;

/// Bits of an offset's high word.
const READ_OFFSETS: u64 = 32 * TABLES.len() as u64;

/// An entry that is fit, one with a type in neither list, one with an offset past 32 bits.
const PAIR_RELAS: [[u32; 6]; 3] = [[1, 0, 1, 3, 0, 0], [1, 0, 3, 3, 0, 0], [1, 1, 1, 3, 0, 0]];
/// Bytes of two entries, or one less.
const PAIR_LENGTHS: [usize; 2] = [48, 47];
/// Bytes of a table that is too long.
const LONG_TABLE: usize = (MOST_ENTRIES + 1) * 24;
const READ_PAIRS: u64 =
    (PAIR_RELAS.len().pow(2) * PAIR_LENGTHS.len() * (PAIR_ROOMS.len() + 1)) as u64;

const LENGTHS: u64 = 74;
const ROOMS: u64 = 4;
/// Bytes of the table past its last entry.
const REMAINDERS: [usize; 2] = [0, 23];
const READ_LENGTHS: u64 = LENGTHS * ROOMS * REMAINDERS.len() as u64;

/// The number of all inputs.
pub fn total() -> u64 {
    WRITTEN + WRITTEN_PAIRS + READ_TYPES + READ_OFFSETS + READ_PAIRS + READ_LENGTHS
}

/// Every input has a number below [`total`].
pub fn scenario(number: u64) -> Scenario {
    let mut scenario = of_number(number);
    scenario.noise = number;
    scenario
}

fn of_number(number: u64) -> Scenario {
    digits::of_number(
        number,
        &[
            (WRITTEN, written),
            (WRITTEN_PAIRS, written_pair),
            (READ_TYPES, read_type),
            (READ_OFFSETS, read_offset),
            (READ_PAIRS, read_pair),
            (READ_LENGTHS, read_length),
        ],
    )
}

/// One relocation, which is counted or not, written and read.
fn written(digits: &mut Digits) -> Scenario {
    let count = digits.below(2) as u32;
    let output = digits.pick(&OUTPUTS);
    let addend = digits.pick(&ADDENDS);
    let target = digits.pick(&TARGETS);
    let arch = digits.below_or(ARCHS, &MORE_ARCHS);
    let kind = digits.below_or(KINDS, &MORE_KINDS);
    write_relocations(arch, count, &[relocation(kind, (target, addend))], output)
}

/// Two relocations, and labels within their limit or not.
fn written_pair(digits: &mut Digits) -> Scenario {
    let output = digits.pick(&PAIR_ROOMS);
    let labels = digits.pick(&LABELS);
    let arch = digits.pick(&PAIR_ARCHS);
    let relocations = [(); 2].map(|()| {
        let kind = digits.pick(&PAIR_KINDS);
        relocation(kind, digits.pick(&PAIR_TARGETS))
    });
    let mut scenario = write_relocations(arch, 2, &relocations, output);
    scenario.room.set(Part::Labels, labels);
    scenario
}

fn relocation(kind: u32, (target, addend): (u32, i64)) -> [u32; 6] {
    let [low, high] = words_of(addend);
    [1, kind, target, 0, low, high]
}

/// Relocations of which some are counted, written to so many bytes, read and written again.
fn write_relocations(arch: u32, count: u32, relocations: &[[u32; 6]], output: usize) -> Scenario {
    let steps = vec![
        write(Part::Record, &[arch, 0, 0, 0, 2, count]),
        write(Part::Labels, &[1, NONE]),
        write(Part::Relocations, relocations.as_flattened()),
        Step::WriteRelas(7),
        Step::WriteAgain,
    ];
    let mut scenario = Scenario::new(X64, 0, 0, steps);
    scenario.room.set(Part::Labels, 2);
    scenario.room.set(Part::Relocations, relocations.len());
    scenario.room.set_bytes(Part::Relas, output);
    scenario.room.set(Part::Entries, relocations.len());
    scenario
}

/// ELF entries, read into a table of so many bytes and written again.
fn read(words: &[u32], relas_bytes: usize, entries_bytes: usize) -> Scenario {
    let steps = vec![write(Part::Relas, words), Step::WriteAgain];
    let mut scenario = Scenario::new(X64, 0, 0, steps);
    scenario.room.set_bytes(Part::Relas, relas_bytes);
    scenario.room.set_bytes(Part::Entries, entries_bytes);
    scenario.room.set_bytes(Part::Relocations, relas_bytes);
    scenario
}

fn read_type(digits: &mut Digits) -> Scenario {
    let table = digits.pick(&TABLES);
    let elf_type = digits.below_or(TYPES, &MORE_TYPES);
    read(&[5, 0, elf_type, 3, 1, 0], 24, table)
}

fn read_offset(digits: &mut Digits) -> Scenario {
    let table = digits.pick(&TABLES);
    let high = 1 << digits.below(32);
    read(&[5, high, 1, 3, 1, 0], 24, table)
}

fn read_pair(digits: &mut Digits) -> Scenario {
    let table = match digits.below(PAIR_ROOMS.len() as u64 + 1) {
        0 => LONG_TABLE,
        room => PAIR_ROOMS[room as usize - 1],
    };
    let length = digits.pick(&PAIR_LENGTHS);
    let relas = [(); 2].map(|()| digits.pick(&PAIR_RELAS));
    read(relas.as_flattened(), length, table)
}

/// Entries of both lists, of which the length has some.
fn read_length(digits: &mut Digits) -> Scenario {
    const WORDS: [[u32; 6]; 4] = [
        [0, 0, 4, 0, 0, 0],
        [u32::MAX, 0, 283, u32::MAX, u32::MAX, u32::MAX],
        [1, 0, 19, 2, 0, 1 << 31],
        [1, 0, 1, 1, 1, 1],
    ];
    let room = digits.below(ROOMS) as usize * 24;
    let table = room + digits.pick(&REMAINDERS);
    let length = digits.below(LENGTHS) as usize;
    read(WORDS.as_flattened(), length, table)
}
