//! All small joins: the layout of one to three pieces, one relocation with every target, definitions everywhere, fields that overlap, every length
//! lent; and one join with every fault, every two and every three of them.

mod faults;

use compare::{AARCH64, LABEL_TARGET, NONE, Part, Piece, X64, X86};

use super::digits::{self, Digits};
use super::join::{Handed, words_of};
use crate::scenario::Scenario;
pub use faults::alone;

const ALIGNMENTS: [u32; 2] = [32, 64];
const ARCHS: [u32; 3] = [X64, X86, AARCH64];

/// Lengths of a piece.
const LENGTHS: [usize; 2] = [5, 33];
/// Labels of a piece.
const LABELS: [&[u32]; 4] = [&[], &[0], &[NONE], &[7, 3]];
/// Definitions of a piece.
const DEFINITIONS: [&[[u32; 2]]; 4] = [&[], &[[0, 0]], &[[1, 0]], &[[0, 1]]];
const OFFSETS: [u32; 3] = [1, 2, 29];
const KINDS: [u32; 4] = [1, 2, 3, 4];
const TARGETS: [u32; 4] = [0, 1, LABEL_TARGET, LABEL_TARGET + 1];
const TARGETED: u64 = (ARCHS.len()
    * (LENGTHS.len() * LABELS.len() * DEFINITIONS.len()).pow(2)
    * OFFSETS.len()
    * KINDS.len()
    * TARGETS.len()) as u64;

/// Lengths of three pieces.
const LAID: [usize; 6] = [0, 1, 32, 33, 64, 65];
const LAYOUTS: u64 = (ARCHS.len() * (ALIGNMENTS.len() * LAID.len()).pow(3) * 9) as u64;

/// Two fields in ten bytes, against two labels.
const OVERLAPS: u64 = 8 * 8 * 2 * 2 * 3;

/// The parts that a join is lent, each of every length up to this many bytes more than is needed.
const LENT: [Part; 9] = [
    Part::Pieces,
    Part::Code,
    Part::Labels,
    Part::Relocations,
    Part::Definitions,
    Part::Output,
    Part::JoinedLabels,
    Part::JoinedRelocations,
    Part::Record,
];
const MORE: i64 = 30;
const MOST: u64 = 180;
const ROOMS: u64 = LENT.len() as u64 * MOST;

/// Alignments and architectures that occur or do not.
const ODD_ALIGNMENTS: [u32; 14] = [
    0,
    1,
    16,
    31,
    32,
    33,
    48,
    63,
    64,
    65,
    128,
    4_096,
    1 << 31,
    u32::MAX,
];
const ODD_ARCHS: [u32; 11] = [0, 1, 2, 3, 4, 5, 6, 7, 8, 258, u32::MAX];
const RECORDS: u64 = (ODD_ALIGNMENTS.len().pow(2) + ODD_ARCHS.len().pow(2)) as u64;

/// The number of all inputs.
pub fn total() -> u64 {
    TARGETED + LAYOUTS + OVERLAPS + ROOMS + RECORDS + faults::PAIRS + faults::TRIPLES
}

/// Every input has a number below [`total`].
pub fn scenario(number: u64) -> Scenario {
    of_number(number).into_scenario(number)
}

fn of_number(number: u64) -> Handed {
    digits::of_number(
        number,
        &[
            (TARGETED, targeted),
            (LAYOUTS, laid_out),
            (OVERLAPS, overlapping),
            (ROOMS, lent),
            (RECORDS, odd_record),
            (faults::PAIRS, faults::two),
            (faults::TRIPLES, faults::three),
        ],
    )
}

/// Bytes that tell where they came from.
fn code(length: usize, first: u8) -> Vec<u8> {
    (0..length).map(|at| first.wrapping_add(at as u8)).collect()
}

fn relocation(offset: u32, kind: u32, target: u32, addend: i64) -> [u32; 6] {
    let [low, high] = words_of(addend);
    [offset, kind, target, 9, low, high]
}

/// Two pieces, and a relocation of the second, or of the first.
fn targeted(digits: &mut Digits) -> Handed {
    let arch = digits.pick(&ARCHS);
    let mut pieces = [0x10, 0x80].map(|first| {
        let length = digits.pick(&LENGTHS);
        let mut piece = Piece::new(arch, 32, code(length, first));
        piece.labels = digits.pick(&LABELS).to_vec();
        piece.definitions = digits.pick(&DEFINITIONS).to_vec();
        piece
    });
    let offset = digits.pick(&OFFSETS);
    let kind = digits.pick(&KINDS);
    let target = digits.pick(&TARGETS);
    let addend = i64::from(kind) - 4;
    let of = offset as usize % 2;
    pieces[of].relocations = vec![relocation(offset, kind, target, addend)];
    Handed::new(pieces.to_vec())
}

/// Three pieces, and a call from one to another.
fn laid_out(digits: &mut Digits) -> Handed {
    let arch = digits.pick(&ARCHS);
    let mut pieces = [0x10, 0x60, 0xB0].map(|first| {
        let alignment = digits.pick(&ALIGNMENTS);
        let length = digits.pick(&LAID);
        let mut piece = Piece::new(arch, alignment, code(length, first));
        piece.layouts = length as u32;
        piece.labels = vec![length as u32 / 2, NONE, length as u32];
        piece
    });
    let (from, to) = (digits.below(3) as usize, digits.below(3) as usize);
    let offset = pieces[from].length().saturating_sub(4);
    pieces[from].relocations = vec![
        relocation(offset, 3, 5, -4),
        relocation(offset, 1, LABEL_TARGET + 2, 8),
        relocation(offset, 0, 5, 1),
    ];
    pieces[to].definitions = vec![[5, 2]];
    Handed::new(pieces.to_vec())
}

/// Two fields, of which the later is to stand over the earlier.
fn overlapping(digits: &mut Digits) -> Handed {
    let kind = digits.pick(&[2, 3, 4]);
    let mut piece = Piece::new(X64, 32, code(10, 0x40));
    piece.labels = vec![0x1234_5678, 0x0BCD_EF01];
    piece.definitions = vec![[0, 0], [1, 1]];
    for _ in 0..2 {
        let offset = digits.below(8) as u32;
        let symbol = digits.below(2) as u32;
        piece.relocations.push(relocation(offset, kind, symbol, 0));
    }
    Handed::new(vec![piece])
}

/// Three pieces that are joined, with a relocation of each sort.
pub fn fit() -> Handed {
    let mut first = Piece::new(X64, 32, code(9, 0x10));
    first.layouts = 3;
    first.labels = vec![2, 9];
    first.relocations = vec![
        relocation(1, 3, 7, -4),
        relocation(5, 1, 8, 0x1_2345_6789),
        relocation(5, 2, LABEL_TARGET + 1, 2),
    ];
    first.definitions = vec![[8, 1]];
    let mut second = Piece::new(X64, 64, code(7, 0x90));
    second.layouts = 2;
    second.labels = vec![NONE, 5];
    second.relocations = vec![relocation(2, 2, 8, 1), relocation(0, 9, LABEL_TARGET, -1)];
    second.definitions = vec![[7, 1]];
    let mut third = Piece::new(X64, 32, code(5, 0xE8));
    third.labels = vec![1];
    third.relocations = vec![relocation(1, 4, 7, -4)];
    Handed::new(vec![first, second, third])
}

/// One part of what is lent, of every length.
fn lent(digits: &mut Digits) -> Handed {
    let part = digits.pick(&LENT);
    let more = MORE - digits.below(MOST) as i64;
    let mut handed = fit();
    handed.more.push((part, more));
    handed
}

/// Two records, of which one or both can't occur, and one that does.
fn odd_record(digits: &mut Digits) -> Handed {
    let mut handed = fit();
    if digits.0 < ODD_ALIGNMENTS.len().pow(2) as u64 {
        for piece in &mut handed.pieces[..2] {
            piece.alignment = digits.pick(&ODD_ALIGNMENTS);
        }
    } else {
        digits.0 -= ODD_ALIGNMENTS.len().pow(2) as u64;
        for piece in &mut handed.pieces[..2] {
            piece.arch = digits.pick(&ODD_ARCHS);
        }
    }
    // So that what ours would write if it took them is no more than is lent.
    handed.more.push((Part::Output, 8_192));
    handed.more.push((Part::JoinedRelocations, 240));
    handed
}
