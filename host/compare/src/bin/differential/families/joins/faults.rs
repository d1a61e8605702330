//! A join that is fit, with faults: every two of them, and so each alone, and every three of those that are small.

use compare::{AARCH64, LABEL_TARGET, MOST_CODE, MOST_ENTRIES, NONE, Part, Vast, X86};

use super::{fit, relocation};
use crate::families::digits::Digits;
use crate::families::join::Handed;

type Fault = fn(&mut Handed);

/// The number that each fault is answered by where it is alone, and the fault. Those of 0 change something that is no fault, or nothing. The last are
/// large.
const FAULTS: [(u32, Fault); SMALL + 2] = [
    (0, |_| {}),
    // 1: the record, what is lent, a label that is unknown.
    (1, |handed| handed.more.push((Part::Record, -1))),
    (1, |handed| handed.pieces[1].arch = 3),
    (1, |handed| handed.pieces[0].alignment = 16),
    (1, |handed| handed.more.push((Part::Code, -1))),
    (1, |handed| handed.more.push((Part::Labels, -1))),
    (1, |handed| handed.more.push((Part::Relocations, -1))),
    (1, |handed| handed.more.push((Part::Definitions, -1))),
    (1, |handed| {
        let target = LABEL_TARGET + handed.pieces[0].labels.len() as u32;
        handed.pieces[0]
            .relocations
            .push(relocation(0, 1, target, 0));
    }),
    (1, |handed| {
        handed.pieces[2].relocations.push(relocation(0, 2, NONE, 0));
    }),
    // 3: a piece above a limit. What is lent is as long.
    (3, |handed| {
        handed.words.push((1, 1, MOST_CODE as u32 + 1));
        handed.is_vast = Vast::Code;
    }),
    (3, |handed| {
        handed.words.push((0, 1, MOST_CODE as u32 + 1));
        handed.is_vast = Vast::Code;
    }),
    // 27.
    (27, |handed| handed.pieces[0].arch = X86),
    (27, |handed| handed.pieces[1].arch = AARCH64),
    // 28: in one piece, in two; for one label; by labels that are unfit.
    (28, |handed| handed.pieces[0].definitions.push([8, 1])),
    (28, |handed| handed.pieces[0].definitions.insert(0, [7, 0])),
    (28, |handed| handed.pieces[1].definitions.push([8, 0])),
    (28, |handed| {
        handed.pieces[1]
            .definitions
            .extend([[70_000, 9], [70_000, 0]]);
    }),
    (28, |handed| {
        handed.pieces[0].definitions.push([NONE, 5]);
        handed.pieces[1].definitions.push([NONE, 5]);
    }),
    // 29: no definition; an unbound label, one past the piece's.
    (29, |handed| {
        handed.pieces[0].relocations.push(relocation(0, 4, 6, 0));
    }),
    (29, |handed| {
        handed.pieces[1]
            .relocations
            .insert(0, relocation(0, 2, 80_000, 0));
    }),
    (29, |handed| handed.pieces[1].labels[1] = NONE),
    (29, |handed| handed.pieces[0].definitions[0][1] = 2),
    (29, |handed| {
        let relocation = relocation(0, 3, LABEL_TARGET - 1, 0);
        handed.pieces[1].relocations.push(relocation);
        handed.pieces[0].definitions.push([NONE, 0]);
    }),
    // 11.
    (11, |handed| handed.more.push((Part::JoinedLabels, -1))),
    (11, |handed| handed.more.push((Part::JoinedRelocations, -1))),
    // 17.
    (17, |handed| handed.pieces[0].relocations[0][0] = 6),
    (17, |handed| handed.pieces[1].relocations[0][0] = 4),
    (17, |handed| {
        let relocation = relocation(u32::MAX - 1, 4, 7, 0);
        handed.pieces[0].relocations.push(relocation);
    }),
    // 18: both sides; an addend that would wrap.
    (18, |handed| add_to(handed, 0, 1 << 31)),
    (18, |handed| add_to(handed, 1, -(1 << 31))),
    (18, |handed| add_to(handed, 0, i64::MAX)),
    // 23: a short output, a label, a relocation that remains.
    (23, |handed| handed.more.push((Part::Output, -1))),
    (23, |handed| handed.pieces[1].labels.push(NONE - 64)),
    (23, |handed| {
        handed.pieces[1]
            .relocations
            .push(relocation(NONE - 64, 5, 1, 0));
    }),
    // No faults: what nobody needs, what lies past the piece's end and remains, what is lent beyond what is needed.
    (0, |handed| handed.pieces[1].definitions.push([9, 77])),
    (0, |handed| handed.pieces[1].definitions.push([10, 0])),
    (0, |handed| handed.pieces[1].labels.push(NONE - 65)),
    (0, |handed| {
        handed.pieces[1]
            .relocations
            .push(relocation(NONE - 65, 4_000, 1, 0));
    }),
    (0, |handed| handed.more.push((Part::Pieces, 27))),
    (0, |handed| handed.more.push((Part::Output, 5))),
    (0, |handed| handed.more.push((Part::JoinedRelocations, 30))),
    (0, |handed| handed.more.push((Part::Code, 3))),
    // 3 again.
    (3, |handed| {
        handed.pieces[1].labels.resize(MOST_ENTRIES + 1, 0)
    }),
    (3, |handed| {
        let definitions = (0..=MOST_ENTRIES as u32).map(|symbol| [symbol + 1_000, 0]);
        handed.pieces[1].definitions.extend(definitions);
    }),
];

/// How many of them are small.
const SMALL: usize = 43;

/// The number of twos, and of threes, in every order.
pub const PAIRS: u64 = FAULTS.len().pow(2) as u64;
pub const TRIPLES: u64 = SMALL.pow(3) as u64;

/// Adds to the addend of a piece's first relocation.
fn add_to(handed: &mut Handed, piece: usize, more: i64) {
    let words = &mut handed.pieces[piece].relocations[0];
    let addend = (u64::from(words[5]) << 32 | u64::from(words[4])).cast_signed();
    *words = relocation(words[0], words[1], words[2], addend.wrapping_add(more));
}

pub fn two(digits: &mut Digits) -> Handed {
    let mut handed = fit();
    for _ in 0..2 {
        digits.pick(&FAULTS).1(&mut handed);
    }
    handed
}

pub fn three(digits: &mut Digits) -> Handed {
    let mut handed = fit();
    for _ in 0..3 {
        digits.pick(&FAULTS[..SMALL]).1(&mut handed);
    }
    handed
}

/// Each fault alone, with the number that it is answered by.
pub fn alone() -> impl Iterator<Item = (u32, Handed)> {
    FAULTS.into_iter().map(|(number, fault)| {
        let mut handed = fit();
        fault(&mut handed);
        (number, handed)
    })
}
