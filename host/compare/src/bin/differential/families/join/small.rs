//! Few pieces with a few of everything, of which some is unfit.

use compare::{AARCH64, LABEL_TARGET, NONE, Part, Piece, Random, X64, X86};

use super::handed::Handed;
use super::words_of;

/// Kinds that are filled on X64, where they name a symbol.
const FILLED: [u32; 3] = [2, 3, 4];
/// Kinds that remain, of which some are none.
const REMAINING: [u32; 12] = [0, 1, 1, 5, 6, 8, 9, 19, 27, 28, 4_000, u32::MAX];

pub fn handed(random: &mut Random) -> Handed {
    let arch = random.pick(&[X64, X64, X64, X64, X64, X64, X86, AARCH64]);
    let count = random.pick(&[1, 1, 2, 2, 2, 3, 3, 4, 6]);
    let pieces = (0..count).map(|_| piece(arch, random));
    let mut handed = Handed::new(pieces.collect());
    fill(&mut handed, random);
    if random.chance(35) {
        for _ in 0..random.between(1, 2) {
            spoil(&mut handed, random);
        }
    }
    handed
}

/// Code of any small length, most often beside a multiple.
fn piece(arch: u32, random: &mut Random) -> Piece {
    let length = match random.below(10) {
        0 => 0,
        1 => random.below(9),
        2 if arch == AARCH64 => 4_095 + random.below(3),
        2..=4 => random.pick(&[31, 32, 33, 63, 64, 65]),
        _ => random.below(100),
    };
    let alignment = random.pick(&[32, 32, 32, 64]);
    let mut piece = Piece::new(arch, alignment, random.bytes(length as usize));
    piece.layouts = random.word() >> random.below(32);
    piece
}

/// Labels, definitions and relocations, most of them fit.
pub fn fill(handed: &mut Handed, random: &mut Random) {
    let symbols = symbols(random);
    let (bases, _) = handed.bases();
    for (piece, base) in handed.pieces.iter_mut().zip(&bases) {
        let labels = random.below(4);
        piece.labels = (0..labels)
            .map(|_| label(piece.length(), *base, random))
            .collect();
    }
    define(handed, &symbols, random);
    let most = random.pick(&[1, 2, 5]);
    for number in 0..handed.pieces.len() {
        for _ in 0..random.below(most + 1) {
            let relocation = relocation(handed, number, &bases, &symbols, random);
            handed.pieces[number].relocations.push(relocation);
        }
    }
}

/// The symbols that are there to be named: dense, sparse, around 65,536, or the same by their low bits.
fn symbols(random: &mut Random) -> Vec<u32> {
    let from = match random.below(7) {
        0 => 0,
        1 => 250,
        2 => 65_533,
        3 => LABEL_TARGET - 6,
        4 => {
            let low = random.below(300);
            let high = [0, 1 << 8, 1 << 16, 1 << 24, 1 << 30, LABEL_TARGET];
            return high.map(|high| low + high).to_vec();
        }
        _ => {
            let sparse = (0..6).map(|_| random.word() >> random.between(1, 24));
            return sparse.collect();
        }
    };
    (from..from + 6).collect()
}

/// A label's offset: in its piece, at its end, past it, as far as it can be, or unbound.
fn label(length: u32, base: u64, random: &mut Random) -> u32 {
    match random.below(24) {
        0..4 => NONE,
        4 => length,
        5 => length + random.below(200),
        6 => (4_294_967_293 - base as u32).saturating_add(random.below(4)),
        7 => NONE - 1 - random.below(70),
        8 => random.word(),
        _ => random.below(length + 1),
    }
}

/// Each symbol is defined by at most one piece, but for a few; most by labels that are known and bound.
fn define(handed: &mut Handed, symbols: &[u32], random: &mut Random) {
    let count = handed.pieces.len() as u32;
    for symbol in symbols {
        let times = random.pick(&[0, 1, 1, 1, 1, 1]) + u32::from(random.below(150) == 0);
        for _ in 0..times {
            let piece = &mut handed.pieces[random.below(count) as usize];
            let bound = (0..piece.labels.len()).filter(|label| piece.labels[*label] != NONE);
            let bound: Vec<_> = bound.collect();
            let label = match bound.len() as u32 {
                0 if random.chance(90) => continue,
                labels if labels > 0 && random.chance(94) => {
                    bound[random.below(labels) as usize] as u32
                }
                _ => random.pick(&[piece.labels.len() as u32, 0, 1, 5, LABEL_TARGET, NONE]),
            };
            // From 2^31 on it is no symbol that a relocation can name.
            let high = u32::from(random.below(60) == 0) * LABEL_TARGET;
            piece.definitions.push([symbol.wrapping_add(high), label]);
        }
    }
}

/// Where a symbol stands, if it is defined by a label that is known and bound.
fn address(handed: &Handed, bases: &[u64], symbol: u32) -> Option<u64> {
    let pieces = handed.pieces.iter().zip(bases);
    let mut found = pieces.flat_map(|(piece, base)| {
        let definitions = piece.definitions.iter();
        definitions.filter_map(move |[defined, label]| {
            let offset = piece.labels.get(*label as usize)?;
            (*defined == symbol && *offset != NONE).then(|| base + u64::from(*offset))
        })
    });
    found.next()
}

fn relocation(
    handed: &Handed,
    number: usize,
    bases: &[u64],
    symbols: &[u32],
    random: &mut Random,
) -> [u32; 6] {
    let piece = &handed.pieces[number];
    let labels = piece.labels.len() as u32;
    let kind = match random.below(3) {
        0 => random.pick(&REMAINING),
        _ => random.pick(&FILLED),
    };
    let known = symbols.iter().copied();
    let known: Vec<_> = known
        .filter(|symbol| *symbol < LABEL_TARGET && address(handed, bases, *symbol).is_some())
        .collect();
    let target = match random.below(40) {
        0 => random.pick(symbols) % LABEL_TARGET,
        1 => random.word() >> random.between(1, 8),
        2 if random.chance(20) => LABEL_TARGET + labels,
        3 if random.chance(5) => random.word(),
        3..10 if labels > 0 => LABEL_TARGET + random.below(labels),
        _ if !known.is_empty() => random.pick(&known),
        _ if labels > 0 => LABEL_TARGET + random.below(labels),
        _ => 3,
    };
    let is_filled = super::handed::is_filled(piece.arch, &[0, kind, target, 0, 0, 0]);
    let offset = offset(piece, bases[number], is_filled, random);
    let place = bases[number] + u64::from(offset);
    let apart = address(handed, bases, target).unwrap_or(place);
    let apart = apart.cast_signed() - place.cast_signed();
    let [low, high] = words_of(addend(apart, random));
    [
        offset,
        kind,
        target,
        random.word() >> random.below(33).min(31),
        low,
        high,
    ]
}

/// Where a field stands: within its piece, at its end or past it, over another; as far as it can be, where it remains.
fn offset(piece: &Piece, base: u64, is_filled: bool, random: &mut Random) -> u32 {
    let length = piece.length();
    let last = length.saturating_sub(4);
    let far = u32::MAX - random.below(6);
    match (random.below(30), piece.relocations.last()) {
        (0, _) => last + random.below(3),
        (1, _) if is_filled => random.pick(&[length, far, 1 << 31]),
        (1..5, _) if !is_filled => random.word() >> random.below(32),
        (5..7, _) if !is_filled => (4_294_967_293 - base as u32).saturating_add(random.below(4)),
        (1..14, Some([offset, ..])) => {
            let near = offset.saturating_sub(3).saturating_add(random.below(7));
            near.min(last)
        }
        _ => random.below(last + 1),
    }
}

/// Beside what leads to either end of 32 bits, or of 64; most often small.
fn addend(apart: i64, random: &mut Random) -> i64 {
    let around = i64::from(random.below(5)) - 2;
    match random.below(40) {
        0..3 => i64::from(i32::MAX) - apart + around,
        3..6 => i64::from(i32::MIN) - apart + around,
        6 => random
            .pick(&[i64::MAX, i64::MIN, 1 << 32, -(1 << 32), 1 << 34])
            .wrapping_add(around),
        7 => i64::MIN.wrapping_sub(apart).wrapping_add(around),
        8 => random.number().cast_signed() >> random.below(64),
        _ => around - 4,
    }
}

/// Makes something unfit, or nearly so.
pub fn spoil(handed: &mut Handed, random: &mut Random) {
    let number = random.below(handed.pieces.len() as u32) as usize;
    match random.below(16) {
        0 => handed.pieces[number].arch = random.pick(&[X86, X64, AARCH64, AARCH64, 0, 3, 4, 7]),
        1 => {
            let alignments = [0, 1, 16, 31, 33, 63, 65, 128, 4_096, 1 << 31, u32::MAX];
            handed.pieces[number].alignment = random.pick(&alignments);
        }
        2 => {
            let words = handed.pieces[number].definitions.clone();
            if let Some(definition) = words.first() {
                let other = random.below(handed.pieces.len() as u32) as usize;
                handed.pieces[other].definitions.push(*definition);
            }
        }
        3..=5 => damage(handed, number, random),
        6 => handed.more.push((Part::Pieces, near(28, random))),
        7 => handed.more.push((Part::Code, near(1, random))),
        8 => handed.more.push((Part::Labels, near(4, random))),
        9 => handed.more.push((Part::Relocations, near(24, random))),
        10 => handed.more.push((Part::Definitions, near(8, random))),
        11 | 12 => handed.more.push((Part::Output, near(1, random))),
        13 => handed.more.push((Part::JoinedLabels, near(4, random))),
        14 => handed
            .more
            .push((Part::JoinedRelocations, near(24, random))),
        _ => handed
            .more
            .push((Part::Record, random.pick(&[-24, -1, 1, 24]))),
    }
}

/// A word of a piece's record changed.
fn damage(handed: &mut Handed, piece: usize, random: &mut Random) {
    let counts = [
        0,
        1,
        2,
        65_536,
        65_537,
        16_777_216,
        16_777_217,
        1 << 31,
        u32::MAX,
    ];
    let word = match random.chance(30) {
        true => random.word() >> random.below(32),
        false => random.pick(&counts),
    };
    let number = random.below(7) as usize;
    handed.words.push((piece, number, word));
}

/// So many bytes more or less, or none: about an entry's.
fn near(entry: i64, random: &mut Random) -> i64 {
    random.pick(&[-entry, -1, 1, entry - 1, entry, 10 * entry + 1])
}
