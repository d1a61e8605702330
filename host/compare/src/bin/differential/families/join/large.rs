//! As many pieces, bytes or entries as there may be, and more.

use compare::{AARCH64, LABEL_TARGET, MOST_CODE, MOST_ENTRIES, NONE, Part, Piece, Random, X64};

use super::handed::Handed;
use super::{small, words_of};

/// 255 to 257 pieces, each with little in it.
pub fn many(random: &mut Random) -> Handed {
    let arch = random.pick(&[X64, X64, AARCH64]);
    let count = random.pick(&[255, 256, 256, 256, 257]);
    let longest = random.pick(&[1, 8, 40]);
    let pieces = (0..count).map(|number: u32| {
        let length = random.below(longest + 1) as usize;
        let alignment = random.pick(&[32, 64]);
        let mut piece = Piece::new(arch, alignment, random.bytes(length));
        piece.labels = vec![random.below(length as u32 + 1)];
        piece.definitions = vec![[number, 0]];
        let target = match random.below(3) {
            0 => LABEL_TARGET,
            _ => random.below(count),
        };
        if length >= 4 {
            piece.relocations = vec![[length as u32 - 4, 3, target, 0, 0, 0]];
        }
        piece
    });
    let mut handed = Handed::new(pieces.collect());
    if random.chance(30) {
        small::spoil(&mut handed, random);
    }
    handed
}

/// A piece of 16 MiB, or one of two that come to more.
pub fn code(random: &mut Random) -> Handed {
    let past = random.pick(&[0, 0, 1]);
    let mut first = Piece::new(X64, 32, vec![0x5A; MOST_CODE + past]);
    first.labels = vec![MOST_CODE as u32];
    first.definitions = vec![[1, 0]];
    first.relocations = vec![[MOST_CODE as u32 - 4, 2, 1, 0, 0, 0]];
    let mut second = Piece::new(X64, 64, vec![0xA5; 100]);
    second.relocations = vec![[random.pick(&[96, 97]), 2, 1, 0, 0, 0]];
    Handed::new(vec![first, second])
}

/// A table with as many entries as it may have, or one more; or two of them.
pub fn table(random: &mut Random) -> Handed {
    let past = random.pick(&[0, 0, 1]);
    let count = MOST_ENTRIES as u32 + past;
    let mut first = Piece::new(X64, 32, random.bytes(16));
    first.labels = vec![0, 16, NONE];
    let mut second = first.clone();
    let which = random.below(3);
    for (piece, from) in [(&mut first, 0), (&mut second, count)] {
        if from > 0 && random.chance(40) {
            break;
        }
        match which {
            0 => piece.labels.resize(count as usize, 3),
            1 => {
                let stride = random.pick(&[1, 3, 70_001]);
                let symbols = (from..from + count).map(|number| number.wrapping_mul(stride));
                piece.definitions = symbols.map(|symbol| [symbol, symbol % 2]).collect();
            }
            _ => {
                let [low, high] = words_of(-4);
                let relocations = (0..count).map(|number| {
                    let target = random.pick(&[0, 1, LABEL_TARGET + 1]);
                    [number % 13, 1 + number % 4, target, 0, low, high]
                });
                piece.relocations = relocations.collect();
            }
        }
    }
    if which == 1 {
        // The first and the last, or one that is not there, or one twice.
        let named = [[0, 2, 0, 0, 0, 0], [4, 3, count - 1, 0, 0, 0]];
        first.relocations = named.to_vec();
        if random.chance(20) {
            second.definitions.truncate(10);
            second.definitions.push([random.below(3), 0]);
        }
    } else {
        first.definitions = vec![[0, 0]];
        second.definitions = vec![[1, 1]];
    }
    let mut handed = Handed::new(vec![first, second]);
    if random.chance(20) {
        handed.more.push((Part::JoinedRelocations, -1));
    }
    handed
}
