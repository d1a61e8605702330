//! Pieces that come to more than 32 bits, all of which are refused.

use compare::{AARCH64, MOST_CODE, NONE, Part, Piece, Random, Vast, X64};

use super::handed::Handed;
use super::words_of;

/// Pieces of 16 MiB or little less, as many as there may be or a few less.
pub fn handed(random: &mut Random) -> Handed {
    let arch = random.pick(&[X64, X64, X64, AARCH64]);
    let count = random.pick(&[2, 129, 200, 255, 256, 256, 256]);
    let less = random.pick(&[0, 0, 1, 31, 32, 33]);
    let pieces = (0..count).map(|_| {
        let mut piece = Piece::new(arch, random.pick(&[32, 64]), Vec::new());
        piece.vast = Some(MOST_CODE as u32 - random.pick(&[0, less]));
        piece
    });
    let mut handed = Handed::new(pieces.collect());
    let (bases, end) = handed.bases();
    // Where the last piece ends at 32 bits' end or before it, nothing but what is lent refuses it: so much is not lent.
    handed.is_vast = match end {
        ..=4_294_967_294 => Vast::Code,
        _ => random.pick(&[Vast::Code, Vast::Both]),
    };
    let last = handed.pieces.len() - 1;
    let (from, to) = match random.below(4) {
        0 => (last, 0),
        1 => (0, last),
        2 => (0, 127.min(last)),
        _ => (random.below(last as u32 + 1) as usize, last / 2),
    };
    let length = handed.pieces[from].length();
    let offset = random.pick(&[0, 4, length - 4, length - 3]);
    let label = random.pick(&[0, 1, 1 << 24, 1 << 31, NONE - 1, NONE]);
    handed.pieces[to].labels = vec![label];
    handed.pieces[to].definitions = vec![[7, 0]];
    if random.chance(5) {
        handed.pieces[from].definitions.push([7, 0]);
    }
    let apart = (bases[to] + u64::from(label)).cast_signed()
        - (bases[from] + u64::from(offset)).cast_signed();
    let around = i64::from(random.below(3)) - 1;
    let addend = match random.below(4) {
        0 => 0,
        1 => i64::from(i32::MAX) - apart + around,
        2 => i64::from(i32::MIN) - apart + around,
        // Sums that wrap do not come near.
        _ => i64::MAX - apart.max(0) + around,
    };
    let [low, high] = words_of(addend);
    let kind = random.pick(&[2, 3, 4, 1]);
    handed.pieces[from].relocations = vec![[offset, kind, 7, 0, low, high]];
    if random.chance(5) {
        handed.more.push((Part::JoinedLabels, -1));
    }
    if random.chance(5) {
        handed.pieces[last].vast = Some(MOST_CODE as u32 + 1);
    }
    handed
}
