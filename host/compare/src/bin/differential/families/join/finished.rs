//! Pieces that the Rust's finish left of recordings.

use compare::{AARCH64, NONE, Piece, Random, X64};
use reference::{Finished, run_calls};

use super::handed::Handed;
use super::{small, words_of};
use crate::families::draft::Draft;
use crate::families::mixed;

/// The symbols of each recording.
const SYMBOLS: u32 = 4;

pub fn handed(random: &mut Random) -> Handed {
    let arch = random.pick(&[X64, X64, X64, AARCH64]);
    let count = random.between(1, 4);
    let pieces = (0..count).filter_map(|_| piece(arch, random));
    let mut handed = Handed::new(pieces.collect());
    define(&mut handed, random);
    if handed.pieces.is_empty() {
        return handed;
    }
    if random.chance(15) {
        small::spoil(&mut handed, random);
    }
    handed
}

/// What a recording finishes to, if it does.
fn piece(arch: u32, random: &mut Random) -> Option<Piece> {
    let mut draft = Draft::new(arch);
    draft.symbols = SYMBOLS;
    draft.careful = true;
    let has_jumps = draft.keeps_events() && random.chance(50);
    for _ in 0..random.between(1, 12) {
        mixed::add_call(&mut draft, random, has_jumps);
    }
    for _ in 0..random.below(3) {
        call(&mut draft, random);
    }
    draft.bind_rest(random, 100);
    let answer = run_calls(arch, SYMBOLS, &draft.calls);
    answer.finished.map(|finished| taken(arch, &finished))
}

/// A call of a symbol.
fn call(draft: &mut Draft, random: &mut Random) {
    let offset = draft.offset + 1;
    draft.bytes(&[0xE8, 0, 0, 0, 0]);
    let kind = if draft.keeps_events() { 3 } else { 8 };
    draft.relocation(offset, kind, random.below(SYMBOLS), -4);
}

fn taken(arch: u32, finished: &Finished) -> Piece {
    let mut piece = Piece::new(arch, finished.alignment(), finished.code().to_vec());
    piece.layouts = finished.layouts();
    piece.labels = finished.labels().to_vec();
    let relocations = finished.relocations().map(|one| {
        let [low, high] = words_of(one.addend);
        [one.offset, one.kind, one.target, 0, low, high]
    });
    piece.relocations = relocations.collect();
    piece
}

/// Most symbols are defined, by a bound label where there is one.
fn define(handed: &mut Handed, random: &mut Random) {
    for symbol in 0..SYMBOLS {
        let pieces = handed.pieces.iter_mut();
        let bound = pieces.filter(|piece| piece.labels.iter().any(|label| *label != NONE));
        let mut bound: Vec<_> = bound.collect();
        if bound.is_empty() || random.chance(4) {
            continue;
        }
        let number = random.below(bound.len() as u32) as usize;
        let piece = &mut bound[number];
        let label = piece.labels.iter().position(|label| *label != NONE);
        let label = label.expect("one of them is bound") as u32;
        piece.definitions.push([symbol, label]);
    }
}
