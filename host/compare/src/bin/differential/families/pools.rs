//! Constants on both sides of every size at which their alignment changes, asked for or not.

use compare::{AARCH64, Random, X64, X86};

use super::draft::Draft;
use super::mixed;
use crate::scenario::Scenario;

const SIZES: [usize; 12] = [0, 1, 7, 8, 9, 31, 32, 32, 33, 33, 63, 64];

/// Constants among calls of every other kind, behind code of any length.
pub fn scenario(random: &mut Random) -> Scenario {
    let mut draft = Draft::new(random.pick(&[X64, X64, X64, X86, AARCH64]));
    draft.careful = random.chance(80);
    let has_jumps = draft.keeps_events() && random.chance(60);
    for _ in 0..random.between(2, 14) {
        match random.below(7) {
            0 | 1 => constant(&mut draft, random),
            2 | 3 => mixed::ask(&mut draft, random),
            4 => draft.zeros(random.below(70)),
            5 if has_jumps => mixed::jump(&mut draft, random),
            _ => mixed::add_call(&mut draft, random, has_jumps),
        }
    }
    draft.bind_rest(random, 100);
    let (arch, symbols) = (draft.arch, draft.symbols);
    Scenario::new(arch, symbols, random.number(), draft.into_steps())
}

fn constant(draft: &mut Draft, random: &mut Random) {
    let size = random.pick(&SIZES);
    draft.constant(random.bytes(size));
}
