//! The four calls that a sheet carries only in part.

use compare::{LABEL_TARGET, Random};

use super::mixed;
use crate::scenario::{Scenario, Step};

/// Direct calls between the sheets of a recording.
pub fn scenario(random: &mut Random) -> Scenario {
    let draft = mixed::draft(random);
    let mut steps = vec![Step::Sheet(draft.calls)];
    for _ in 0..random.between(1, 6) {
        let step = direct(random);
        // Bytes and padding before a sheet would make its jumps end elsewhere.
        let first = usize::from(matches!(step, Step::Bytes(_) | Step::Align { .. }));
        let at = random.between(first as u32, steps.len() as u32);
        steps.insert(at as usize, step);
    }
    if random.chance(30) {
        steps.push(Step::Sheet(vec![reference::Call::ConstantLabel(0)]));
    }
    steps.push(Step::Finish);
    Scenario::new(draft.arch, draft.symbols, random.number(), steps)
}

/// Mostly one that is accepted.
fn relocation(random: &mut Random) -> Step {
    let (mut offset, mut kind, mut target) = (random.below(200), random.below(2), 0);
    match random.below(12) {
        0 => offset = random.pick(&[16_777_215, 16_777_216, u32::MAX]),
        1 => kind = random.pick(&[2, 8, 27, 28, 255, u32::MAX]),
        2 => target = random.pick(&[1, LABEL_TARGET, LABEL_TARGET + 1, u32::MAX]),
        _ => {}
    }
    Step::Relocation {
        offset,
        kind,
        target,
        addend: random.number().cast_signed() >> random.below(64),
    }
}

pub fn direct(random: &mut Random) -> Step {
    match random.below(5) {
        0 => {
            let count = random.pick(&[0, 1, 13, 100, 127, 128, 300]);
            Step::Bytes(random.bytes(count))
        }
        1 | 2 => {
            let above = random.pick(&[65, 70]);
            let count = random.pick(&[0, 1, 7, 8, 9, 12, 13, 16, 31, 32, 33, 62, 63, 64, 64]);
            let count = if random.chance(3) { above } else { count };
            Step::Constant(random.bytes(count))
        }
        3 => Step::Align {
            multiple: random.pick(&[1, 2, 8, 8, 16, 16, 64, 64, 512, 4096, 3, 8192]),
            most: random.pick(&[0, 1, 6, 7, 8, 15, 63, 4094, 4095, 1 << 31, u32::MAX]),
        },
        _ => relocation(random),
    }
}
