//! Fields and jumps at the limits of their reach.

use compare::{AARCH64, Random, X64, X86};
use reference::Call;

use super::draft::{Draft, any_condition};
use crate::scenario::{Scenario, Step};

pub fn scenario(random: &mut Random) -> Scenario {
    match random.below(200) {
        0 => far_a64(random, 1 << 20, &[10, 12, 13]),
        1..=4 => far_a64(random, 1 << 15, &[9, 9, 13, 12]),
        5..=20 => near_a64(random),
        21..=60 => use_x86(random),
        61..=100 => refs(random),
        _ => jumps(random),
    }
}

fn finished(draft: Draft, random: &mut Random) -> Scenario {
    let (arch, symbols) = (draft.arch, draft.symbols);
    let steps = vec![Step::Sheet(draft.calls), Step::Finish];
    Scenario::new(arch, symbols, random.number(), steps)
}

/// Jumps forwards and backwards over gaps of 128 bytes or so, with alignments and each other between.
fn jumps(random: &mut Random) -> Scenario {
    let mut draft = Draft::new(X64);
    let back = draft.here();
    let forward = draft.label();
    for _ in 0..random.between(1, 4) {
        let label = random.pick(&[back, forward]);
        let condition = any_condition(random);
        let length = random.pick(&[2, 5, 6]);
        match random.below(3) {
            0 => draft.zeros(random.between(118, 132)),
            1 => draft.zeros(random.below(6)),
            _ => draft.align(random.pick(&[1, 2, 4, 8, 16, 32])),
        }
        draft.jump(label, length, condition);
    }
    draft.zeros(random.between(108, 132));
    if random.chance(20) {
        draft.align(random.pick(&[1, 2, 4, 8]));
    }
    draft.bind(forward);
    draft.zeros(random.below(3));
    finished(draft, random)
}

/// Uses of code 1 without a jump, and of code 0 over a value in their field.
fn use_x86(random: &mut Random) -> Scenario {
    let mut draft = Draft::new(random.pick(&[X86, X64]));
    let back = draft.here();
    draft.zeros(random.between(124, 131));
    let forward = draft.label();
    let offset = draft.offset;
    draft.bytes(&random.bytes(4));
    draft.zeros(random.between(120, 129));
    draft.bind(forward);
    for _ in 0..random.between(1, 3) {
        let label = random.pick(&[back, forward]);
        draft.use_at(offset + random.below(3), label, random.pick(&[1, 1, 0]));
    }
    finished(draft, random)
}

/// Refs beside a jump, with addends that bring them to their limits.
fn refs(random: &mut Random) -> Scenario {
    let mut draft = Draft::new(X64);
    let label = draft.here();
    draft.jump(label, random.pick(&[2, 5]), 16);
    draft.zeros(random.below(4));
    let offset = draft.offset;
    draft.bytes(&random.bytes(4));
    let near = random.below(9).cast_signed() - 4;
    let (code, limit) = random.pick(&[
        (1, 127 + offset.cast_signed()),
        (1, -128 + offset.cast_signed()),
        (0, i32::MAX - 4),
        (0, i32::MIN + 8),
    ]);
    draft.ref_at(offset, label, code, limit.saturating_add(near));
    finished(draft, random)
}

/// Distances that are multiples of 4 and that are not.
fn near_a64(random: &mut Random) -> Scenario {
    let mut draft = Draft::new(AARCH64);
    let back = draft.here();
    draft.zeros(random.below(9));
    let forward = draft.label();
    let offset = draft.offset;
    draft.bytes(&random.bytes(8));
    draft.bind(forward);
    for _ in 0..random.between(1, 3) {
        let code = draft.field_code(random);
        let label = random.pick(&[back, forward]);
        draft.use_at(offset + random.below(6), label, code);
    }
    finished(draft, random)
}

/// A use as far from its label as its code reaches, or nearly so.
fn far_a64(random: &mut Random, reach: u32, codes: &[u32]) -> Scenario {
    let code = random.pick(codes);
    let distance = reach + random.pick(&[0, 1, 3, 4, 8]) - random.pick(&[4, 4, 8, 1, 0]);
    let field = random.bytes(4);
    let (label_first, gap) = if random.chance(50) {
        (true, distance)
    } else {
        (false, distance - 4)
    };
    let label = Step::Sheet(vec![Call::NewLabel, Call::Bind(0)]);
    let offset = if label_first { gap } else { 0 };
    let use_label = Step::Sheet(vec![Call::Use {
        offset,
        label: 0,
        code,
    }]);
    let gap = Step::Bytes(random.bytes(gap as usize));
    let steps = if label_first {
        vec![label, gap, Step::Bytes(field), use_label, Step::Finish]
    } else {
        vec![Step::Bytes(field), gap, label, use_label, Step::Finish]
    };
    Scenario::new(AARCH64, 0, random.number(), steps)
}
