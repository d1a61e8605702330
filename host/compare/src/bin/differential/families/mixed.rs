//! Recordings drawn at random, biased to limits.

use compare::{AARCH64, Random, X64, X86};

use super::draft::{Draft, any_condition};
use crate::scenario::{Scenario, Step};

/// A recording in one sheet, and its finish.
pub fn scenario(random: &mut Random) -> Scenario {
    let draft = draft(random);
    let (arch, symbols) = (draft.arch, draft.symbols);
    let steps = vec![Step::Sheet(draft.calls), Step::Finish];
    Scenario::new(arch, symbols, random.number(), steps)
}

/// A recording of many calls, all of them accepted.
pub fn long_scenario(random: &mut Random) -> Scenario {
    let mut draft = Draft::new(X64);
    draft.careful = true;
    for _ in 0..random.between(100, 1_200) {
        add_call(&mut draft, random, true);
    }
    draft.bind_rest(random, 100);
    let steps = vec![Step::Sheet(draft.calls), Step::Finish];
    Scenario::new(X64, draft.symbols, random.number(), steps)
}

/// Calls of which most, or all, are accepted.
pub fn draft(random: &mut Random) -> Draft {
    let arch = random.pick(&[X64, X64, X64, X64, X86, AARCH64]);
    let mut draft = Draft::new(arch);
    draft.symbols = random.below(4);
    draft.careful = random.chance(60);
    let has_jumps = draft.keeps_events() && random.chance(75);
    for _ in 0..random.between(1, 24) {
        add_call(&mut draft, random, has_jumps);
    }
    let percent = if draft.careful { 100 } else { 97 };
    draft.bind_rest(random, percent);
    draft
}

pub fn add_call(draft: &mut Draft, random: &mut Random, has_jumps: bool) {
    match random.below(20) {
        0..=2 => plain(draft, random),
        3 => gap(draft, random),
        4 => _ = draft.label(),
        5 => _ = draft.here(),
        6 => bind(draft, random),
        7..=10 if has_jumps => jump(draft, random),
        7..=10 => use_label(draft, random),
        11 | 12 => align(draft, random),
        13 => use_label(draft, random),
        14 | 15 => label_ref(draft, random),
        16 => _ = constant(draft, random),
        17 => ask(draft, random),
        18 => relocation(draft, random),
        _ => stray(draft, random),
    }
}

fn plain(draft: &mut Draft, random: &mut Random) {
    let count = random.below(13) as usize;
    draft.bytes(&random.bytes(count));
}

/// Mostly a label that is not bound yet.
fn bind(draft: &mut Draft, random: &mut Random) {
    let label = match draft.unbound_label() {
        Some(label) if !draft.strays(random, 5) => label,
        None if draft.careful => draft.label(),
        _ => draft.any_label(random),
    };
    draft.bind(label);
}

/// Bytes enough to bring a short jump to its limits.
fn gap(draft: &mut Draft, random: &mut Random) {
    let count = random.pick(&[60, 100, 118, 122, 125, 126, 127, 128, 129, 130]);
    draft.zeros(count);
}

pub fn jump(draft: &mut Draft, random: &mut Random) {
    let label = if random.chance(30) {
        draft.label()
    } else {
        draft.any_label(random)
    };
    let length = random.pick(&[2, 5, 6, 3, 15]);
    let condition = any_condition(random);
    draft.jump(label, length, condition);
}

fn align(draft: &mut Draft, random: &mut Random) {
    let small = random.pick(&[1, 2, 4, 8, 16, 32, 64]);
    let large = random.pick(&[512, 4096]);
    let unfit = random.pick(&[0, 3, 8192, 1 << 31, 12]);
    let multiple = if random.chance(3) { large } else { small };
    let strays = draft.strays(random, 3);
    draft.align(if strays { unfit } else { multiple });
}

fn use_label(draft: &mut Draft, random: &mut Random) {
    let label = draft.any_label(random);
    let code = draft.field_code(random);
    let offset = if draft.strays(random, 10) {
        random.below(draft.offset + 2)
    } else {
        let offset = draft.offset;
        draft.bytes(&random.bytes(4));
        offset
    };
    draft.use_at(offset, label, code);
}

fn label_ref(draft: &mut Draft, random: &mut Random) {
    let label = draft.any_label(random);
    let code = if draft.careful {
        0
    } else {
        draft.field_code(random)
    };
    let addend = match random.below(8) {
        _ if draft.careful => random.word().cast_signed() >> 8,
        0 if code == 0 => i32::MAX - random.below(4).cast_signed(),
        1 if code == 0 => i32::MIN + random.below(260).cast_signed(),
        2 | 3 => random.between(0, 300).cast_signed() - 150,
        _ => random.below(3).cast_signed(),
    };
    let offset = if draft.strays(random, 10) {
        random.below(draft.offset + 2)
    } else {
        let offset = draft.offset;
        let size = if code == 0 { 4 } else { 1 };
        draft.bytes(&random.bytes(size));
        offset
    };
    draft.ref_at(offset, label, code, addend);
}

fn constant(draft: &mut Draft, random: &mut Random) -> u32 {
    let size = random.below(13) as usize;
    draft.constant(random.bytes(size))
}

pub fn ask(draft: &mut Draft, random: &mut Random) {
    let constant = if draft.constants() == 0 {
        constant(draft, random)
    } else {
        let unknown = u32::from(draft.strays(random, 3));
        random.below(draft.constants() + unknown)
    };
    draft.ask(constant);
}

fn relocation(draft: &mut Draft, random: &mut Random) {
    let offset = if draft.strays(random, 5) {
        random.pick(&[16_777_215, 16_777_216, u32::MAX])
    } else {
        random.below(draft.offset + 8)
    };
    let kind = draft.reloc_kind(random);
    let target = draft.reloc_target(random);
    draft.relocation(offset, kind, target, random.word().cast_signed());
}

/// An offset to which a field's size cannot be added in 32 bits, or any.
fn far_offset(random: &mut Random) -> u32 {
    if random.chance(50) {
        return random.word();
    }
    u32::MAX - random.below(5)
}

/// A call that is most often refused.
fn stray(draft: &mut Draft, random: &mut Random) {
    if !draft.strays(random, 40) {
        return plain(draft, random);
    }
    let label = draft.any_label(random);
    match random.below(4) {
        0 => draft.push(reference::Call::Jump {
            start: draft.offset.wrapping_sub(random.below(17)),
            length: random.below(17),
            label,
            condition: random.below(18),
        }),
        1 => draft.use_at(far_offset(random), label, random.below(17)),
        2 => draft.ref_at(far_offset(random), label, random.below(2), 0),
        _ => draft.bind(random.below(8)),
    }
}
