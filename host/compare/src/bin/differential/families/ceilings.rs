//! Alignments with ceilings on both sides of what they need.

use compare::{AARCH64, Part, Random, X64, X86};
use reference::Call;

use super::draft::{Draft, any_condition};
use super::mixed;
use crate::scenario::{Scenario, Step};

/// The words of an event that say how long it is, on which multiple it ends and what its ceiling is.
const LENGTH: usize = 2;
const MULTIPLE: usize = 3;
const MOST: usize = 4;

/// A recording, lent all that it needs or nearly so; now and then its events or its counts are changed by hand.
pub fn scenario(random: &mut Random) -> Scenario {
    let draft = match random.below(10) {
        0 | 1 => one_jump(random),
        2..=4 => chain(random),
        _ => among_calls(random),
    };
    let (arch, symbols, end) = (draft.arch, draft.symbols, draft.offset);
    let is_event = |call: &&Call<'_>| matches!(call, Call::Align { .. } | Call::Jump { .. });
    let events = draft.calls.iter().filter(is_event).count() as u32;
    let mut steps = draft.into_steps();
    match random.below(10) {
        0 | 1 => change_event(&mut steps, random, events),
        2 => change_count(&mut steps, random),
        _ => {}
    }
    let mut scenario = Scenario::new(arch, symbols, random.number(), steps);
    if random.chance(10) {
        let less = random.pick(&[0, 1, 7]);
        let room = end.saturating_sub(less) as usize;
        scenario.room.set(Part::Code, room);
    }
    if random.chance(5) {
        let room = events.saturating_sub(random.below(3)) as usize;
        scenario.room.set(Part::Events, room);
    }
    scenario
}

/// The smallest recordings in which an alignment gains padding or loses it: a jump that becomes short, a few bytes, an alignment, and the jump's
/// label.
fn one_jump(random: &mut Random) -> Draft {
    let mut draft = Draft::new(random.pick(&[X64, X64, X64, X64, X64, X86, AARCH64]));
    let label = draft.label();
    if random.chance(80) {
        draft.jump(label, random.pick(&[2, 3, 5, 5, 6]), any_condition(random));
    }
    draft.zeros(random.below(10));
    if random.chance(20) {
        draft.here();
    }
    align(&mut draft, random, &[4, 8, 8, 16]);
    draft.bind(label);
    if random.chance(50) {
        draft.bytes(&[0xC3]);
    }
    draft
}

/// Jumps of which one grows because another did, or because an alignment between them spends again what it spent no longer.
fn chain(random: &mut Random) -> Draft {
    let mut draft = Draft::new(X64);
    let jumps = random.between(2, 12);
    for _ in 0..jumps {
        draft.label();
    }
    for jump in 0..jumps {
        let condition = any_condition(random);
        draft.jump(jump, random.pick(&[2, 5, 5, 6]), condition);
        if random.chance(30) {
            align(&mut draft, random, &[2, 4, 4, 8, 8, 16, 32]);
        }
    }
    let gap = 136 - jumps * 2 - random.below(20);
    let before = random.below(gap);
    draft.zeros(before);
    if random.chance(70) {
        align(&mut draft, random, &[4, 8, 8, 16, 32]);
    }
    draft.zeros(gap - before);
    for label in 0..jumps {
        draft.bind(label);
        draft.zeros(random.below(5));
        if random.chance(20) {
            align(&mut draft, random, &[2, 4, 8]);
        }
    }
    draft
}

/// Alignments among calls of every other kind, with labels at them.
fn among_calls(random: &mut Random) -> Draft {
    let mut draft = Draft::new(random.pick(&[X64, X64, X64, X64, X86, AARCH64]));
    draft.careful = random.chance(85);
    let has_jumps = draft.keeps_events() && random.chance(75);
    for _ in 0..random.between(2, 16) {
        match random.below(9) {
            0..=2 => {
                let multiples = [1, 2, 4, 8, 8, 16, 16, 32, 64, 64, 512, 4096];
                align(&mut draft, random, &multiples);
            }
            3 | 4 => draft.zeros(random.below(24)),
            5 if has_jumps => mixed::jump(&mut draft, random),
            6 if has_jumps => draft.zeros(random.between(90, 130)),
            7 => _ = draft.here(),
            _ => mixed::add_call(&mut draft, random, has_jumps),
        }
    }
    draft.bind_rest(random, 100);
    draft
}

/// By a sheet or by a direct call, with labels on both sides or none.
fn align(draft: &mut Draft, random: &mut Random, multiples: &[u32]) {
    let unfit = random.pick(&[0, 3, 12, 8192, 1 << 31]);
    let fit = random.pick(multiples);
    let multiple = if draft.strays(random, 2) { unfit } else { fit };
    let most = ceiling(random, draft.needed(multiple), multiple);
    if random.chance(15) {
        draft.here();
    }
    if random.chance(30) {
        draft.align_directly(multiple, most);
    } else {
        draft.align_within(multiple, most);
    }
    if random.chance(15) {
        draft.here();
    }
}

/// Mostly one that is about what is needed, or less than the multiple.
fn ceiling(random: &mut Random, needed: u32, multiple: u32) -> u32 {
    match random.below(16) {
        0..=2 => needed,
        3 | 4 => needed.saturating_sub(1),
        5 => needed + 1,
        6 => random.pick(&[0, 0, 1, 2]),
        7 => multiple.saturating_sub(random.below(3)),
        8 => random.pick(&[4094, 4095, 4096]),
        9 => random.pick(&[1 << 31, (1 << 31) - 1, u32::MAX, u32::MAX - 1]),
        10 => random.pick(&[255, 256, 65_535, 65_536, 65_537]),
        _ => random.below(multiple.min(4096) + 1),
    }
}

/// Before the finish, words of one of so many events are changed: most often a ceiling.
fn change_event(steps: &mut Vec<Step>, random: &mut Random, events: u32) {
    let event = random.below(events.max(1)) as usize;
    for _ in 0..random.pick(&[1, 1, 2]) {
        let word = random.pick(&[MOST, MOST, MOST, MOST, LENGTH, MULTIPLE]);
        let value = match word {
            MULTIPLE => 1 << random.below(6),
            LENGTH => random.pick(&[0, 0, 1, 3, 7]),
            _ => random.pick(&[0, 0, 1, 2, 3, 6, 7, 15, 4095, 4096, 1 << 31, u32::MAX]),
        };
        let write = Step::Write {
            part: Part::Events,
            at: event * Part::Events.entry_bytes() + word * 4,
            bytes: u32::to_le_bytes(value).to_vec(),
        };
        steps.insert(steps.len() - 1, write);
    }
}

/// Somewhere, a table is said to have more entries than most are lent, and an alignment is made by a direct call, which is lent only some of the
/// tables.
fn change_count(steps: &mut Vec<Step>, random: &mut Random) {
    let table = random.below(Part::TABLES.len() as u32) as usize;
    let write = Step::Write {
        part: Part::Counts,
        at: (4 + table) * 4,
        bytes: 300u32.to_le_bytes().to_vec(),
    };
    let most = random.below(9);
    let align = Step::Align { multiple: 8, most };
    let at = random.below(steps.len() as u32) as usize;
    steps.splice(at..at, [write, align]);
}
