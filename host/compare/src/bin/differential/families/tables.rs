//! Tables made by hand: good ones with some words changed.

use compare::{LABEL_TARGET, NONE, Part, Random};
use reference::Call;

use super::mixed;
use crate::scenario::{Open, Room, Scenario, Step};

/// A recording, words changed in its counts and tables, calls or none, and a finish.
pub fn scenario(random: &mut Random) -> Scenario {
    let draft = mixed::draft(random);
    let calls = Step::Sheet(draft.calls);
    let filled = Room::for_steps(std::slice::from_ref(&calls));
    let mut steps = vec![calls];
    for _ in 0..random.pick(&[1, 1, 1, 2, 3]) {
        steps.push(write(random, &filled));
    }
    // Else most finishes would get no further than the number.
    if random.chance(90) {
        steps.push(Step::Open(Open::Right(0)));
    }
    if random.chance(20) {
        steps.push(Step::Sheet(vec![later_call(random)]));
    }
    steps.push(Step::Finish);
    Scenario::new(draft.arch, draft.symbols, random.number(), steps)
}

/// A word of a table, of which `filled` bounds the entries, or of the counts.
fn write(random: &mut Random, filled: &Room) -> Step {
    let part = random.pick(&[
        Part::Counts,
        Part::Code,
        Part::Labels,
        Part::Events,
        Part::Events,
        Part::Uses,
        Part::Refs,
        Part::Constants,
        Part::Asked,
        Part::Relocations,
    ]);
    let entries = filled.bytes(part) / part.entry_bytes();
    let entry = random.below(entries as u32 + 1) as usize;
    let at = match part {
        Part::Counts => random.below(13) as usize * 4,
        Part::Code => entry,
        Part::Constants => entry * 72 + random.below(3) as usize * 4,
        _ => entry * part.entry_bytes() + random.below(part.entry_bytes() as u32) as usize / 4 * 4,
    };
    Step::Write {
        part,
        at,
        bytes: value(random).to_le_bytes().to_vec(),
    }
}

/// Small numbers above all, and those that stand for something.
fn value(random: &mut Random) -> u32 {
    match random.below(10) {
        0..=4 => random.below(18),
        5 => random.pick(&[8, 9, 31, 32, 33, 63, 64, 65]),
        6 => random.below(300),
        7 => random.pick(&[NONE, NONE - 1, LABEL_TARGET, LABEL_TARGET + 1]),
        8 => random.pick(&[4096, 8192, 65_536, 65_537, 16_777_215, 16_777_216]),
        _ => random.word(),
    }
}

/// A call that reads what stands in tables.
fn later_call(random: &mut Random) -> Call<'static> {
    match random.below(5) {
        0 => Call::NewLabel,
        1 => Call::Bind(random.below(3)),
        2 => Call::ConstantLabel(random.below(3)),
        3 => Call::align(16),
        _ => Call::Jump {
            start: random.below(40),
            length: random.between(2, 6),
            label: 0,
            condition: 16,
        },
    }
}
