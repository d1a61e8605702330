//! One recording in several sheets, with calls after refusals and finishes.

use compare::Random;
use reference::Call;

use super::mixed;
use crate::scenario::{Scenario, Step};

pub fn scenario(random: &mut Random) -> Scenario {
    let draft = mixed::draft(random);
    let mut rest = &draft.calls[..];
    let mut steps = Vec::new();
    while !rest.is_empty() {
        let count = random.between(0, 8).min(rest.len() as u32) as usize;
        let (part, others) = rest.split_at(count);
        steps.push(Step::Sheet(part.to_vec()));
        rest = others;
        if random.chance(10) {
            steps.push(Step::Finish);
        }
    }
    steps.push(Step::Finish);
    if random.chance(40) {
        steps.push(after_finish(random));
        steps.push(Step::Finish);
    }
    Scenario::new(draft.arch, draft.symbols, random.number(), steps)
}

pub fn after_finish(random: &mut Random) -> Step {
    match random.below(6) {
        0 => Step::Sheet(Vec::new()),
        1 => Step::Sheet(vec![Call::NewLabel, Call::Bind(0)]),
        2 => Step::Bytes(random.bytes(3)),
        3 => Step::Constant(random.bytes(65)),
        4 => Step::Align {
            multiple: random.pick(&[8, 3]),
            most: random.below(8),
        },
        _ => Step::Relocation {
            offset: 0,
            kind: 0,
            target: 0,
            addend: 0,
        },
    }
}
