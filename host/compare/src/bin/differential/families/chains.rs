//! Jumps of which one after the other grows.

use compare::{Random, X64};

use super::draft::{Draft, any_condition};
use crate::scenario::{Scenario, Step};

/// Jumps stand side by side, and the label of each so far behind them that it is in reach only while the jumps after its own are short.
pub fn scenario(random: &mut Random) -> Scenario {
    let mut draft = Draft::new(X64);
    let jumps = random.between(2, 40);
    let slack = random.below(3);
    for _ in 0..jumps {
        draft.label();
    }
    for jump in 0..jumps {
        let condition = any_condition(random);
        draft.jump(jump, random.pick(&[2, 5, 5, 6]), condition);
        if random.chance(3) {
            draft.align(random.pick(&[1, 1, 2, 4]));
        }
    }
    draft.zeros(129 + slack - jumps.min(60) * 2);
    for label in 0..jumps {
        draft.bind(label);
        let step = if random.chance(85) {
            2
        } else {
            random.below(4)
        };
        draft.zeros(step);
    }
    let noise = random.number();
    let steps = vec![Step::Sheet(draft.calls), Step::Finish];
    Scenario::new(X64, 0, noise, steps)
}
