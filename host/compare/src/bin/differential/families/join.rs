//! Joins drawn at random, on both sides of every limit.

mod finished;
mod handed;
mod large;
mod small;
mod vast;

use compare::Random;

pub use super::relas::words_of;
use crate::scenario::Scenario;
pub use handed::Handed;

pub fn scenario(random: &mut Random) -> Scenario {
    let handed = match random.below(4_000) {
        0 => large::code(random),
        1..4 => large::table(random),
        4..20 => large::many(random),
        20..120 => vast::handed(random),
        120..500 => finished::handed(random),
        _ => small::handed(random),
    };
    handed.into_scenario(random.number())
}
