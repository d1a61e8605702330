//! Lent memory that is just long enough, too short, or of odd length.

use compare::{Lent, Part, Random};

use super::{ceilings, chains, damaged, direct, mixed, parts, pools};
use crate::scenario::Scenario;

/// A scenario whose tables hold what `lent` shows that it comes to, less one or more one here and there.
pub fn tightened(mut scenario: Scenario, lent: &Lent, random: &mut Random) -> Scenario {
    for (column, part) in Part::TABLES.into_iter().enumerate() {
        let entries = lent.word(Part::Counts, 0, 4 + column) as usize;
        scenario.room.set(part, near(entries, random));
    }
    let events = lent.word(Part::Counts, 0, 6) + lent.word(Part::Counts, 0, 10);
    let finished = lent.word(Part::Record, 0, 1);
    scenario
        .room
        .set(Part::Segments, near(events as usize, random));
    scenario
        .room
        .set(Part::Output, near(finished as usize, random));
    scenario
}

fn near(entries: usize, random: &mut Random) -> usize {
    match random.below(16) {
        0 => entries.saturating_sub(1),
        1 => entries + 1,
        _ => entries,
    }
}

/// Lengths that are no multiple of an entry's size, and counts and records that are too short.
pub fn odd(random: &mut Random) -> Scenario {
    let mut scenario = match random.below(7) {
        0 => mixed::scenario(random),
        1 => parts::scenario(random),
        2 => direct::scenario(random),
        3 => damaged::scenario(random),
        4 => pools::scenario(random),
        5 => ceilings::scenario(random),
        _ => chains::scenario(random),
    };
    scenario.arch = match random.below(10) {
        0 => random.pick(&[0, 3, 4, 5, 7, u32::MAX]),
        _ => scenario.arch,
    };
    for part in Part::ALL {
        if part == Part::Segments || random.chance(50) {
            continue;
        }
        let most = scenario.room.bytes(part) as u32 + 8;
        let bytes = match part {
            Part::Counts | Part::Record if random.chance(80) => most - 8 + random.below(3),
            _ => most - random.below(16).min(most),
        };
        scenario.room.set_bytes(part, bytes as usize);
    }
    scenario
}
