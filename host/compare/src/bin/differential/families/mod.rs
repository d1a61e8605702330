//! The families of inputs.

mod adds;
mod ceilings;
mod chains;
mod damaged;
mod digits;
mod direct;
mod draft;
mod join;
mod joins;
mod limits;
mod mixed;
mod open;
mod parts;
mod pools;
mod reaches;
mod relas;
mod rooms;
mod short;
mod tables;
mod types;

use compare::{Lent, Random};

use crate::scenario::Scenario;
pub use join::Handed;
pub use joins::alone as join_faults;

/// A family of inputs.
pub struct Family {
    pub name: &'static str,
    pub about: &'static str,
    source: Source,
    /// Each recording is run again with lent memory that is just long enough.
    tightens: bool,
    /// How many inputs of it the gate's sample has.
    pub sample: u64,
    pub subject: Subject,
}

/// What a family is about.
#[derive(Clone, Copy, PartialEq, Eq)]
pub enum Subject {
    Recordings,
    /// ELF entries, which the Rust has not: the model alone decides.
    Entries,
    /// Joins, which the Rust's linker makes in part.
    Joins,
}

/// Where inputs come from.
enum Source {
    /// Numbered from 0.
    Numbered {
        total: u64,
        make: fn(u64) -> Scenario,
    },
    Random(fn(&mut Random) -> Scenario),
}

impl Family {
    fn random(
        name: &'static str,
        about: &'static str,
        sample: u64,
        tightens: bool,
        make: fn(&mut Random) -> Scenario,
    ) -> Self {
        Self {
            name,
            about,
            source: Source::Random(make),
            tightens,
            sample,
            subject: Subject::Recordings,
        }
    }

    fn of(self, subject: Subject) -> Self {
        Self { subject, ..self }
    }

    /// How many inputs there are, if they can be counted.
    pub fn total(&self) -> Option<u64> {
        match &self.source {
            Source::Numbered { total, .. } => Some(*total),
            Source::Random(_) => None,
        }
    }

    /// The input of a number. Numbered ones are taken in leaps, so that a few of them are of every kind; the leap is prime to the total.
    pub fn scenario(&self, seed: u64, index: u64) -> Scenario {
        match &self.source {
            Source::Numbered { total, make } => {
                const LEAP: u64 = 1_000_003;
                make(index.wrapping_mul(LEAP).wrapping_add(seed) % total)
            }
            Source::Random(make) => make(&mut Random::of(seed, index)),
        }
    }

    /// The same input with lent memory that is just long enough, or nearly so, if the family asks for it; `lent` is what the input came to.
    pub fn tightened(
        &self,
        scenario: Scenario,
        lent: &Lent,
        seed: u64,
        index: u64,
    ) -> Option<Scenario> {
        let random = &mut Random::of(!seed, index);
        self.tightens
            .then(|| rooms::tightened(scenario, lent, random))
    }
}

pub fn all() -> Vec<Family> {
    vec![
        Family {
            name: "short",
            about: "all recordings of few calls over eleven small alphabets",
            source: Source::Numbered {
                total: short::total(),
                make: short::scenario,
            },
            tightens: false,
            sample: 700_000,
            subject: Subject::Recordings,
        },
        Family::random(
            "mixed",
            "recordings drawn at random",
            130_000,
            true,
            mixed::scenario,
        ),
        Family::random(
            "long",
            "recordings of up to 1,200 calls",
            1_500,
            true,
            mixed::long_scenario,
        ),
        Family::random(
            "reaches",
            "jumps and fields at the limits of their reach",
            50_000,
            true,
            reaches::scenario,
        ),
        Family::random(
            "chains",
            "jumps of which one after the other grows",
            12_000,
            true,
            chains::scenario,
        ),
        Family::random(
            "damaged",
            "sheets whose form is broken",
            110_000,
            false,
            damaged::scenario,
        ),
        Family::random(
            "parts",
            "several sheets; calls after refusals and finishes",
            50_000,
            true,
            parts::scenario,
        ),
        Family::random(
            "direct",
            "the calls that a sheet carries only in part",
            50_000,
            true,
            direct::scenario,
        ),
        Family::random(
            "pools",
            "constants of every alignment, asked for or not",
            50_000,
            true,
            pools::scenario,
        ),
        Family::random(
            "adds",
            "ADDs over fields that already hold something",
            50_000,
            true,
            adds::scenario,
        ),
        Family::random(
            "ceilings",
            "alignments with ceilings on both sides of what they need",
            100_000,
            true,
            ceilings::scenario,
        ),
        Family::random(
            "tables",
            "tables made by hand: words changed in good ones",
            150_000,
            false,
            tables::scenario,
        ),
        Family::random(
            "open",
            "wrong numbers of open entries, and entries made by hand",
            100_000,
            false,
            open::scenario,
        ),
        Family::random(
            "odd",
            "lent memory of odd length, unknown architectures",
            60_000,
            false,
            rooms::odd,
        ),
        Family::random(
            "limits",
            "lent memory at the limits and above",
            100,
            false,
            limits::scenario,
        ),
        Family::random(
            "relas",
            "relocations written as ELF entries, and entries read",
            100_000,
            false,
            relas::scenario,
        )
        .of(Subject::Entries),
        Family {
            name: "types",
            about: "all kinds of relocation, all types of ELF, all small lengths",
            source: Source::Numbered {
                total: types::total(),
                make: types::scenario,
            },
            tightens: false,
            sample: types::total(),
            subject: Subject::Entries,
        },
        Family::random(
            "join",
            "finished records joined, at every limit",
            30_000,
            false,
            join::scenario,
        )
        .of(Subject::Joins),
        Family {
            name: "joins",
            about: "all small joins, and all faults of one, by twos and threes",
            source: Source::Numbered {
                total: joins::total(),
                make: joins::scenario,
            },
            tightens: false,
            sample: joins::total(),
            subject: Subject::Joins,
        },
    ]
}
