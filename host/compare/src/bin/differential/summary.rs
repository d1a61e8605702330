//! What was run, counted.

use std::collections::BTreeMap;
use std::fmt;

use reference::DEPARTURES;

use crate::families::Subject;
use crate::runner::Outcome;

/// The last number of a refusal.
const LAST_REFUSAL: usize = 29;

/// The counts of one family.
pub struct Tally {
    family: &'static str,
    subject: Subject,
    recordings: u64,
    finished: u64,
    compared: u64,
    pub disagreements: u64,
    /// First refusals by number.
    refused: [u64; LAST_REFUSAL + 1],
    /// Recordings that met a departure, by its name.
    pub departed: BTreeMap<&'static str, u64>,
}

impl Tally {
    pub fn new(family: &'static str, subject: Subject) -> Self {
        Self {
            family,
            subject,
            recordings: 0,
            finished: 0,
            compared: 0,
            disagreements: 0,
            refused: [0; LAST_REFUSAL + 1],
            departed: BTreeMap::new(),
        }
    }

    pub fn add(&mut self, outcome: &Outcome) {
        self.recordings += 1;
        self.finished += u64::from(outcome.finished);
        self.compared += u64::from(outcome.compared);
        self.refused[outcome.refusal as usize] += 1;
        if let Some(name) = outcome.departure {
            *self.departed.entry(name).or_default() += 1;
        }
    }

    pub fn add_disagreement(&mut self) {
        self.recordings += 1;
        self.disagreements += 1;
    }
}

impl fmt::Display for Tally {
    fn fmt(&self, f: &mut fmt::Formatter<'_>) -> fmt::Result {
        let Self {
            family,
            recordings,
            finished,
            compared,
            disagreements,
            refused,
            ..
        } = self;
        write!(
            f,
            "{family:8} {recordings:>10} {finished:>10} {compared:>10} {disagreements:>6}  "
        )?;
        let numbers = refused.iter().enumerate().skip(1);
        for (number, count) in numbers.filter(|(_, count)| **count > 0) {
            write!(f, " {number}:{count}")?;
        }
        Ok(())
    }
}

/// The table of all families, and its last line.
pub fn print(tallies: &[Tally]) {
    println!(
        "{:8} {:>10} {:>10} {:>10} {:>6}   first refusals, by number",
        "family", "recordings", "finished", "with Rust", "differ"
    );
    for tally in tallies {
        println!("{tally}");
    }
    for departure in DEPARTURES {
        let counts = tallies
            .iter()
            .filter_map(|tally| tally.departed.get(departure.name));
        let count: u64 = counts.sum();
        let how = match departure.told {
            None => "without the Rust",
            Some(_) => "beside the Rust told of it",
        };
        println!("{count} recordings {how}: {}", departure.name);
    }
    let mut recordings = 0;
    for tally in tallies {
        let Tally {
            family,
            recordings: inputs,
            compared,
            ..
        } = tally;
        match tally.subject {
            Subject::Recordings => recordings += inputs,
            Subject::Entries => println!("{inputs} inputs for what the Rust has not: {family}"),
            Subject::Joins => {
                println!("{inputs} joins, {compared} of them beside the Rust's linker: {family}");
            }
        }
    }
    let disagreements: u64 = tallies.iter().map(|tally| tally.disagreements).sum();
    println!("{recordings} recordings, {disagreements} disagreements");
}
