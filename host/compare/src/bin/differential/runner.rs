//! Runs a scenario through ours, the model and the Rust, and compares.

use std::fmt;

use compare::{Boundary, Lent, Model, Ours, Part, Reply, pieces};
use reference::{DEPARTURES, Departure};

use crate::again;
use crate::fault::Put;
use crate::rust::Rust;
use crate::scenario::{Open, Scenario, Step};

/// Where two of the three part.
#[derive(Debug)]
pub struct Disagreement {
    /// Nothing for the start.
    step: Option<usize>,
    what: String,
}

impl fmt::Display for Disagreement {
    fn fmt(&self, f: &mut fmt::Formatter<'_>) -> fmt::Result {
        match self.step {
            None => write!(f, "at start: {}", self.what),
            Some(step) => write!(f, "at step {step}: {}", self.what),
        }
    }
}

/// What a scenario came to.
#[derive(Default)]
pub struct Outcome {
    /// Its first refusal, or 0.
    pub refusal: u32,
    /// What its last step was answered.
    pub last: Reply,
    /// A finish, or a join, was accepted.
    pub finished: bool,
    /// A finish was compared with the Rust's, or a join with its linker's.
    pub compared: bool,
    /// The departure that was met: a finish was held against the model alone, or against the Rust told of the change, too.
    pub departure: Option<&'static str>,
}

/// Ours and the model, with memory that serves one scenario after the other.
pub struct Runner {
    ours: Ours,
    model: Model,
    departures: &'static [Departure],
}

impl Default for Runner {
    fn default() -> Self {
        Self::departing(DEPARTURES)
    }
}

impl Runner {
    /// A runner with other departures than this project's.
    pub fn departing(departures: &'static [Departure]) -> Self {
        Self {
            ours: Ours::default(),
            model: Model::default(),
            departures,
        }
    }

    pub fn run(&mut self, scenario: &Scenario) -> Result<Outcome, Disagreement> {
        self.run_with(scenario, None)
    }

    /// As [`Self::run`], with something wrong put in after the call of a step.
    pub fn run_with(
        &mut self,
        scenario: &Scenario,
        put: Option<(usize, Put<'_>)>,
    ) -> Result<Outcome, Disagreement> {
        let shift = scenario.lend(&mut self.model.lent);
        self.ours.lend(&self.model.lent, shift);
        let mut rust = Rust::new(scenario, self.departures);
        let mut outcome = Outcome::default();
        let start = |boundary: &mut dyn Boundary| boundary.start(scenario.arch, scenario.symbols);
        let replies = (start(&mut self.ours), start(&mut self.model));
        outcome.refusal = replies.1.refusal;
        self.compare(replies)
            .map_err(|what| Disagreement { step: None, what })?;

        for (number, step) in scenario.steps.iter().enumerate() {
            rust.before(step, &self.model.lent);
            let put = put.filter(|(step, _)| *step == number);
            let reply = self.step(step, put.map(|(_, put)| put));
            let compared = reply.and_then(|reply| {
                rust.step(step, reply, &self.model.lent)?;
                Ok(reply)
            });
            let reply = compared.map_err(|what| Disagreement {
                step: Some(number),
                what,
            })?;
            if outcome.refusal == 0 {
                outcome.refusal = reply.refusal;
            }
            outcome.last = reply;
            outcome.finished |= matches!(step, Step::Finish | Step::Join(_)) && reply.refusal == 0;
        }
        outcome.compared = rust.compared;
        outcome.departure = rust.departure;
        Ok(outcome)
    }

    /// What the model left in lent memory, and so ours too.
    pub fn lent(&self) -> &Lent {
        &self.model.lent
    }

    fn step(&mut self, step: &Step, put: Option<Put<'_>>) -> Result<Reply, String> {
        if let Step::Write { part, at, bytes } = step {
            self.write_by_hand(*part, *at, bytes);
            return Ok(Reply::default());
        }
        if let Step::Open(open) = step {
            let number = open.number(&self.model.lent);
            self.write_by_hand(Part::Counts, Open::AT, &number.to_le_bytes());
            return Ok(Reply::default());
        }
        if let Step::Pieces(pieces) = step {
            for part in pieces::LENT_IN {
                self.write_by_hand(part, 0, &pieces::content(pieces, part));
            }
            return Ok(Reply::default());
        }
        let bytes = step.bytes();
        let lent = bytes.as_deref().unwrap_or_default();
        let mut ours = step.call(&mut self.ours, lent);
        let mut model = step.call(&mut self.model, lent);
        match put {
            None => {}
            Some(Put::Fault(fault)) => fault.put(&mut ours, &mut self.ours),
            Some(Put::IntoOurs(wrong)) => {
                wrong.iter().for_each(|one| {
                    one.put(&mut ours, |part| self.ours.part_mut(part).content_mut())
                });
            }
            Some(Put::IntoBoth(wrong)) => {
                wrong.iter().for_each(|one| {
                    one.put(&mut ours, |part| self.ours.part_mut(part).content_mut())
                });
                wrong
                    .iter()
                    .for_each(|one| one.put(&mut model, |part| &mut self.model.lent[part]));
            }
        }
        self.compare((ours, model))?;
        let read = self.ours.read();
        if !read.guards_stand() || bytes.is_some_and(|bytes| read.content() != &*bytes) {
            return Err("what was lent to be read alone was written".into());
        }
        match step {
            Step::WriteAgain if model.refusal == 0 => self.write_again(),
            _ => Ok(model),
        }
    }

    /// Writes bytes into what is lent, as far as it reaches.
    fn write_by_hand(&mut self, part: Part, at: usize, bytes: &[u8]) {
        write(&mut self.model.lent[part], at, bytes);
        write(self.ours.part_mut(part).content_mut(), at, bytes);
    }

    /// Writes the ELF entries that were read: where they can be relocations, they come out as they were.
    fn write_again(&mut self) -> Result<Reply, String> {
        let read = self.model.lent[Part::Relas].clone();
        again::take_back(&mut self.model.lent);
        for part in again::WRITTEN {
            let content = self.ours.part_mut(part).content_mut();
            content.copy_from_slice(&self.model.lent[part]);
        }
        let reply = self.step(&Step::WriteRelas(0), None)?;
        if reply.refusal == 0 && self.model.lent[Part::Relas] != read {
            return Err("entries that were read are written otherwise".into());
        }
        Ok(reply)
    }

    fn compare(&self, (ours, model): (Reply, Reply)) -> Result<(), String> {
        if ours != model {
            return Err(format!("ours answers {ours:?}, the model {model:?}"));
        }
        for part in Part::ALL {
            let guarded = self.ours.part(part);
            if !guarded.guards_stand() {
                return Err(format!("{part:?}: bytes beside it were written"));
            }
            if guarded.content() != self.model.lent[part] {
                return Err(differing(part, guarded.content(), &self.model.lent[part]));
            }
        }
        Ok(())
    }
}

fn write(lent: &mut [u8], at: usize, bytes: &[u8]) {
    for (lent, byte) in lent.iter_mut().skip(at).zip(bytes) {
        *lent = *byte;
    }
}

fn differing(part: Part, ours: &[u8], model: &[u8]) -> String {
    let at = ours.iter().zip(model).position(|(a, b)| a != b);
    let at = at.expect("the two differ");
    let entry = at / part.entry_bytes();
    let (ours, model) = (ours[at], model[at]);
    format!("{part:?}: byte {at} (entry {entry}) is {ours:02X}, by the model {model:02X}")
}
