//! The Rust reference, driven beside ours as long as it must agree.

use compare::{AARCH64, Lent, Part, Reply, Vast, X64, X86};
use reference::{
    Call, Departure, Error, Finished, Recording, Sheet, added_refusal, first_departure, quietly,
};

use crate::links::{self, Beside};
use crate::rebuild;
use crate::scenario::{Scenario, Step};

/// More symbols than this are not made in the Rust.
const MOST_SYMBOLS: u32 = 64;

/// A recording in the Rust.
pub struct Rust<'a> {
    arch: u32,
    symbols: u32,
    /// Nothing once the two need not agree any longer.
    recording: Option<Recording>,
    accepted: Vec<Call<'a>>,
    /// Tables were changed by hand.
    by_hand: bool,
    departures: &'static [Departure],
    /// The first departure that was met.
    pub departure: Option<&'static str>,
    /// A finish, or a join, was compared.
    pub compared: bool,
}

impl<'a> Rust<'a> {
    /// Finishes that meet one of the departures are compared only where the Rust can be told of it.
    pub fn new(scenario: &Scenario, departures: &'static [Departure]) -> Self {
        let Scenario { arch, symbols, .. } = *scenario;
        let recording = can_start(arch, symbols).then(|| Recording::new(arch, symbols).ok());
        Self {
            arch,
            symbols,
            recording: recording.flatten(),
            accepted: Vec::new(),
            by_hand: false,
            departures,
            departure: None,
            compared: false,
        }
    }

    /// The departure that the recording meets, if there is one; it is noted.
    fn departs(&mut self) -> Option<&'static Departure> {
        let met = first_departure(self.departures, self.arch, self.symbols, &self.accepted);
        self.departure = self.departure.or(met.map(|met| met.name));
        met
    }

    /// Before a finish of tables made by hand: brings the Rust to the same recording, where calls lead to it.
    pub fn before(&mut self, step: &Step, lent: &Lent) {
        if !matches!(step, Step::Finish) || !std::mem::take(&mut self.by_hand) {
            return;
        }
        let Some(calls) = rebuild::calls(lent) else {
            return;
        };
        self.accepted = calls;
        [self.arch, self.symbols] = lent.words(Part::Counts, 0);
        if !can_start(self.arch, self.symbols)
            || added_refusal(self.arch, self.symbols, &self.accepted).is_some()
        {
            return;
        }
        let made = quietly(|| {
            let mut recording = Recording::new(self.arch, self.symbols)?;
            self.accepted
                .iter()
                .try_for_each(|call| recording.call(call).map(drop))?;
            Ok(recording)
        });
        let code = &lent[Part::Code][..lent.word(Part::Counts, 0, 4) as usize];
        self.recording = made
            .and_then(|made: Result<_, Error>| made)
            .ok()
            .filter(|recording| recording.code() == code);
    }

    /// Makes a step that ours, and the model, answered so; says what the Rust answers otherwise.
    pub fn step(&mut self, step: &'a Step, reply: Reply, lent: &Lent) -> Result<(), String> {
        match step {
            Step::Finish => self.finish(reply, lent),
            step if step.is_by_hand() => {
                self.recording = None;
                self.by_hand = true;
                Ok(())
            }
            // It has nothing of the kind.
            Step::WriteRelas(_) | Step::ReadRelas => Ok(()),
            Step::Join(Vast::Neither) => {
                self.compared |= links::compare(reply.refusal, lent)? != Beside::Nothing;
                Ok(())
            }
            // So much code is not made for it.
            Step::Join(_) => Ok(()),
            // Nothing ran of a sheet whose form is broken.
            Step::RawSheet(_) if reply.refusal == 1 => Ok(()),
            Step::RawSheet(sheet) => {
                let sheet = Sheet::read(sheet).map_err(|_| "the reference finds a broken form")?;
                self.calls(&sheet.calls().collect::<Vec<_>>(), reply)
            }
            Step::Sheet(calls) => self.calls(calls, reply),
            direct => {
                let refusal = reply.refusal;
                let made = u32::from(refusal == 0);
                self.calls(&direct.calls(), Reply::new(refusal, made))
            }
        }
    }

    /// Calls of which as many as the reply's value are accepted, and the next is refused if the reply is a refusal.
    fn calls(&mut self, calls: &[Call<'a>], reply: Reply) -> Result<(), String> {
        let Some(mut recording) = self.recording.take() else {
            return Ok(());
        };
        let refusal = reply.refusal;
        let (made, others) = calls.split_at(reply.value as usize);
        let refused = others.first().filter(|_| refusal != 0);
        self.accepted.extend_from_slice(made);
        for (index, call) in made.iter().enumerate() {
            let answer = quietly(|| recording.call(call)).and_then(|answer| answer);
            if let Err(error) = answer {
                return Err(format!("the Rust answers {error} to call {index}"));
            }
        }
        if let Some(call) = refused {
            if is_added(refusal, call) {
                return Ok(());
            }
            match quietly(|| recording.call(call)).and_then(|answer| answer) {
                Err(error) if Some(error) == error_of(refusal) => {}
                Err(error) => return Err(format!("the Rust answers {error}, not {refusal}")),
                Ok(_) => return Err(format!("the Rust accepts what {refusal} refuses")),
            }
        }
        self.recording = Some(recording);
        Ok(())
    }

    fn finish(&mut self, reply: Reply, lent: &Lent) -> Result<(), String> {
        let Some(mut recording) = self.recording.take() else {
            return Ok(());
        };
        let departure = self.departs();
        let told = departure.and_then(|departure| departure.told);
        if departure.is_some() && told.is_none() {
            return Ok(());
        }
        let added = added_refusal(self.arch, self.symbols, &self.accepted);
        let refusal = reply.refusal;
        let expected = error_of(refusal);
        match added {
            Some(number) if refusal == 0 => {
                return Err(format!("finished, where {number} is to be answered"));
            }
            None if refusal == 0 || expected.is_some() => {}
            _ => return Ok(()),
        }
        self.compared = true;
        let answer = quietly(|| match told {
            None => recording.finish(),
            Some(told) => told(&mut recording, &self.accepted),
        });
        let answer = answer.and_then(|answer| answer);
        match (answer, expected) {
            (Ok(finished), None) => compare_finished(&finished, lent),
            (Ok(_), Some(_)) => Err(format!("the Rust finishes what {refusal} refuses")),
            (Err(error), Some(expected)) if error == expected => Ok(()),
            (Err(error), _) => Err(format!("the Rust answers {error} to finish, not {refusal}")),
        }
    }
}

fn can_start(arch: u32, symbols: u32) -> bool {
    [X86, X64, AARCH64].contains(&arch) && symbols <= MOST_SYMBOLS
}

/// An added refusal of document 01, which the Rust does not know.
fn is_added(refusal: u32, call: &Call<'_>) -> bool {
    match refusal {
        5 => matches!(call, Call::Align { multiple, .. } if multiple.is_power_of_two()),
        6 | 9 => false,
        7 => matches!(call, Call::Ref { .. }),
        8 => matches!(call, Call::Ref { .. } | Call::Jump { .. }),
        _ => true,
    }
}

/// The Rust's error for a number; nothing for one that is added, or none.
fn error_of(refusal: u32) -> Option<Error> {
    Some(match refusal {
        5 | 8 | 19 => Error::InvalidArgument,
        6 | 20 | 22 => Error::UnsupportedInstruction,
        7 => Error::InvalidArch,
        9 | 13 => Error::InvalidState,
        15 => Error::UnboundLabel,
        18 | 21 => Error::TooLarge,
        _ => return None,
    })
}

/// Everything that the Rust hands out against what ours left in lent memory.
pub fn compare_finished(finished: &Finished, lent: &Lent) -> Result<(), String> {
    let [_, length, alignment, layouts, labels, relocations] = lent.words(Part::Record, 0);
    let same = |what: &str, ours: u32, rust: u32| {
        (ours == rust)
            .then_some(())
            .ok_or_else(|| format!("{what}: ours {ours}, the Rust {rust}"))
    };
    same("length", length, finished.code().len() as u32)?;
    same("alignment", alignment, finished.alignment())?;
    same("layouts", layouts, finished.layouts())?;
    same("labels", labels, finished.labels().len() as u32)?;
    same(
        "relocations",
        relocations,
        finished.relocations().len() as u32,
    )?;
    for (label, offset) in finished.labels().iter().enumerate() {
        let ours = lent.word(Part::Labels, label, 0);
        same(&format!("label {label}"), ours, *offset)?;
    }
    for (number, rust) in finished.relocations().enumerate() {
        let [offset, kind, target, _, low, high] = lent.words(Part::Relocations, number);
        let addend = (u64::from(high) << 32 | u64::from(low)).cast_signed();
        if (offset, kind, target, addend) != (rust.offset, rust.kind, rust.target, rust.addend) {
            return Err(format!("relocation {number}: the Rust {rust:?}"));
        }
    }
    let code = &lent[Part::Output][..length as usize];
    match code.iter().zip(finished.code()).position(|(a, b)| a != b) {
        None => Ok(()),
        Some(at) => Err(format!("code differs from the Rust's at byte {at}")),
    }
}
