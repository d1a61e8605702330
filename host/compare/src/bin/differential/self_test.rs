//! Shows that the comparison can fail: every fault put into ours is found, against the model even where a departure leaves the Rust aside.

mod join;
mod links;
mod wrong;

use compare::{Lent, Part, Reply};
use reference::{Call, Departure, Error, Finished, Recording};

use crate::families::{self, Family};
use crate::fault::{Fault, Put};
use crate::runner::Runner;
use crate::rust::{Rust, compare_finished};
use crate::scenario::{Scenario, Step};
use crate::summary::Tally;

/// Inputs of each family that each fault is put into.
const INPUTS: u64 = 40;

/// A departure of this test alone, which some recordings of most families meet.
const DEPARTURES: &[Departure] = &[Departure {
    name: "alignments",
    is_met: |_, _, calls| has_alignment(calls),
    told: None,
}];

fn has_alignment(calls: &[Call<'_>]) -> bool {
    calls.iter().any(|call| matches!(call, Call::Align { .. }))
}

/// How many faults were put in, and which of them were not found.
#[derive(Default)]
pub struct Findings {
    pub faults: u64,
    pub missed: Vec<String>,
}

impl Findings {
    pub fn add(&mut self, found: bool, fault: impl FnOnce() -> String) {
        self.faults += 1;
        if !found {
            self.missed.push(fault());
        }
    }
}

/// Puts every fault into inputs of every family.
pub fn run() -> Findings {
    let mut findings = Findings::default();
    let mut runner = Runner::default();
    for family in families::all() {
        // Inputs of this one are large, and have no other answers.
        if family.name != "limits" {
            against_model(&family, &mut runner, &mut findings);
            against_rust(&family, &mut runner, &mut findings);
            with_departures(&family, &mut runner, &mut findings);
            as_wide_as_the_change(&family, &mut runner, &mut findings);
        }
    }
    wrong::answers_are_found(&mut findings);
    join::numbers_are_answered(&mut findings);
    links::changes_are_found(&mut findings);
    findings
}

/// The first inputs of a family.
fn inputs_of(name: &str, count: u64) -> Vec<Scenario> {
    let family = families::all()
        .into_iter()
        .find(|family| family.name == name);
    let family = family.expect("it is one of the families");
    (0..count).map(|index| family.scenario(0, index)).collect()
}

fn against_model(family: &Family, runner: &mut Runner, findings: &mut Findings) {
    for index in 0..INPUTS {
        let scenario = family.scenario(0, index);
        let step = call_of(&scenario, index);
        for fault in Fault::all() {
            if has_effect(fault, &scenario, step) {
                let found = runner
                    .run_with(&scenario, Some((step, Put::Fault(fault))))
                    .is_err();
                findings.add(found, || format!("{} {index}: {fault:?}", family.name));
            }
        }
    }
}

/// The step that a fault is put into: any for one input or another, but one that makes a call.
fn call_of(scenario: &Scenario, index: u64) -> usize {
    let steps = scenario.steps.iter().enumerate();
    let calls: Vec<_> = steps
        .filter(|(_, step)| !step.is_no_call())
        .map(|(step, _)| step)
        .collect();
    calls[index as usize % calls.len()]
}

/// Something is there that the fault changes.
fn has_effect(fault: Fault, scenario: &Scenario, step: usize) -> bool {
    match (fault, &scenario.steps[step]) {
        (Fault::Content(part), _) => scenario.room.bytes(part) > 0,
        (Fault::Read, step) => step.bytes().is_some(),
        _ => true,
    }
}

/// Inputs of one sheet and a finish, all of it accepted and compared with the Rust, and what they leave in lent memory.
fn finished_inputs(
    family: &Family,
    runner: &mut Runner,
) -> impl Iterator<Item = (u64, Scenario, Lent)> {
    (0..INPUTS).filter_map(|index| {
        let scenario = family.scenario(0, index);
        let is_sheet = matches!(scenario.steps[..], [Step::Sheet(_), Step::Finish]);
        let outcome = is_sheet.then(|| runner.run(&scenario).ok())??;
        let is_accepted = outcome.refusal == 0 && outcome.compared;
        is_accepted.then(|| (index, scenario, runner.lent().clone()))
    })
}

/// Changes what ours left before it is compared with the Rust's answer.
fn against_rust(family: &Family, runner: &mut Runner, findings: &mut Findings) {
    for (index, scenario, mut lent) in finished_inputs(family, runner) {
        let calls = scenario.steps[0].calls();
        let finished = finished_by_rust(&scenario, &calls);
        for (part, at) in compared_bytes(&lent) {
            lent[part][at] ^= 1;
            let found = compare_finished(&finished, &lent).is_err();
            findings.add(found, || {
                format!("{} {index}: {part:?} byte {at}", family.name)
            });
            lent[part][at] ^= 1;
        }
    }
}

/// What calls come to in the Rust, told of their ceilings.
fn finished_by_rust(scenario: &Scenario, calls: &[Call<'_>]) -> Finished {
    let finished = || {
        let mut recording = Recording::new(scenario.arch, scenario.symbols)?;
        for call in calls {
            recording.call(call)?;
        }
        recording.finish_within(calls)
    };
    finished().unwrap_or_else(|error: Error| panic!("it agrees with ours: {error}"))
}

/// A recording that meets a departure is held against the model, not against the Rust, and counted under its name; any other is held against both.
fn with_departures(family: &Family, runner: &mut Runner, findings: &mut Findings) {
    let mut departing = Runner::departing(DEPARTURES);
    let mut tally = Tally::new(family.name, family.subject);
    let mut met = 0;
    for (index, scenario, mut lent) in finished_inputs(family, runner) {
        let departs = has_alignment(&scenario.steps[0].calls());
        met += u64::from(departs);
        let mut add = |holds, what| {
            findings.add(holds, || format!("{} {index}: {what}", family.name));
        };

        let outcome = departing.run(&scenario);
        tally.add(&outcome.expect("it agrees without departures, too"));

        let fault = Some((1, Put::Fault(Fault::Content(Part::Record))));
        let found = departing.run_with(&scenario, fault).is_err();
        add(found, "record, held against the model");

        let length = lent.word(Part::Record, 0, 1);
        lent.set_word(Part::Record, 0, 1, length ^ 1);
        let found = is_held_against_rust(&scenario, &lent);
        add(found != departs, "length, held against the Rust");
    }
    let counted = tally.departed.values().sum::<u64>();
    findings.add(counted == met, || {
        format!("{}: {counted} departures counted, not {met}", family.name)
    });
}

/// Whether the Rust, beside accepted calls and a finish, differs from what is left in lent memory.
fn is_held_against_rust(scenario: &Scenario, lent: &Lent) -> bool {
    let mut rust = Rust::new(scenario, DEPARTURES);
    scenario.steps.iter().any(|step| {
        let reply = Reply::new(0, step.calls().len() as u32);
        rust.step(step, reply, lent).is_err()
    })
}

/// Places in what a finish left that are compared with the Rust: words of the record, labels, relocations, and some of the code.
fn compared_bytes(lent: &Lent) -> Vec<(Part, usize)> {
    let [_, length, _, _, labels, relocations] = lent.words(Part::Record, 0);
    let relocation = Part::Relocations.entry_bytes();
    let mut bytes: Vec<_> = (1..6).map(|word| (Part::Record, word * 4)).collect();
    bytes.extend((0..labels as usize).map(|label| (Part::Labels, label * 4)));
    for entry in 0..relocations as usize {
        bytes.extend([0, 4, 8, 16, 23].map(|at| (Part::Relocations, entry * relocation + at)));
    }
    let length = length as usize;
    let leap = length / 64 + 1;
    bytes.extend((0..length).step_by(leap).map(|at| (Part::Output, at)));
    bytes
}

/// Of the recordings that finish, those that meet a departure would differ from the Rust, and no others.
fn as_wide_as_the_change(family: &Family, runner: &mut Runner, findings: &mut Findings) {
    let mut undeparted = Runner::departing(&[]);
    for index in 0..INPUTS {
        let scenario = family.scenario(0, index);
        if scenario.steps.iter().any(Step::is_by_hand) {
            continue;
        }
        let name = || format!("{} {index}", family.name);
        let Ok(outcome) = runner.run(&scenario) else {
            findings.add(false, || format!("{}: differs, no departure met", name()));
            continue;
        };
        if outcome.refusal != 0 {
            continue;
        }
        let departs = outcome.departure;
        let differs = undeparted.run(&scenario).is_err();
        findings.add(differs == departs.is_some(), || {
            format!("{}: departure {departs:?}, differs: {differs}", name())
        });
    }
}
