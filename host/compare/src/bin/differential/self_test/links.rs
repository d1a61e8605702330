//! What of a join is held against the Rust's linker and loader: each change is found.

use compare::{Lent, Part};

use super::{Findings, inputs_of};
use crate::links::{self, Beside};
use crate::runner::Runner;

/// Inputs of each family that changes are made in.
const TRIED: u64 = 400;

pub fn changes_are_found(findings: &mut Findings) {
    let mut runner = Runner::default();
    for family in ["join", "joins"] {
        for (index, input) in inputs_of(family, TRIED).iter().enumerate() {
            let outcome = runner.run(input).ok();
            let Some(outcome) = outcome.filter(|outcome| outcome.compared) else {
                continue;
            };
            let refusal = outcome.refusal;
            let lent = &mut runner.lent().clone();
            let beside = links::compare(refusal, lent);
            let mut add = |is_found, what: String| {
                findings.add(is_found, || format!("{family} {index}, linked: {what}"));
            };
            for other in told_from(refusal, beside) {
                let is_found = links::compare(*other, lent).is_err();
                add(is_found, format!("{other} for {refusal}"));
            }
            if refusal == 0 && links::compare(0, lent) == Ok(Beside::Image) {
                for (part, at) in compared_bytes(lent) {
                    lent[part][at] ^= 1;
                    let is_found = links::compare(0, lent).is_err();
                    add(is_found, format!("{part:?} byte {at}"));
                    lent[part][at] ^= 1;
                }
            }
        }
    }
}

/// Answers that the linker shows to be wrong.
fn told_from(refusal: u32, beside: Result<Beside, String>) -> &'static [u32] {
    match (refusal, beside) {
        (_, Err(_) | Ok(Beside::Nothing)) => &[],
        (27, _) => &[0, 28, 29, 11, 17, 18, 23],
        (0, Ok(Beside::Image)) => &[27, 28, 29, 17, 18],
        (_, Ok(Beside::Image)) => &[0, 27, 28, 17],
        _ => &[27],
    }
}

/// Places in what a join left that are compared: words of the record, labels, relocations but for the word that says nothing, and the code.
fn compared_bytes(lent: &Lent) -> Vec<(Part, usize)> {
    let [_, length, _, _, labels, relocations] = lent.words(Part::Record, 0);
    let mut bytes: Vec<_> = (0..6).map(|word| (Part::Record, word * 4)).collect();
    bytes.extend((0..labels as usize).map(|label| (Part::JoinedLabels, label * 4)));
    for entry in 0..relocations as usize {
        let at = entry * Part::JoinedRelocations.entry_bytes();
        bytes.extend([0, 4, 8, 16, 23].map(|byte| (Part::JoinedRelocations, at + byte)));
    }
    let leap = length as usize / 64 + 1;
    let code = (0..length as usize).step_by(leap);
    bytes.extend(code.map(|at| (Part::Output, at)));
    bytes
}
