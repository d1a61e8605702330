//! Wrong answers: what a program that breaks a rule would answer on a small recording. Each must be found.

use compare::{AARCH64, Part, X64, X86};
use reference::{Call, DEPARTURES, TextStep, quietly, read_pieces, read_text};

use super::Findings;
use super::join::handed;
use crate::families::Handed;
use crate::fault::{Change, Place, Put};
use crate::runner::Runner;
use crate::scenario::{Scenario, Step};

/// One list for the base and one for each request; its head says how they are written.
const LISTS: &str = include_str!("../../../../wrong-answers.txt");

/// Their names, each of which has an answer at least.
const NAMES: [&str; 8] = [
    "Base", "One", "Two", "Three", "Four", "Five", "Six", "Seven",
];

/// The words of a record.
const RECORD: [&str; 6] = [
    "arch",
    "length",
    "alignment",
    "layouts",
    "labels",
    "relocations",
];

/// What a broken rule would answer to the last step.
struct Wrong {
    scenario: Scenario,
    changes: Vec<Change>,
    /// The Rust shows it, too.
    by_rust: bool,
}

/// Each wrong answer is found, by the model, and by the Rust if and only if it says so; the right one, which is another, is found to agree. Every list
/// and every departure has one.
pub fn answers_are_found(findings: &mut Findings) {
    let mut runner = Runner::default();
    let (mut list, mut met) = ("", Vec::new());
    let lines = LISTS
        .lines()
        .filter(|line| !line.is_empty() && !line.starts_with('#'));
    for line in lines {
        if let Some(name) = line.strip_prefix("== ") {
            list = name;
            continue;
        }
        met.push(list);
        let wrong = read(line).unwrap_or_else(|| panic!("it can't be read: {line}"));
        let mut add = |holds, what: &str| findings.add(holds, || format!("{list}: {line}: {what}"));
        let outcome = match runner.run(&wrong.scenario) {
            Ok(outcome) => outcome,
            Err(disagreement) => {
                add(false, &format!("the right answer differs {disagreement}"));
                continue;
            }
        };
        met.extend(outcome.departure);
        for change in &wrong.changes {
            let found = change.found(outcome.last, runner.lent());
            let is_right = found == Some(change.right) && change.right != change.wrong;
            add(is_right, &format!("right is {found:?}"));
        }
        let last = wrong.scenario.steps.len() - 1;
        let mut run_with = |put| runner.run_with(&wrong.scenario, Some((last, put))).is_err();
        add(run_with(Put::IntoOurs(&wrong.changes)), "not by the model");
        // A comparison that would read past what is lent has found it, too.
        let by_rust = quietly(|| run_with(Put::IntoBoth(&wrong.changes))).unwrap_or(true);
        add(by_rust == wrong.by_rust, &format!("by the Rust: {by_rust}"));
    }
    for name in NAMES
        .into_iter()
        .chain(DEPARTURES.iter().map(|departure| departure.name))
    {
        findings.add(met.contains(&name), || {
            format!("there is no wrong answer for {name}")
        });
    }
}

/// RULE | ARCH | STEPS | CHANGES | WHO
fn read(line: &str) -> Option<Wrong> {
    let [_, arch, steps, changes, who] = line
        .split(" | ")
        .map(str::trim)
        .collect::<Vec<_>>()
        .try_into()
        .ok()?;
    let arch = match arch {
        "X86" => X86,
        "X64" => X64,
        "A64" => AARCH64,
        other => other.parse().ok()?,
    };
    let changes = changes
        .split(", ")
        .map(|change| read_change(&change.split(' ').collect::<Vec<_>>()));
    Some(Wrong {
        scenario: read_scenario(arch, steps)?,
        changes: changes.collect::<Option<_>>()?,
        by_rust: match who {
            "both" => true,
            "model" => false,
            _ => return None,
        },
    })
}

fn read_scenario(arch: u32, text: &str) -> Option<Scenario> {
    let (mut steps, mut lent, mut pieces) = (Vec::new(), Vec::new(), None::<Handed>);
    for step in text.split(" / ") {
        match step.split(' ').collect::<Vec<_>>()[..] {
            ["finish"] => steps.push(Step::Finish),
            ["elf", section] => steps.push(Step::WriteRelas(number(section)?)),
            ["read"] => steps.push(Step::ReadRelas),
            ["join"] => steps.push(Step::Join(pieces.as_ref()?.is_vast)),
            ["align", multiple, most] => steps.push(Step::Align {
                multiple: number(multiple)?,
                most: number(most)?,
            }),
            ["constant", size] => steps.push(Step::Constant(
                (1..=number(size)?).map(|byte| byte as u8).collect(),
            )),
            ["lend", part, more] => lent.push((part_of(part)?, more.parse::<i64>().ok()?)),
            ["set", ref place @ .., word] => {
                let (part, at, count) = bytes_of(place)?;
                let bytes = number(word)?.to_le_bytes()[..count].to_vec();
                steps.push(Step::Write { part, at, bytes });
            }
            ["pieces", ..] => {
                let read = read_pieces(arch, step.strip_prefix("pieces")?).ok()?;
                pieces = Some(handed(&read));
            }
            ["direct", ..] => steps.push(direct(calls(step.strip_prefix("direct ")?)?.pop()?)?),
            ["raw", bytes] => {
                let bytes = (0..bytes.len() / 2)
                    .map(|at| u8::from_str_radix(&bytes[2 * at..][..2], 16).ok());
                steps.push(Step::RawSheet(bytes.collect::<Option<_>>()?));
            }
            _ => steps.push(Step::Sheet(calls(step)?)),
        }
    }
    let mut scenario = match pieces {
        None => Scenario::new(arch, 1, 1, steps),
        Some(handed) => {
            let mut scenario = handed.into_scenario(1);
            scenario.steps.truncate(1);
            scenario.steps.extend(steps);
            scenario
        }
    };
    let relocations = scenario.room.bytes(Part::Relocations);
    if scenario
        .steps
        .iter()
        .any(|step| matches!(step, Step::WriteRelas(_) | Step::ReadRelas))
    {
        scenario.room.set_bytes(Part::Relas, relocations);
        scenario.room.set_bytes(Part::Entries, relocations);
    }
    for (part, more) in lent {
        let bytes = scenario.room.bytes(part) as i64 + more;
        scenario.room.set_bytes(part, bytes as usize);
    }
    Some(scenario)
}

fn calls(text: &str) -> Option<Vec<Call<'static>>> {
    let script = read_text(text).ok()?;
    script
        .calls
        .iter()
        .map(|call| TextStep::call(call).cloned())
        .collect()
}

fn direct(call: Call<'static>) -> Option<Step> {
    Some(match call {
        Call::Bytes(bytes) => Step::Bytes(bytes.into_owned()),
        Call::Constant(bytes) => Step::Constant(bytes.into_owned()),
        Call::Relocation {
            offset,
            kind,
            target,
            addend,
        } => Step::Relocation {
            offset,
            kind,
            target,
            addend,
        },
        _ => return None,
    })
}

fn read_change(words: &[&str]) -> Option<Change> {
    let [place @ .., right, wrong] = words else {
        return None;
    };
    let place = match place {
        ["refusal"] => Place::Refusal,
        ["value"] => Place::Value,
        _ => {
            let (part, at, count) = bytes_of(place)?;
            Place::Bytes(part, at, count)
        }
    };
    Some(Change {
        place,
        right: number(right)?,
        wrong: number(wrong)?,
    })
}

/// The bytes of a place: their part, where they start, and how many they are.
fn bytes_of(place: &[&str]) -> Option<(Part, usize, usize)> {
    let (part, entry, word) = match *place {
        ["open"] => (Part::Counts, 0, 12),
        ["count", word] => (Part::Counts, 0, word.parse().ok()?),
        ["label", label] => (Part::Labels, label.parse().ok()?, 0),
        ["code", at] => return Some((Part::Output, at.parse().ok()?, 1)),
        [name] => (
            Part::Record,
            0,
            RECORD.iter().position(|word| *word == name)?,
        ),
        [part, place] => {
            let (entry, word) = place.split_once('.').unwrap_or((place, "0"));
            (part_of(part)?, entry.parse().ok()?, word.parse().ok()?)
        }
        _ => return None,
    };
    Some((
        part,
        entry * part.entry_bytes() + word * 4,
        part.entry_bytes().min(4),
    ))
}

fn part_of(name: &str) -> Option<Part> {
    Part::ALL
        .into_iter()
        .find(|part| format!("{part:?}") == name)
}

/// A number below 2^32, decimal or hexadecimal, or one below 0 that is counted from there.
fn number(text: &str) -> Option<u32> {
    match text.strip_prefix("0x") {
        Some(digits) => u32::from_str_radix(digits, 16).ok(),
        None => text.parse::<i64>().ok().map(|number| number as u32),
    }
}
