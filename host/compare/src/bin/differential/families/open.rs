//! Numbers of open entries that are handed in, most of them wrong, and tables made by hand that name labels as no recording does.

use compare::open::MOST_OPEN;
use compare::{AARCH64, LABEL_TARGET, MOST_ENTRIES, NONE, Part, Random, X64, X86};
use reference::Call;

use super::draft::{Draft, any_condition};
use super::{direct, mixed, parts};
use crate::scenario::{Open, Scenario, Step};

pub fn scenario(random: &mut Random) -> Scenario {
    match random.below(16) {
        0..=5 => between_sheets(random),
        6..=8 => before_binds(random),
        9 | 10 => passing_the_most(random),
        11..=14 => made_by_hand(random),
        _ => labels_lent(random),
    }
}

/// The right number, one near it, one near 0 or the most, or any.
pub fn number(random: &mut Random) -> Open {
    match random.below(12) {
        0..=2 => Open::Right(0),
        3 => Open::Right(1),
        4 => Open::Right(u32::MAX),
        5 => Open::Number(0),
        6 => Open::Number(random.below(6)),
        7 => Open::Number(MOST_OPEN - random.below(3)),
        8 => Open::Number(MOST_OPEN),
        9 => Open::Number(MOST_OPEN + 1),
        10 => Open::Number(u32::MAX),
        _ => Open::Number(random.word()),
    }
}

/// In most cases the right one, so that a finish gets past it.
fn mostly_right(random: &mut Random) -> Step {
    if random.chance(70) {
        return Step::Open(Open::Right(0));
    }
    Step::Open(number(random))
}

fn any_arch(random: &mut Random) -> u32 {
    random.pick(&[X64, X64, X64, X86, AARCH64])
}

/// A recording in several sheets, with numbers, direct calls and finishes between them, and calls after the last.
fn between_sheets(random: &mut Random) -> Scenario {
    let mut draft = Draft::new(any_arch(random));
    draft.careful = random.chance(70);
    let has_jumps = random.chance(50);
    for _ in 0..random.between(2, 20) {
        mixed::add_call(&mut draft, random, has_jumps);
    }
    let percent = random.pick(&[0, 60, 100]);
    draft.bind_rest(random, percent);
    let (arch, symbols) = (draft.arch, draft.symbols);
    let mut rest = &draft.calls[..];
    let mut steps = Vec::new();
    while !rest.is_empty() {
        let count = random.between(0, 8).min(rest.len() as u32) as usize;
        let (part, others) = rest.split_at(count);
        steps.push(Step::Sheet(part.to_vec()));
        rest = others;
        match random.below(10) {
            0..=3 => steps.push(Step::Open(number(random))),
            4 => steps.push(direct::direct(random)),
            5 => steps.push(Step::Finish),
            _ => {}
        }
    }
    steps.push(mostly_right(random));
    steps.push(Step::Finish);
    if random.chance(40) {
        steps.push(Step::Open(number(random)));
        steps.push(parts::after_finish(random));
        steps.push(Step::Finish);
    }
    Scenario::new(arch, symbols, random.number(), steps)
}

/// An entry of any kind that names a label. Off X64 jumps and refs are not kept.
fn name_label(draft: &mut Draft, random: &mut Random, label: u32) {
    let offset = draft.offset;
    let code = if draft.arch == AARCH64 { 14 } else { 0 };
    match random.below(4) {
        0 => {
            draft.bytes(&[0; 4]);
            draft.use_at(offset, label, code);
        }
        1 => {
            draft.bytes(&[0; 4]);
            draft.ref_at(offset, label, code, 0);
        }
        2 => draft.jump(label, random.pick(&[2, 5, 6]), any_condition(random)),
        _ => draft.relocation(offset, 0, label.wrapping_add(LABEL_TARGET), 0),
    }
}

/// Entries that name few labels, some of them those of constants.
fn naming(draft: &mut Draft, random: &mut Random) {
    for _ in 0..random.pick(&[1, 2, 3, 8]) {
        draft.label();
    }
    if random.chance(30) {
        let constant = draft.constant(random.bytes(8));
        draft.ask(constant);
    }
    for _ in 0..random.below(10) {
        let label = random.below(draft.labels());
        name_label(draft, random, label);
    }
}

/// Mostly the bind of a label that is not bound yet.
fn bind(draft: &mut Draft, random: &mut Random) {
    let label = match draft.unbound_label() {
        Some(label) if random.chance(90) => label,
        _ => random.below(draft.labels() + 1),
    };
    draft.bind(label);
}

/// A sheet of what a draft has so far, which goes on with no calls.
fn sheet(draft: &mut Draft) -> Step {
    Step::Sheet(std::mem::take(&mut draft.calls))
}

/// Several entries of few labels, a number that may be less than they are, and binds, few or many in a sheet; more of the same.
fn before_binds(random: &mut Random) -> Scenario {
    let mut draft = Draft::new(any_arch(random));
    draft.symbols = 0;
    naming(&mut draft, random);
    let mut steps = vec![sheet(&mut draft)];
    for _ in 0..random.between(1, 3) {
        steps.push(match random.below(4) {
            0 => Step::Open(number(random)),
            1 => Step::Open(Open::Right(0)),
            _ => Step::Open(Open::Number(random.below(6))),
        });
        for _ in 0..random.pick(&[1, 2, 5, 9]) {
            bind(&mut draft, random);
            if random.chance(40) {
                let label = random.below(draft.labels());
                name_label(&mut draft, random, label);
            }
        }
        steps.push(sheet(&mut draft));
    }
    steps.push(mostly_right(random));
    steps.push(Step::Finish);
    Scenario::new(draft.arch, draft.symbols, random.number(), steps)
}

/// A sheet amid which the number passes the most, or stays just below.
fn passing_the_most(random: &mut Random) -> Scenario {
    let mut draft = Draft::new(any_arch(random));
    draft.symbols = 0;
    draft.label();
    draft.here();
    let mut steps = vec![sheet(&mut draft)];
    steps.push(Step::Open(Open::Number(MOST_OPEN - random.below(4))));
    for _ in 0..random.between(1, 8) {
        match random.below(8) {
            0 => _ = draft.label(),
            1 => draft.bind(random.below(2)),
            2 => draft.align(random.pick(&[1, 4, 3])),
            _ => {
                let label = random.pick(&[0, 0, 0, 0, 1, 9]);
                name_label(&mut draft, random, label);
            }
        }
    }
    steps.push(sheet(&mut draft));
    if random.chance(50) {
        steps.push(Step::Sheet(Vec::new()));
    }
    if random.chance(50) {
        steps.push(direct::direct(random));
    }
    steps.push(mostly_right(random));
    steps.push(Step::Finish);
    Scenario::new(draft.arch, draft.symbols, random.number(), steps)
}

/// Words written into an entry of a part.
fn write(part: Part, entry: usize, word: usize, words: &[u32]) -> Step {
    let bytes = words.iter().flat_map(|word| word.to_le_bytes());
    Step::Write {
        part,
        at: entry * part.entry_bytes() + word * 4,
        bytes: bytes.collect(),
    }
}

/// The room for entries that are made by hand, of each table.
const BY_HAND: usize = 4;

/// Entries that name known labels and unknown ones, on every architecture, and labels bound and unbound by hand; new labels and binds on them.
fn made_by_hand(random: &mut Random) -> Scenario {
    let mut draft = Draft::new(any_arch(random));
    draft.symbols = 1;
    for _ in 0..random.below(3) {
        draft.label();
    }
    draft.zeros(random.below(20));
    let labels = draft.labels();
    let mut steps = vec![sheet(&mut draft)];
    let tables = [Part::Uses, Part::Refs, Part::Events, Part::Relocations];
    for table in tables {
        let count = random.below(BY_HAND as u32 + 1);
        for entry in 0..count {
            let words = entry_words(random, table, draft.arch, labels);
            steps.push(write(table, entry as usize, 0, &words));
        }
        let column = Part::TABLES.iter().position(|other| *other == table);
        let column = 4 + column.expect("it is a table");
        steps.push(write(Part::Counts, 0, column, &[count]));
    }
    let mut hand = labels_by_hand(random, labels);
    steps.append(&mut hand);
    steps.push(mostly_right(random));
    for _ in 0..random.between(1, 3) {
        for _ in 0..random.pick(&[1, 2, 4, 20]) {
            match random.below(6) {
                0..=2 => _ = draft.label(),
                3 | 4 => bind(&mut draft, random),
                _ => {
                    let label = random.below(draft.labels() + 1);
                    name_label(&mut draft, random, label);
                }
            }
        }
        steps.push(sheet(&mut draft));
        if random.chance(30) {
            steps.append(&mut labels_by_hand(random, labels));
            steps.push(mostly_right(random));
        }
    }
    steps.push(Step::Finish);
    let mut scenario = Scenario::new(draft.arch, draft.symbols, random.number(), steps);
    for table in tables {
        scenario.room.add(table, BY_HAND);
    }
    scenario
}

/// An entry that need not fit: its label is known, soon to be made, or never.
fn entry_words(random: &mut Random, table: Part, arch: u32, labels: u32) -> Vec<u32> {
    let label = match random.below(8) {
        0 => random.pick(&[NONE, LABEL_TARGET, LABEL_TARGET - 1]),
        _ => random.below(labels + 2),
    };
    let code = if arch == AARCH64 { 14 } else { 0 };
    match table {
        Part::Uses => vec![0, label, code],
        Part::Refs => vec![0, label, code, 0],
        Part::Events => {
            let kind = random.pick(&[1, 1, 1, 2, 0, 3, u32::MAX]);
            vec![kind, 0, random.pick(&[0, 2]), label, 16]
        }
        _ => {
            let symbol = random.pick(&[0, 0, 1, LABEL_TARGET - 1]);
            let target = label.wrapping_add(LABEL_TARGET);
            let target = if random.chance(20) { symbol } else { target };
            vec![0, 0, target, 0, 0, 0]
        }
    }
}

/// Now and then a label's offset, or the current one.
fn labels_by_hand(random: &mut Random, labels: u32) -> Vec<Step> {
    let mut steps = Vec::new();
    if labels > 0 && random.chance(30) {
        let label = random.below(labels) as usize;
        let offset = random.pick(&[0, 0, NONE]);
        steps.push(write(Part::Labels, label, 0, &[offset]));
    }
    // A label bound there reads as unbound. So much code is never lent.
    if random.chance(3) {
        steps.push(write(Part::Counts, 0, 4, &[NONE]));
    }
    steps
}

/// Relocations by direct calls, which are lent the labels: as many as counted, fewer, or more than the limit.
fn labels_lent(random: &mut Random) -> Scenario {
    let mut draft = Draft::new(any_arch(random));
    let labels = random.below(4);
    for _ in 0..labels {
        draft.label();
    }
    let mut steps = vec![sheet(&mut draft)];
    if random.chance(40) {
        let counted = random.pick(&[0, labels + 1, labels + 2, 65_537, NONE]);
        steps.push(write(Part::Counts, 0, 5, &[counted]));
    }
    for _ in 0..random.between(1, 3) {
        steps.push(mostly_right(random));
        let label = LABEL_TARGET + random.below(labels + 2);
        steps.push(Step::Relocation {
            offset: 0,
            kind: random.pick(&[0, 0, 0, 0, 7, 28]),
            target: random.pick(&[label, label, label, 0, NONE]),
            addend: 1,
        });
    }
    steps.push(Step::Sheet(vec![Call::Bind(0)]));
    steps.push(mostly_right(random));
    steps.push(Step::Finish);
    let mut scenario = Scenario::new(draft.arch, draft.symbols, random.number(), steps);
    if random.chance(20) {
        let past = random.below(2) as usize;
        scenario.room.set(Part::Labels, MOST_ENTRIES + past);
    }
    scenario
}
