//! Lent memory at the limits of document 01, and above them.

use compare::{AARCH64, LABEL_TARGET, MOST_CODE, MOST_ENTRIES, Part, Random, X64};
use reference::Call;

use super::open;
use crate::scenario::{Scenario, Step};

pub fn scenario(random: &mut Random) -> Scenario {
    match random.below(12) {
        0 => full_code(random),
        10 => padded_to_the_limit(random),
        11 => full_of_ceilings(random),
        1 => full_table(random),
        2 => many_events(random),
        3 => grown_code(random),
        4 => most_open(random),
        5 => many_binds(random),
        _ => lent_to_the_limit(random),
    }
}

/// A small recording, one part of which is lent to its limit or above.
fn lent_to_the_limit(random: &mut Random) -> Scenario {
    let calls = vec![
        Call::NewLabel,
        Call::Bind(0),
        Call::Bytes((&[0; 2]).into()),
        Call::Jump {
            start: 0,
            length: 2,
            label: random.pick(&[0, 0, 1]),
            condition: 16,
        },
    ];
    let mut steps = vec![Step::Sheet(calls), Step::Bytes(vec![1]), Step::Finish];
    steps.push(Step::Sheet(Vec::new()));
    let mut scenario = Scenario::new(X64, 0, random.number(), steps);
    let part = random.pick(&[
        Part::Code,
        Part::Labels,
        Part::Events,
        Part::Uses,
        Part::Refs,
        Part::Constants,
        Part::Asked,
        Part::Relocations,
        Part::Segments,
        Part::Output,
    ]);
    let limit = match part {
        Part::Code | Part::Output => MOST_CODE,
        _ => MOST_ENTRIES,
    };
    let above = random.pick(&[0, 1, 1, 1]);
    scenario.room.set(part, limit + above);
    let is_divided = !matches!(part, Part::Code | Part::Output | Part::Segments);
    if is_divided && above == 0 {
        scenario
            .room
            .set_bytes(part, (limit + 1) * part.entry_bytes() - 1);
    }
    scenario
}

/// Code that fills its limit or passes it, and a constant after it.
fn full_code(random: &mut Random) -> Scenario {
    let (size, short) = random.pick(&[
        (8, 0),
        (8, 1),
        (8, 7),
        (8, 8),
        (8, 16),
        (32, 31),
        (32, 32),
        (33, 63),
        (33, 64),
        (64, 63),
        (64, 64),
    ]);
    let count = MOST_CODE - short;
    let steps = vec![
        Step::Bytes(vec![0x5A; count]),
        Step::Constant(random.bytes(size)),
        Step::Sheet(vec![Call::ConstantLabel(0)]),
        Step::Bytes(vec![1; random.below(2) as usize * (short + 1)]),
        Step::Finish,
    ];
    let arch = random.pick(&[X64, AARCH64]);
    let mut scenario = Scenario::new(arch, 0, random.number(), steps);
    scenario.room.set(Part::Code, MOST_CODE);
    scenario.room.set(Part::Output, MOST_CODE);
    scenario
}

/// Code at its limit, or a few bytes below, that a jump makes longer.
fn grown_code(random: &mut Random) -> Scenario {
    let rest = MOST_CODE - 2 - random.pick(&[0, 2, 3, 4]);
    let jump = vec![
        Call::NewLabel,
        Call::Bytes((&[0; 2]).into()),
        Call::Jump {
            start: 0,
            length: 2,
            label: 0,
            condition: 16,
        },
    ];
    let steps = vec![
        Step::Sheet(jump),
        Step::Bytes(vec![0x3C; rest]),
        Step::Sheet(vec![Call::Bind(0)]),
        Step::Finish,
    ];
    let mut scenario = Scenario::new(X64, 0, random.number(), steps);
    scenario.room.set(Part::Output, MOST_CODE);
    scenario
}

/// One call more than a table may have entries.
fn full_table(random: &mut Random) -> Scenario {
    let call = random.pick(&[0, 1, 2, 3]);
    let call = match call {
        0 => Call::NewLabel,
        1 => Call::align(1),
        2 => Call::Constant((&[]).into()),
        _ => Call::Relocation {
            offset: 3,
            kind: 0,
            target: 0,
            addend: 1,
        },
    };
    let count = MOST_ENTRIES + random.below(2) as usize;
    let steps = vec![Step::Sheet(vec![call; count]), Step::Finish];
    let mut scenario = Scenario::new(X64, 1, random.number(), steps);
    for part in Part::ALL {
        let most = MOST_ENTRIES * part.entry_bytes();
        let bytes = scenario.room.bytes(part).min(most);
        scenario.room.set_bytes(part, bytes);
    }
    scenario
}

/// Four full tables whose entries are all open, or all but one or two: as many as can be. Then the bind of what most of them name, or one more.
fn most_open(random: &mut Random) -> Scenario {
    let (label, code, kind) = (0, 0, 0);
    let mut calls = vec![Call::NewLabel, Call::NewLabel];
    for start in (0..).step_by(2).take(MOST_ENTRIES) {
        let offset = start;
        calls.push(Call::Bytes((&[0; 2]).into()));
        calls.push(Call::Jump {
            start,
            length: 2,
            label,
            condition: 16,
        });
        calls.push(Call::Use {
            offset,
            label,
            code,
        });
        calls.push(Call::Ref {
            offset,
            label,
            code,
            addend: 0,
        });
        calls.push(Call::Relocation {
            offset,
            kind,
            target: LABEL_TARGET + u32::from(start == 0),
            addend: 0,
        });
    }
    let fewer = random.below(3) as usize;
    calls.truncate(calls.len() - fewer);
    let then = random.pick(&[Some(0), Some(1), None]);
    let then = then.map_or(Call::NewLabel, Call::Bind);
    let steps = vec![
        Step::Sheet(calls),
        Step::Open(open::number(random)),
        Step::Sheet(vec![then, Call::NewLabel]),
        Step::Finish,
    ];
    Scenario::new(X64, 0, random.number(), steps)
}

/// As many uses as there may be, of labels that one sheet binds in any order, some of them before they are used.
fn many_binds(random: &mut Random) -> Scenario {
    const LABELS: u32 = 512;
    let mut calls = vec![Call::NewLabel; LABELS as usize];
    for offset in 0..MOST_ENTRIES as u32 {
        if random.chance(1) {
            calls.push(Call::Bind(random.below(LABELS)));
        }
        calls.push(Call::Use {
            offset,
            label: random.below(LABELS),
            code: 1,
        });
    }
    // Each label once, and a bind that is refused only by chance.
    let mut bound = [false; LABELS as usize];
    calls.retain(|call| match call {
        Call::Bind(label) => !std::mem::replace(&mut bound[*label as usize], true),
        _ => true,
    });
    calls.extend(
        (0..LABELS)
            .filter(|label| !bound[*label as usize])
            .map(Call::Bind),
    );
    if random.chance(30) {
        calls.push(Call::Bind(0));
    }
    let middle = random.below(calls.len() as u32) as usize;
    let after = calls.split_off(middle);
    let steps = vec![
        Step::Sheet(calls),
        Step::Open(open::number(random)),
        Step::Sheet(after),
        Step::Finish,
    ];
    Scenario::new(X64, 0, random.number(), steps)
}

/// As many events as the table of segments may have, with a pooled constant or without.
fn many_events(random: &mut Random) -> Scenario {
    let mut calls = vec![
        Call::NewLabel,
        Call::Bind(0),
        Call::Bytes((&[0; 2]).into()),
        Call::Jump {
            start: 0,
            length: 2,
            label: 0,
            condition: 16,
        },
    ];
    calls.resize(calls.len() + MOST_ENTRIES - 1, Call::align(1));
    let mut steps = vec![Step::Sheet(calls)];
    if random.chance(50) {
        steps.push(Step::Constant(Vec::new()));
        steps.push(Step::Sheet(vec![Call::ConstantLabel(0)]));
    }
    steps.push(Step::Finish);
    let mut scenario = Scenario::new(X64, 0, random.number(), steps);
    scenario.room.set(Part::Segments, MOST_ENTRIES);
    scenario
}

/// An alignment that would pass the limit of code, or end at it, if its ceiling let it.
fn padded_to_the_limit(random: &mut Random) -> Scenario {
    let multiple = random.pick(&[8, 4096]);
    let short = random.pick(&[0, 1, 7, 8, 4095]);
    let most = random.pick(&[0, 1, short.max(1) - 1, short, 4095, u32::MAX]);
    let steps = vec![
        Step::Bytes(vec![0x5A; MOST_CODE - short as usize]),
        Step::Align { multiple, most },
        Step::Sheet(vec![Call::Align { multiple, most }]),
        Step::Finish,
    ];
    let arch = random.pick(&[X64, AARCH64]);
    let mut scenario = Scenario::new(arch, 0, random.number(), steps);
    // All that may be lent, or a byte less.
    scenario
        .room
        .set(Part::Code, MOST_CODE - random.below(2) as usize);
    scenario.room.set(Part::Output, MOST_CODE);
    scenario
}

/// A jump, and as many alignments with one ceiling as the table takes beside it: all are skipped, or the first spends what the others then need not,
/// and which it is may change when the jump becomes short.
fn full_of_ceilings(random: &mut Random) -> Scenario {
    let mut calls = vec![
        Call::NewLabel,
        Call::Bytes((&[0; 5]).into()),
        Call::Jump {
            start: 0,
            length: 5,
            label: 0,
            condition: 16,
        },
        Call::Bytes(vec![0; random.below(8) as usize].into()),
    ];
    let align = Call::Align {
        multiple: 8,
        most: random.between(1, 7),
    };
    calls.resize(calls.len() + MOST_ENTRIES - 1, align);
    calls.push(Call::Bind(0));
    let steps = vec![Step::Sheet(calls), Step::Finish];
    let mut scenario = Scenario::new(X64, 0, random.number(), steps);
    scenario.room.set(Part::Segments, MOST_ENTRIES);
    scenario
}
