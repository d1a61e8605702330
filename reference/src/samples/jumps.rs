//! Jumps on X64: the limits of short ones, rounds, alignments between.

use super::Draft;
use crate::Call;

pub fn drafts() -> Vec<Draft> {
    let mut drafts = Vec::new();
    for length in 2..=15 {
        for condition in [16, (length * 5) % 16] {
            drafts.extend([127, 128].map(|zeros| forward(length, condition, zeros)));
            drafts.extend([126, 127].map(|zeros| backward(length, condition, zeros)));
        }
    }
    for condition in 0..=16 {
        drafts.push(forward(6, condition, 0));
        drafts.push(forward(6, condition, 130));
        drafts.push(backward(2, condition, 0));
        drafts.push(backward(2, condition, 126));
        drafts.push(backward(2, condition, 127));
    }
    for length in 2..=12 {
        drafts.push(chain(length, false));
        drafts.push(chain(length, true));
        drafts.push(backward_chain(length));
    }
    drafts.push(chain(25, false));
    drafts.push(chain(21, true));
    drafts.push(backward_chain(25));
    for multiple in [1, 2, 8, 16, 64] {
        for before in [0, 3] {
            drafts.extend((118..=129).map(|zeros| across(before, multiple, zeros)));
        }
        drafts.extend(
            (110..=127)
                .step_by(3)
                .map(|zeros| back_across(multiple, zeros)),
        );
    }
    for multiple in [1, 4, 16, 32] {
        drafts.extend((0..6).map(|order| both_sides(multiple, order)));
    }
    drafts.extend((1..=8).map(at_one_offset));
    drafts.extend((0..8).map(not_least));
    drafts.extend((0..12).map(interlocked));
    drafts.push(uses_dropped());
    drafts
}

fn forward(length: u32, condition: u32, zeros: u32) -> Draft {
    let mut draft = Draft::x64();
    let label = draft.label();
    draft
        .jump(label, length, condition)
        .zeros(zeros)
        .bind(label);
    draft
}

fn backward(length: u32, condition: u32, zeros: u32) -> Draft {
    let mut draft = Draft::x64();
    let label = draft.here();
    draft.zeros(zeros).jump(label, length, condition);
    draft
}

/// `count` jumps in a row of which the last grows in round 1, the one before
/// it in round 2 and so on: with all later ones long, and not before, the
/// distance of a jump is 128.
fn chain(count: u32, conditional: bool) -> Draft {
    let (length, condition) = if conditional { (6, 5) } else { (5, 16) };
    let mut draft = Draft::x64();
    let labels: Vec<u32> = (0..count).map(|_| draft.label()).collect();
    for label in &labels {
        draft.jump(*label, length, condition);
    }
    draft.zeros(128 - length * count);
    for label in &labels {
        draft.zeros(length).bind(*label);
    }
    draft
}

/// As `chain`, with the labels in front: the first jump grows first.
fn backward_chain(count: u32) -> Draft {
    let mut draft = Draft::x64();
    let labels: Vec<u32> = (0..count).map(|_| draft.label()).collect();
    for label in &labels {
        draft.bind(*label).zeros(5);
    }
    draft.zeros(127 - 5 * count);
    for label in &labels {
        draft.jump(*label, 5, 16);
    }
    draft
}

/// A jump over an alignment to a label about 127 bytes on.
fn across(before: u32, multiple: u32, zeros: u32) -> Draft {
    let mut draft = Draft::x64();
    let label = draft.label();
    draft.zeros(before).jump(label, 5, 16).align(multiple);
    draft.zeros(zeros).bind(label).bytes(&[0xC3]);
    draft
}

fn back_across(multiple: u32, zeros: u32) -> Draft {
    let mut draft = Draft::x64();
    let forward = draft.label();
    draft.jump(forward, 7, 2);
    let label = draft.here();
    draft.bytes(&[1]).align(multiple).zeros(zeros);
    draft.jump(label, 6, 9).bind(forward);
    draft
}

/// Labels before, between and after two alignments, the first of which may
/// have length 0, behind a jump that shrinks.
fn both_sides(multiple: u32, order: u32) -> Draft {
    let mut draft = Draft::x64();
    let labels: Vec<u32> = (0..4).map(|_| draft.label()).collect();
    draft.jump(labels[order as usize % 4], 4 * (1 + order % 3), 16);
    draft.bind(labels[0]).align(multiple).bind(labels[1]);
    draft.align(4).bind(labels[2]).bytes(&[0xAA]);
    draft.align(multiple).bind(labels[3]);
    draft.jump(labels[(order as usize + 1) % 4], 6, 7);
    draft
}

/// Several alignments, and then a jump, at one offset.
fn at_one_offset(count: u32) -> Draft {
    let mut draft = Draft::x64();
    let label = draft.label();
    draft.jump(label, 8, 16);
    for i in 0..count {
        draft.here();
        draft.align(1 << (i % 4));
    }
    draft.jump(label, 2, 1).bind(label).align(8).align(8);
    let last = draft.here();
    draft.jump(last, 3, 16);
    draft
}

/// Alignments where fewer long jumps would do; the first is the sheet of the
/// papers: 140 bytes, both jumps long.
fn not_least(shift: u32) -> Draft {
    let mut draft = Draft::x64();
    let label = draft.label();
    draft.jump(label, 5, 16).jump(label, 5, 16).align(8);
    draft.zeros(124 - shift).bind(label);
    draft
}

/// Jumps over one another in both directions, each near its limit.
fn interlocked(shift: u32) -> Draft {
    let mut draft = Draft::x64();
    let ends: Vec<u32> = (0..3).map(|_| draft.label()).collect();
    let start = draft.here();
    draft.jump(ends[0], 6, 3).jump(ends[1], 5, 16);
    let middle = draft.here();
    draft.zeros(60).jump(start, 6, 4).zeros(58 + shift % 4);
    draft.jump(ends[2], 5, 16).bind(ends[0]).bind(ends[1]);
    draft.jump(middle, 5, 16).zeros(120 + shift).bind(ends[2]);
    draft.jump(middle, 6, 15);
    draft
}

/// With a jump, uses are dropped: wherever they stand and whatever they reach.
fn uses_dropped() -> Draft {
    let mut draft = Draft::x64();
    let label = draft.here();
    draft.zeros(200).jump(label, 2, 16);
    for (offset, code) in [(0, 0), (199, 1), (4000, 0), (u32::MAX, 1), (u32::MAX, 0)] {
        draft.push(Call::Use {
            offset,
            label,
            code,
        });
    }
    draft
}
