//! ADDs over fields that already hold something.

use compare::{AARCH64, Random};

use super::draft::Draft;
use crate::scenario::Scenario;

/// The code of uses that are drawn most often.
const ADD_LO12: u32 = 16;
/// Bits 10 to 21, which it writes.
const FIELD: u32 = 0xFFF << 10;
const PAGE: u32 = 4096;

/// A use, and the offset of its label.
struct Use {
    offset: u32,
    label: u32,
    code: u32,
    target: u32,
}

/// Uses over the same bytes, or bytes that they share in part, up to the end of the pool. What stands there at first is drawn by the labels' bits.
pub fn scenario(random: &mut Random) -> Scenario {
    let mut draft = Draft::new(AARCH64);
    let mut code = code(random);
    let length = code.len() as u32;
    let targets: Vec<_> = (0..random.between(1, 4))
        .map(|_| target(random, length))
        .collect();
    for _ in &targets {
        draft.label();
    }
    let (pooled, end) = pool(&mut draft, random, length);
    let uses = uses(random, &[&targets[..], &pooled].concat(), end);
    for each in uses.iter().filter(|each| each.code == ADD_LO12) {
        hold(random, &mut code, each);
    }
    write(&mut draft, &code, &targets);
    for each in &uses {
        draft.use_at(each.offset, each.label, each.code);
    }
    Scenario::new(AARCH64, 0, random.number(), draft.into_steps())
}

/// Bytes of no pattern, or zeros: few, most often, and now and then enough for the label's higher bits, or for a page or two.
fn code(random: &mut Random) -> Vec<u8> {
    let length = match random.below(40) {
        0 => PAGE * random.between(1, 2) - 8 + random.below(16),
        1..=8 => random.between(49, 1_500),
        _ => random.between(4, 48),
    };
    if random.chance(30) {
        return vec![0; length as usize];
    }
    random.bytes(length as usize)
}

/// The offset of a label: around the last page's start, if there is one, or anywhere.
fn target(random: &mut Random, length: u32) -> u32 {
    let page = length / PAGE * PAGE;
    if page > 0 && random.chance(70) {
        return (page - 4 + random.below(8)).min(length);
    }
    random.below(length + 1)
}

/// Asks for a few constants behind so much code: their offsets, and the end.
fn pool(draft: &mut Draft, random: &mut Random, length: u32) -> (Vec<u32>, u32) {
    let mut offsets = Vec::new();
    let mut end = length;
    for _ in 0..random.pick(&[0, 0, 0, 1, 1, 2]) {
        let size = random.pick(&[0, 1, 4, 8, 9, 12]);
        let constant = draft.constant(random.bytes(size as usize));
        draft.ask(constant);
        let offset = end.next_multiple_of(if size <= 8 { 8 } else { 16 });
        offsets.push(offset);
        end = offset + size;
    }
    (offsets, end)
}

fn uses(random: &mut Random, targets: &[u32], end: u32) -> Vec<Use> {
    let last = end - 4;
    let mut offset = random.below(last + 1);
    let count = random.between(1, 6);
    let draw = |_| {
        offset = next_offset(random, offset, last);
        let label = random.below(targets.len() as u32);
        let target = targets[label as usize];
        let code = code_for(random, offset.abs_diff(target));
        Use {
            offset,
            label,
            code,
            target,
        }
    };
    (0..count).map(draw).collect()
}

/// Mostly that of the use before, or one a little before or after it.
fn next_offset(random: &mut Random, offset: u32, last: u32) -> u32 {
    let next = match random.below(100) {
        0 => return last + 1,
        1..=49 => offset,
        50..=64 => offset + random.between(1, 3),
        65..=79 => offset.saturating_sub(random.between(1, 3)),
        80..=89 => last - random.below(4).min(last),
        _ => random.below(last + 1),
    };
    next.min(last)
}

/// Mostly 16, else a code that reaches so far, with few exceptions.
fn code_for(random: &mut Random, distance: u32) -> u32 {
    if random.chance(65) {
        return ADD_LO12;
    }
    if distance.is_multiple_of(4) || random.chance(1) {
        return random.pick(&[9, 10, 11, 12, 13, 14]);
    }
    random.pick(&[13, 14])
}

/// Most often, makes the word of a use hold something, if all of it is code.
fn hold(random: &mut Random, code: &mut [u8], each: &Use) {
    let start = each.offset as usize;
    if let Some(bytes) = code.get_mut(start..start + 4)
        && random.chance(70)
    {
        let any = random.word();
        let other = random.pick(&[0x9100_0000, 0x9140_0000, 0, u32::MAX, any]);
        let field = held(random, each.target) << 10;
        let word = (other & !FIELD) | (field & FIELD);
        bytes.copy_from_slice(&word.to_le_bytes());
    }
}

/// What a field holds before a label is written into it: nothing, everything, one bit, some or all or the others of the label's, or anything.
fn held(random: &mut Random, target: u32) -> u32 {
    match random.below(7) {
        0 => 0,
        1 => u32::MAX,
        2 => 1 << random.below(12),
        3 => target & random.word(),
        4 => target,
        5 => !target,
        _ => random.word(),
    }
}

/// The code, with labels bound at their offsets.
fn write(draft: &mut Draft, code: &[u8], targets: &[u32]) {
    let mut binds: Vec<_> = targets.iter().zip(0..).collect();
    binds.sort_unstable();
    let mut written = 0;
    for (offset, label) in binds {
        let offset = *offset as usize;
        draft.stretch(&code[written..offset]);
        draft.bind(label);
        written = offset;
    }
    draft.stretch(&code[written..]);
}
