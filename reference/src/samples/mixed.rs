//! Recordings drawn at random.

use super::Draft;
use super::draft::fit_for;
use crate::random::Random;
use crate::{AARCH64, Call, LABEL_TARGET, X64, X86, added_refusal};

pub fn drafts() -> Vec<Draft> {
    let mut drafts = Vec::new();
    drafts.extend(draw(X64, 320, 1, with_jumps));
    drafts.extend(draw(X64, 200, 5, crowded));
    drafts.extend(draw(X64, 100, 2, |random| without_jumps(random, X64)));
    drafts.extend(draw(X86, 150, 3, |random| without_jumps(random, X86)));
    drafts.extend(draw(AARCH64, 300, 4, |random| {
        without_jumps(random, AARCH64)
    }));
    drafts
}

/// `count` recordings that no added refusal turns away.
fn draw(arch: u32, count: usize, seed: u64, make: impl Fn(&mut Random) -> Draft) -> Vec<Draft> {
    let mut random = Random::new(seed);
    std::iter::repeat_with(|| make(&mut random))
        .filter(|draft| added_refusal(arch, draft.symbols, &draft.calls).is_none())
        .take(count)
        .collect()
}

/// Jumps near their limits among all else that X64 takes.
fn with_jumps(random: &mut Random) -> Draft {
    let mut draft = Draft::with_symbols(X64, random.below(4));
    let mut unbound: Vec<u32> = (0..random.between(1, 5)).map(|_| draft.label()).collect();
    for _ in 0..random.between(3, 14) {
        match random.below(16) {
            0..=4 => jump(random, &mut draft),
            5..=7 => bind_one(random, &mut draft, &mut unbound),
            8 | 9 => _ = draft.align(1 << random.below(6)),
            10 => _ = draft.zeros(random.between(40, 126)),
            11 => label_ref(random, &mut draft),
            12 => constant(random, &mut draft),
            13 => relocation(random, &mut draft),
            14 => any_use(random, &mut draft),
            _ => {
                let count = random.below(13);
                draft.noise(random, count);
            }
        }
    }
    while !unbound.is_empty() {
        bind_one(random, &mut draft, &mut unbound);
        let count = random.below(40);
        draft.zeros(count);
    }
    draft
}

/// Up to 20 jumps within some 200 bytes, each to a place near its limit, so
/// that one that grows makes others grow.
fn crowded(random: &mut Random) -> Draft {
    let gaps: Vec<Gap> = (0..random.between(8, 20)).map(|_| gap(random)).collect();
    // Where each jump ends, or would, if all were short and nothing padded.
    let mut ends = Vec::new();
    let mut end = 0;
    for gap in &gaps {
        end += 2 + gap.zeros as i32;
        ends.push(end);
    }
    let mut draft = Draft::x64();
    let labels: Vec<u32> = gaps.iter().map(|_| draft.label()).collect();
    for (i, gap) in gaps.iter().enumerate() {
        let here = ends[i] - gap.zeros as i32;
        let near = |j: &usize| (118..=130).contains(&(ends[*j] - here).abs());
        let places: Vec<usize> = (0..gaps.len()).filter(near).collect();
        let place = match places.is_empty() {
            true => random.below(labels.len() as u32) as usize,
            false => random.pick(&places),
        };
        draft.jump(labels[place], gap.length, gap.condition);
        draft.zeros(gap.zeros);
        if gap.multiple > 0 {
            draft.align(gap.multiple);
        }
        draft.bind(labels[i]);
    }
    draft
}

/// A jump, and what stands between it and the next.
struct Gap {
    length: u32,
    condition: u32,
    zeros: u32,
    /// Of an alignment; 0 for none.
    multiple: u32,
}

fn gap(random: &mut Random) -> Gap {
    let conditional = random.chance(40);
    let aligned = random.chance(12);
    Gap {
        length: if conditional { 6 } else { 5 },
        condition: if conditional { random.below(16) } else { 16 },
        zeros: random.between(2, 24),
        multiple: if aligned { 1 << random.below(5) } else { 0 },
    }
}

fn without_jumps(random: &mut Random, arch: u32) -> Draft {
    let mut draft = Draft::with_symbols(arch, random.below(4));
    let mut unbound: Vec<u32> = (0..random.between(1, 4)).map(|_| draft.label()).collect();
    for _ in 0..random.between(2, 16) {
        match random.below(14) {
            0..=3 => field(random, &mut draft),
            4..=6 => bind_one(random, &mut draft, &mut unbound),
            7 => _ = draft.align(1 << random.below(8)),
            8 => constant(random, &mut draft),
            9 => relocation(random, &mut draft),
            10 if random.chance(15) => any_use(random, &mut draft),
            11 if arch != X64 => unread(random, &mut draft),
            12 if arch == X64 => label_ref(random, &mut draft),
            _ => {
                let count = 4 * random.between(0, 10);
                draft.noise(random, count);
            }
        }
    }
    // Labels that only uses or relocations name may stay unbound: 15.
    while !unbound.is_empty() && random.chance(95) {
        bind_one(random, &mut draft, &mut unbound);
    }
    draft
}

fn any_label(random: &mut Random, draft: &Draft) -> u32 {
    random.below(draft.label_count())
}

fn bind_one(random: &mut Random, draft: &mut Draft, unbound: &mut Vec<u32>) {
    if unbound.is_empty() {
        draft.here();
        return;
    }
    let at = random.below(unbound.len() as u32);
    draft.bind(unbound.swap_remove(at as usize));
}

fn jump(random: &mut Random, draft: &mut Draft) {
    let length = match random.below(4) {
        0 => 2,
        1 => random.between(2, 15),
        _ => random.between(5, 6),
    };
    let condition = if random.chance(50) {
        16
    } else {
        random.below(16)
    };
    let label = any_label(random, draft);
    draft.jump(label, length, condition);
}

/// A field of its own and the ref that fills it.
fn label_ref(random: &mut Random, draft: &mut Draft) {
    let code = u32::from(random.chance(15));
    let addend = match random.below(4) {
        0 => 0,
        1..=2 => random.below(64) as i32 - 32,
        _ => random.word() as i32 >> 2,
    };
    let at = draft.offset;
    draft.noise(random, if code == 0 { 4 } else { 1 });
    let label = any_label(random, draft);
    draft.ref_at(at, label, code, if code == 0 { addend } else { 0 });
}

/// A field of its own and the use that fills it.
fn field(random: &mut Random, draft: &mut Draft) {
    let code = match draft.arch {
        AARCH64 => random.pick(&[9, 10, 11, 12, 13, 14, 16]),
        _ => u32::from(random.chance(30)),
    };
    if draft.arch == AARCH64 && random.chance(97) {
        draft.align(4);
    }
    let at = draft.offset;
    let bytes = random.bytes(4);
    let word = u32::from_le_bytes(bytes.try_into().expect("four bytes"));
    draft.word(fit_for(code, word));
    let label = any_label(random, draft);
    draft.use_at(at, label, code);
}

/// A use of any code anywhere.
fn any_use(random: &mut Random, draft: &mut Draft) {
    let code = if random.chance(85) {
        u32::from(draft.arch == AARCH64) * 11
    } else {
        random.below(17)
    };
    let offset = random.below(draft.offset + 2);
    let unknown = u32::from(random.chance(5));
    let label = random.below(draft.label_count() + unknown);
    draft.use_at(offset, label, code);
}

/// A constant asked for at once, one never asked for, or two asked for in the
/// other order, the first of them twice.
fn constant(random: &mut Random, draft: &mut Draft) {
    let size = random.below(13);
    let bytes = random.bytes(size);
    let first = draft.constant(&bytes);
    match random.below(4) {
        0 => {
            let second = draft.constant(&bytes[..size as usize / 2]);
            draft.constant_label(second);
            draft.constant_label(first);
            draft.push(Call::ConstantLabel(first));
        }
        1 => {}
        _ => _ = draft.constant_label(first),
    }
}

fn relocation(random: &mut Random, draft: &mut Draft) {
    let kind = match (random.chance(93), draft.arch) {
        (true, AARCH64) => random.pick(&[0, 1, 8, 11, 16, 19, 20, 21]),
        (true, _) => random.pick(&[0, 1, 2, 3, 4, 5, 6, 9, 10]),
        (false, _) => random.below(28),
    };
    let target = if random.chance(50) && draft.symbols > 0 {
        random.below(draft.symbols)
    } else {
        any_label(random, draft) + LABEL_TARGET
    };
    let offset = random.below(draft.offset + 9);
    draft.push(Call::Relocation {
        offset,
        kind,
        target,
        addend: i64::from(random.word() as i32),
    });
}

/// A jump or ref where they are not read.
fn unread(random: &mut Random, draft: &mut Draft) {
    let [a, b, c, d] = [0; 4].map(|_: u32| random.word() >> random.below(32));
    if random.chance(50) {
        draft.ref_at(a, b, c % 17, d as i32);
    } else {
        draft.push(Call::Jump {
            start: a,
            length: b,
            label: c,
            condition: d,
        });
    }
}
