//! Uses and refs: what their fields hold before and after.

use super::Draft;
use super::draft::{ADD_FIELD, fit_for};
use crate::random::Random;
use crate::{AARCH64, Call, X64, X86};

/// Codes that AArch64 knows.
const A64_CODES: [u32; 7] = [9, 10, 11, 12, 13, 14, 16];

pub fn drafts() -> Vec<Draft> {
    let mut drafts = Vec::new();
    for arch in [X86, X64] {
        drafts.extend(STALE.map(|stale| stale_field(arch, stale)));
        drafts.extend((0..5).map(|gap| overlapping(arch, gap)));
        drafts.push(own_field(arch));
    }
    drafts.extend(A64_CODES.map(in_noise));
    drafts.extend(A64_CODES.map(unaligned));
    drafts.extend([0, 0x123, 0xFFF, 0x1001].map(page_offset));
    drafts.extend([0x9100_0000, 0x9140_0000, 0xFFBF_FFFF, u32::MAX].map(clear_add));
    drafts.extend(AMONG.map(|(target, held)| add_among(target, held)));
    drafts.extend([0, 1 << 22, 0x55 << 10].map(add_twice));
    drafts.extend((1..5).map(overlapping_adds));
    drafts.extend([10, 11, 12, 13, 14].map(covered_add));
    drafts.push(add_under_constant());
    for (from, to) in PAGES {
        drafts.push(pages(from, to));
    }
    drafts.extend(STALE.map(ref_over));
    drafts.extend(REF_ADDENDS.map(ref_addends));
    drafts.extend((0..4).map(beside_events));
    drafts.push(refs_without_jump());
    drafts.extend([X86, AARCH64].map(unread));
    drafts
}

const STALE: [u32; 6] = [0, 1, 0xFFFF_FFFF, 0x7FFF_FFFF, 0x8000_0000, 0x1234_5678];
const REF_ADDENDS: [i32; 5] = [0, 1, -1, 100_000, -2_000_000_000];
/// Targets, and words whose fields hold none but their bits.
const AMONG: [(u32, u32); 4] = [
    (0xFFF, 0x913F_FC00),
    (0xFFF, 0xFFD5_57FF),
    (0x555, 0x9100_1400),
    (0x1800, 0x9160_0000),
];
const PAGES: [(u32, u32); 6] = [
    (0, 0),
    (0, 4095),
    (0, 4096),
    (4092, 4096),
    (4096, 4092),
    (20_480, 8_191),
];

/// Code 0 adds what its field holds, forwards and backwards.
fn stale_field(arch: u32, stale: u32) -> Draft {
    let mut draft = Draft::new(arch);
    let back = draft.here();
    let forward = draft.label();
    draft.bytes(&[0xE8]).word(stale).bytes(&[0xE9]).word(stale);
    draft.use_at(1, forward, 0).use_at(6, back, 0);
    draft.bytes(&[0x75, stale as u8]).use_at(11, forward, 1);
    draft.zeros(3).bind(forward);
    draft
}

/// Two uses of code 0 whose fields share 4 to no bytes: the second adds what
/// the first wrote. A use of code 1 in the midst of them is last.
fn overlapping(arch: u32, gap: u32) -> Draft {
    let mut draft = Draft::new(arch);
    let label = draft.label();
    draft.bytes(&[7, 6, 5, 4, 3, 2, 1, 0, 9]).bind(label);
    draft.use_at(0, label, 0).use_at(gap, label, 0);
    draft.use_at(2, label, 1);
    draft
}

/// A label amid the field that names it.
fn own_field(arch: u32) -> Draft {
    let mut draft = Draft::new(arch);
    draft.bytes(&[0xE8, 0, 0]);
    let label = draft.here();
    draft.zeros(2).use_at(1, label, 0).use_at(0, label, 1);
    draft
}

/// A field amid instruction bits of no pattern, all of which but the field's
/// must stay. Labels are 64 bytes on and 32 bytes back.
fn in_noise(code: u32) -> Draft {
    let mut random = Random::new(u64::from(code));
    let mut draft = Draft::new(AARCH64);
    let back = draft.here();
    draft.noise(&mut random, 32);
    let forward = draft.label();
    for (at, label) in [(32, forward), (36, back)] {
        let word = fit_for(code, random.word());
        draft.word(word).use_at(at, label, code);
    }
    draft.noise(&mut random, 56).bind(forward);
    draft
}

/// A field at an offset that is no multiple of 4.
fn unaligned(code: u32) -> Draft {
    let mut draft = Draft::new(AARCH64);
    let label = draft.label();
    let word = fit_for(code, 0xFFFF_FFFF);
    draft.zeros(3).word(word).zeros(4).bind(label);
    draft.use_at(3, label, code);
    draft
}

/// The low 12 bits of a label in a field that is clear.
fn page_offset(target: u32) -> Draft {
    let mut draft = Draft::new(AARCH64);
    let label = draft.label();
    if target == 0 {
        draft.bind(label);
    }
    draft.word(0x9100_0000).word(0x9000_0000);
    if target > 0 {
        draft.advance(target).bind(label);
    }
    draft.use_at(4, label, 14).use_at(0, label, 16);
    draft
}

/// A clear field, behind bit 22 (sh) and amid others that must stay.
fn clear_add(word: u32) -> Draft {
    add_among(0xABC, word & !ADD_FIELD)
}

/// A field whose bits are all among those of the label.
fn add_among(target: u32, word: u32) -> Draft {
    let mut draft = Draft::new(AARCH64);
    let label = draft.label();
    draft.word(word).use_at(0, label, 16);
    draft.advance(target).bind(label);
    draft
}

/// Two uses of one label over one field that holds nothing, bit 22 beside it,
/// or the label.
fn add_twice(held: u32) -> Draft {
    let mut draft = Draft::new(AARCH64);
    draft.zeros(0x55);
    let label = draft.here();
    let at = draft.offset;
    draft.word(0x9100_0000 | held);
    draft.use_at(at, label, 16).use_at(at, label, 16);
    draft
}

/// Uses of code 16 whose words share 3 to no bytes, the one before and after
/// the other. No bit of the label stands in the other's field.
fn overlapping_adds(gap: u32) -> Draft {
    let mut draft = Draft::new(AARCH64);
    draft.zeros(0x30);
    let label = draft.here();
    let at = draft.offset;
    draft.zeros(8);
    for at in [at, at + gap, at] {
        draft.use_at(at, label, 16);
    }
    draft
}

/// A field that is not clear, all of which a later use covers.
fn covered_add(code: u32) -> Draft {
    let mut draft = Draft::new(AARCH64);
    draft.zeros(0x54);
    let label = draft.here();
    draft.word(u32::MAX);
    draft.use_at(0x54, label, 16).use_at(0x54, label, code);
    draft
}

/// Two labels in a field that a constant covers.
fn add_under_constant() -> Draft {
    let mut draft = Draft::new(AARCH64);
    let constant = draft.constant(&[0x5A; 4]);
    draft.zeros(5);
    let label = draft.here();
    let pooled = draft.constant_label(constant);
    draft.use_at(8, label, 16).use_at(8, pooled, 16);
    draft
}

fn pages(from: u32, to: u32) -> Draft {
    let mut draft = Draft::new(AARCH64);
    let label = draft.label();
    if to <= from {
        draft.advance(to).bind(label);
    }
    draft.advance(from).word(0x9000_001F);
    if to > from {
        draft.advance(to).bind(label);
    }
    draft.use_at(from, label, 14);
    draft
}

/// A ref ignores what its field holds.
fn ref_over(stale: u32) -> Draft {
    let mut draft = Draft::x64();
    let back = draft.here();
    let forward = draft.label();
    draft.bytes(&[0xE8]).word(stale).ref_at(1, forward, 0, 0);
    draft.jump(forward, 5, 16);
    draft.bytes(&[0x75, stale as u8]).ref_at(11, back, 1, 0);
    draft.bytes(&[0xE8]).word(stale).ref_at(13, back, 0, -3);
    draft.bind(forward);
    draft
}

fn ref_addends(addend: i32) -> Draft {
    let mut draft = Draft::x64();
    let label = draft.here();
    draft
        .bytes(&[0x8D, 0x05])
        .word(0)
        .ref_at(2, label, 0, addend);
    draft.jump(label, 6, 12);
    draft.ref_at(2, label, 1, addend % 100);
    draft
}

/// Fields that end where an event starts and start where one ends, an
/// alignment of length 0 among them.
fn beside_events(code: u32) -> Draft {
    let (code, swap) = (code % 2, code >= 2);
    let size = if code == 0 { 4 } else { 1 };
    let mut draft = Draft::x64();
    let label = draft.here();
    draft
        .jump(label, 4, 16)
        .zeros(size)
        .ref_at(4, label, code, 0);
    draft.align(if swap { 1 } else { 4 });
    let at = draft.offset;
    draft.zeros(size).ref_at(at, label, code, 5);
    draft.jump(label, 2, 3).align(1);
    let at = draft.offset;
    draft.zeros(size).ref_at(at, label, code, -5);
    draft
}

/// Without a jump refs are not read, wherever they stand.
fn refs_without_jump() -> Draft {
    let mut draft = Draft::x64();
    let label = draft.here();
    draft.bytes(&[1, 2, 3, 4]).align(16);
    draft.ref_at(0, label, 0, 9).ref_at(3, label, 0, 0);
    draft
        .ref_at(1000, label, 1, 0)
        .ref_at(u32::MAX, label, 0, i32::MAX);
    draft
}

/// Jumps and refs off X64 are accepted whatever they say.
fn unread(arch: u32) -> Draft {
    let mut draft = Draft::new(arch);
    draft.bytes(&[1, 2, 3, 4, 5]);
    for (start, length, label, condition) in [
        (0, 5, 0, 16),
        (3, 200, 7, 99),
        (u32::MAX, u32::MAX, u32::MAX, u32::MAX),
    ] {
        draft.push(Call::Jump {
            start,
            length,
            label,
            condition,
        });
    }
    for code in 0..=16 {
        draft.ref_at(code * 0x0F00_0000, code, code, -1);
    }
    draft
}
