//! The reach limits of every code, on both sides of each.

use super::Draft;
use super::draft::fit_for;
use crate::{AARCH64, X64, X86};

pub fn drafts() -> Vec<Draft> {
    let mut drafts = Vec::new();
    for arch in [X86, X64] {
        for distance in [0, 1, 127, 128, 129, 130] {
            drafts.push(use_at_distance(arch, 1, distance));
        }
        for distance in [-1, -126, -127, -128, -129] {
            drafts.push(use_at_distance(arch, 1, distance));
        }
        for distance in [0, 1, 5000, -5000, 1 << 18, -(1 << 18)] {
            drafts.push(use_at_distance(arch, 0, distance));
        }
    }
    for (code, power) in [(9, 15), (10, 20), (12, 20), (13, 20)] {
        let limit = 1i64 << power;
        for distance in [limit - 4, limit - 3, limit - 1, limit] {
            drafts.push(use_at_distance(AARCH64, code, distance));
        }
        for distance in [-limit, -limit + 1, -limit - 1, -limit - 4] {
            drafts.push(use_at_distance(AARCH64, code, distance));
        }
    }
    for code in [9, 10, 11, 12, 13, 14, 16] {
        for distance in [-9, -8, -7, -6, -5, -4, 0, 1, 2, 3, 4, 5, 6, 7, 8] {
            drafts.push(use_at_distance(AARCH64, code, distance));
        }
    }
    for code in [11, 14, 16] {
        for distance in [1 << 20, -(1 << 20) - 4] {
            drafts.push(use_at_distance(AARCH64, code, distance));
        }
    }
    drafts.push(whole_code());
    drafts.push(far_jumps());
    drafts.extend(short_refs());
    drafts.extend(wide_refs());
    drafts
}

/// A field that is not clear, but for codes 0 and 16, with its label at a
/// distance.
fn use_at_distance(arch: u32, code: u32, distance: i64) -> Draft {
    let size = if code == 1 { 1 } else { 4 };
    let mut draft = Draft::new(arch);
    let label = draft.label();
    // Labels inside the field are bound while it is written.
    let held = if code == 0 { 0 } else { 0x8181_8181 };
    let field = &fit_for(code, held).to_le_bytes()[..size as usize];
    let at = distance.min(0).unsigned_abs() as u32;
    let target = (i64::from(at) + distance) as u32;
    if target <= at {
        draft.bind(label).advance(at).bytes(field);
    } else if target < at + size {
        let (first, second) = field.split_at((target - at) as usize);
        draft.bytes(first).bind(label).bytes(second);
    } else {
        draft.bytes(field).advance(target).bind(label);
    }
    draft.use_at(at, label, code);
    draft
}

/// 16,777,216 bytes: as far as codes 11, 14 and 16 can go here.
fn whole_code() -> Draft {
    let end = 16_777_216;
    let mut draft = Draft::new(AARCH64);
    let start = draft.here();
    let last = draft.label();
    draft.word(0x1400_0000).word(0x9000_0000).word(0x9100_0000);
    for (at, code) in [(0, 11), (4, 14), (8, 16)] {
        draft.use_at(at, last, code);
    }
    draft.advance(end - 12);
    draft.word(0x1400_0000).word(0x9000_0000).word(0x9100_0000);
    for (at, code) in [(12, 11), (8, 14), (4, 16)] {
        draft.use_at(end - at, start, code);
    }
    draft.bind(last);
    draft
}

/// Long jumps over two million bytes of alignments, in both directions.
fn far_jumps() -> Draft {
    let mut draft = Draft::x64();
    let start = draft.here();
    let last = draft.label();
    draft.jump(last, 2, 16).jump(last, 2, 1);
    draft.advance(1 << 21);
    draft.jump(start, 2, 16).jump(start, 15, 14).bind(last);
    draft
}

/// Refs of code 1, which need the label plus the addend within -128..127 of
/// their end.
fn short_refs() -> Vec<Draft> {
    let draft = |zeros: u32, addend: i32| {
        let mut draft = Draft::x64();
        let label = draft.here();
        draft.zeros(zeros).jump(label, 5, 16);
        let at = draft.offset;
        draft.bytes(&[0x55]).ref_at(at, label, 1, addend);
        draft
    };
    // The field's end is at zeros + 3 once the jump is short.
    let near = [124, 125, 126].map(|zeros| draft(zeros, 0));
    let addends = [129, 130, 131, -126, -125, -124, i32::MAX, i32::MIN];
    let added = addends.map(|addend| draft(0, addend));
    near.into_iter().chain(added).collect()
}

/// Refs of code 0: only an addend can lead out of 32 bits.
fn wide_refs() -> Vec<Draft> {
    let draft = |before: u32, after: u32, addend: i32| {
        let mut draft = Draft::x64();
        let label = draft.label();
        let back = draft.here();
        draft
            .zeros(before)
            .zeros(4)
            .ref_at(before, label, 0, addend);
        draft.zeros(after).bind(label).jump(back, 5, 16);
        draft
    };
    let back = |before: u32, addend: i32| {
        let mut draft = Draft::x64();
        let label = draft.here();
        draft
            .zeros(before)
            .zeros(4)
            .ref_at(before, label, 0, addend);
        draft.jump(label, 5, 16);
        draft
    };
    let forward = [i32::MAX - 1, i32::MAX];
    let backward = [i32::MIN + 14, i32::MIN + 13, i32::MIN];
    let mut drafts: Vec<Draft> = forward.map(|addend| draft(10, 1, addend)).into();
    drafts.extend(backward.map(|addend| back(10, addend)));
    drafts.push(draft(10, 0, i32::MAX));
    drafts.push(draft(10, 0, i32::MIN));
    drafts.push(draft(0, 7, i32::MIN));
    drafts
}
