//! Relocations of every kind on every architecture.

use super::Draft;
use crate::{AARCH64, X64, X86};

pub fn drafts() -> Vec<Draft> {
    let mut drafts = Vec::new();
    for arch in [X86, X64, AARCH64] {
        for kind in 0..=27 {
            drafts.push(of_kind(arch, kind, false));
            drafts.push(of_kind(arch, kind, true));
        }
        drafts.push(several(arch));
    }
    drafts.extend((0..4).map(inside_events));
    drafts.push(at_far_offsets());
    drafts
}

fn of_kind(arch: u32, kind: u32, to_label: bool) -> Draft {
    let mut draft = Draft::with_symbols(arch, 2);
    let label = draft.label();
    draft.zeros(8);
    if to_label {
        draft.to_label(kind % 8, kind, label, -4);
    } else {
        draft.to_symbol(kind % 8, kind, kind % 2, 1 << kind);
    }
    draft.bind(label);
    draft
}

fn several(arch: u32) -> Draft {
    let mut draft = Draft::with_symbols(arch, 3);
    let label = draft.here();
    draft.zeros(16);
    for (offset, addend) in [
        (0, 0),
        (0, -1),
        (8, i32::MAX),
        (8, i32::MIN),
        (16, 5),
        (999, 6),
    ] {
        draft.to_symbol(offset, offset % 2, 2, addend);
        draft.to_label(offset, 1, label, addend);
    }
    draft
}

/// At every offset of a code with jumps and alignments, short, long and
/// padded, and past its end.
fn inside_events(form: u32) -> Draft {
    let mut draft = Draft::with_symbols(X64, 1);
    let label = draft.label();
    let end = draft.label();
    draft
        .bytes(&[1])
        .jump(label, 5 + form, 16)
        .bytes(&[2])
        .align(8);
    draft
        .jump(end, 2, 4)
        .bind(label)
        .align(1)
        .align(4)
        .bytes(&[3]);
    for offset in 0..draft.offset + 3 {
        draft.to_symbol(offset, offset % 7, 0, offset as i32);
    }
    draft.to_label(0, 1, end, 0);
    draft.zeros(130 * (form % 2)).bind(end);
    draft
}

/// The last offset that a relocation may have, with code that grows.
fn at_far_offsets() -> Draft {
    let mut draft = Draft::with_symbols(X64, 1);
    let label = draft.label();
    draft.jump(label, 2, 7).zeros(128).bind(label);
    for offset in [129, 130, 131, 4096, 16_777_214, 16_777_215] {
        draft.to_symbol(offset, 1, 0, 0);
    }
    draft
}
