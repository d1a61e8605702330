//! Small families, taken whole.

use super::Draft;
use crate::{AARCH64, X64, X86};

pub fn drafts() -> Vec<Draft> {
    let mut drafts = Vec::new();
    for arch in [X86, X64, AARCH64] {
        drafts.push(Draft::new(arch));
        drafts.push(Draft::with_symbols(arch, 3));
        drafts.extend((0..=12).map(|count| byte_call(arch, count)));
        drafts.extend((0..=16).map(|offset| padding(arch, offset, 16)));
        drafts.extend((0..=12).map(|power| padding(arch, 1, 1 << power)));
        drafts.extend((0..=12).map(|power| padding(arch, 0, 1 << power)));
        drafts.push(labels(arch));
    }
    drafts.extend((20..=64).step_by(4).map(|pad| padding(X64, 64 - pad, 64)));
    for code in 0..6u32.pow(4) {
        drafts.extend(sequence(code));
    }
    drafts
}

fn byte_call(arch: u32, count: u8) -> Draft {
    let mut draft = Draft::new(arch);
    let bytes: Vec<u8> = (0..count).map(|i| 0xF0 - i * 17).collect();
    draft.bytes(&bytes);
    draft
}

fn padding(arch: u32, offset: u32, multiple: u32) -> Draft {
    let mut draft = Draft::new(arch);
    let before = draft.label();
    let after = draft.label();
    draft.zeros(offset).bind(before).align(multiple).bind(after);
    draft
}

/// Labels bound, at one offset and apart, out of order, and never.
fn labels(arch: u32) -> Draft {
    let mut draft = Draft::new(arch);
    let labels: Vec<u32> = (0..5).map(|_| draft.label()).collect();
    draft.bind(labels[3]).bind(labels[1]);
    draft.bytes(&[1, 2, 3]).bind(labels[4]).bind(labels[0]);
    draft
}

/// The four steps that the digits of `code` to base 6 name, if one of them is
/// a jump: bind the next label, align 4, align 16, a byte, a jump to either
/// label. Labels not bound by then are bound at the end.
///
/// The jumps are recorded with lengths 4 and 8, so that alignments after
/// them have length 0 and gain padding.
fn sequence(code: u32) -> Option<Draft> {
    let steps: [u32; 4] = std::array::from_fn(|i| code / 6u32.pow(i as u32) % 6);
    if !steps.iter().any(|step| *step >= 4) {
        return None;
    }
    let mut draft = Draft::x64();
    let labels = [draft.label(), draft.label()];
    let mut unbound = labels.iter();
    for step in steps {
        match step {
            0 => {
                if let Some(label) = unbound.next() {
                    draft.bind(*label);
                }
            }
            1 => _ = draft.align(4),
            2 => _ = draft.align(16),
            3 => _ = draft.bytes(&[0xAA]),
            4 => _ = draft.jump(labels[0], 4, 16),
            _ => _ = draft.jump(labels[1], 8, 4),
        }
    }
    for label in unbound {
        draft.bind(*label);
    }
    Some(draft)
}
