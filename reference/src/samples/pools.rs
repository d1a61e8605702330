//! Constants, and what names their labels.

use super::Draft;
use crate::{AARCH64, Call, X64, X86};

const SIZES: [u32; 5] = [0, 1, 8, 9, 12];

pub fn drafts() -> Vec<Draft> {
    let mut drafts = Vec::new();
    for arch in [X86, X64, AARCH64] {
        for first in SIZES {
            for second in SIZES {
                drafts.push(pair(arch, first, second, 1, false));
                drafts.push(pair(arch, first, second, 4, first < second));
            }
        }
        drafts.push(never_asked(arch));
        drafts.push(only_asked(arch));
        drafts.extend((0..=16).map(|offset| at_offset(arch, offset)));
    }
    for first in SIZES {
        for second in SIZES {
            drafts.extend([1, 2, 5].map(|length| beside_jump(first, second, length)));
        }
    }
    drafts.extend((0..4).map(pooled_targets));
    drafts.extend((100..=128).step_by(4).map(jump_to_pool));
    drafts.push(many());
    drafts
}

fn value(size: u32, seed: u8) -> Vec<u8> {
    (0..size as u8).map(|i| seed + i).collect()
}

/// Two constants, asked for in the order of adding or in the other, the
/// second one twice, each named by a use.
fn pair(arch: u32, first: u32, second: u32, code: u32, swap: bool) -> Draft {
    let mut draft = Draft::new(arch);
    let constants = [
        draft.constant(&value(first, 0x10)),
        draft.constant(&value(second, 0x80)),
    ];
    let order = if swap { [1, 0] } else { [0, 1] };
    let labels = order.map(|i| draft.constant_label(constants[i]));
    draft.push(Call::ConstantLabel(constants[1]));
    let (field, code) = match (arch, code) {
        (AARCH64, 1) => (0x5800_0000, 12),
        (AARCH64, _) => (0x1000_0000, 13),
        (_, code) => (0, code % 4),
    };
    for (at, label) in [(0, labels[0]), (4, labels[1])] {
        draft.word(field).use_at(at, label, code);
    }
    draft
}

/// A constant that nobody asks for is not pooled.
fn never_asked(arch: u32) -> Draft {
    let mut draft = Draft::new(arch);
    draft.constant(&value(4, 1));
    let asked = draft.constant(&value(4, 9));
    draft.constant(&value(12, 17));
    draft.bytes(&[0xC3]);
    draft.constant_label(asked);
    draft
}

fn only_asked(arch: u32) -> Draft {
    let mut draft = Draft::new(arch);
    let constant = draft.constant(&[]);
    draft.constant_label(constant);
    draft
}

/// The pool's padding at every offset, before a constant of 16's alignment.
fn at_offset(arch: u32, offset: u32) -> Draft {
    let mut draft = Draft::new(arch);
    let constant = draft.constant(&value(10, 3));
    draft.zeros(offset).constant_label(constant);
    draft
}

fn beside_jump(first: u32, second: u32, length: u32) -> Draft {
    let mut draft = Draft::x64();
    let constants = [
        draft.constant(&value(first, 0x20)),
        draft.constant(&value(second, 0x60)),
    ];
    let second = draft.constant_label(constants[1]);
    draft.zeros(length);
    let here = draft.here();
    draft.jump(here, 2 + length, 16);
    let at = draft.offset;
    draft.word(0).ref_at(at, second, 0, 0);
    let first = draft.constant_label(constants[0]);
    let at = draft.offset;
    draft.word(0).ref_at(at, first, 0, 1);
    draft
}

/// Labels of constants named by every kind of call, jumps included.
fn pooled_targets(form: u32) -> Draft {
    let mut draft = Draft::with_symbols(X64, 1);
    let constant = draft.constant(&value(12, 0x41));
    let empty = draft.constant(&[]);
    let label = draft.constant_label(constant);
    let end = draft.constant_label(empty);
    draft.word(0).use_at(0, label, 0).to_label(0, 0, label, -4);
    draft.bytes(&[0]).use_at(4, end, 1).to_label(4, 5, end, 0);
    if form > 0 {
        draft.jump(label, 5, 16).jump(end, 6, form);
        let at = draft.offset;
        draft.word(0).ref_at(at, label, 0, 8);
        draft.bytes(&[0]).ref_at(at + 4, end, 1, 0);
    }
    draft
}

/// A jump into the pool near its limit: the pool's padding moves with it.
fn jump_to_pool(zeros: u32) -> Draft {
    let mut draft = Draft::x64();
    let constant = draft.constant(&value(9, 0x90));
    let label = draft.constant_label(constant);
    draft.jump(label, 5, 16).zeros(zeros).jump(label, 6, 6);
    draft
}

/// Thirty constants of all sizes, asked for from the last to the first.
fn many() -> Draft {
    let mut draft = Draft::x64();
    let back = draft.here();
    let constants: Vec<u32> = (0..30)
        .map(|i| draft.constant(&value(i * 7 % 13, i as u8)))
        .collect();
    for constant in constants.iter().rev() {
        let label = draft.constant_label(*constant);
        let at = draft.offset;
        draft.word(0).ref_at(at, label, 0, 0);
    }
    draft.jump(back, 5, 16);
    draft
}
