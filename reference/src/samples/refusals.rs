//! Every refusal that the Rust itself has, while recording and at finish.
//! The reach refusals 18 and 20 to 22 are in `limits`.

use super::Draft;
use crate::{AARCH64, Call, LABEL_TARGET, X64, X86};

pub fn drafts() -> Vec<Draft> {
    let mut drafts = Vec::new();
    for arch in [X86, X64, AARCH64] {
        drafts.extend(UNFIT_ALIGNMENTS.map(|multiple| align(arch, multiple)));
        drafts.extend((0..=16).map(|code| use_of_code(arch, code)));
        drafts.extend(unknown_numbers(arch));
        drafts.extend(bound_twice(arch));
        drafts.extend(bound_by_caller(arch));
        drafts.extend(unbound(arch));
        drafts.extend(past_the_end(arch));
        drafts.extend(order_of_uses(arch));
    }
    drafts.extend(with_jump());
    drafts
}

const UNFIT_ALIGNMENTS: [u32; 7] = [0, 3, 6, 4095, 4097, 0x8000_0001, u32::MAX];

/// Calls before a refusal stay, calls after it do not run.
fn around(draft: &mut Draft, call: Call<'static>) {
    draft.bytes(&[1, 2, 3]);
    draft.push(call);
    draft.bytes(&[4, 5, 6]);
}

/// Number 5.
fn align(arch: u32, multiple: u32) -> Draft {
    let mut draft = Draft::new(arch);
    around(&mut draft, Call::align(multiple));
    draft
}

/// Numbers 6 and 7, or none. The label is unknown where the code is odd and
/// foreign: the code is looked at first.
fn use_of_code(arch: u32, code: u32) -> Draft {
    let mut draft = Draft::new(arch);
    let label = draft.here();
    let native = if arch == AARCH64 { code >= 9 } else { code < 2 };
    draft.zeros(8);
    let label = if native { label } else { label + code % 2 };
    draft.use_at(0, label, code);
    draft
}

/// Number 8.
fn unknown_numbers(arch: u32) -> Vec<Draft> {
    let code = if arch == AARCH64 { 11 } else { 0 };
    let use_of = |label| Call::Use {
        offset: 0,
        label,
        code,
    };
    let relocation = |target| Call::Relocation {
        offset: 0,
        kind: 1,
        target,
        addend: 0,
    };
    let calls = [
        Call::Bind(1),
        Call::Bind(u32::MAX),
        use_of(1),
        use_of(u32::MAX),
        Call::ConstantLabel(1),
        Call::ConstantLabel(u32::MAX),
        relocation(2),
        relocation(LABEL_TARGET - 1),
        relocation(LABEL_TARGET + 1),
        relocation(u32::MAX),
    ];
    let drafts = calls.into_iter().map(|call| {
        let mut draft = Draft::with_symbols(arch, 2);
        draft.label();
        draft.constant(&[7]);
        around(&mut draft, call);
        draft
    });
    drafts.collect()
}

/// Number 9.
fn bound_twice(arch: u32) -> Vec<Draft> {
    [0, 5]
        .map(|gap| {
            let mut draft = Draft::new(arch);
            let label = draft.here();
            draft.zeros(gap).bind(label).zeros(1);
            draft
        })
        .into()
}

/// Number 13, with the constant first or second in the pool, and beside what
/// 15 and 19 would refuse.
fn bound_by_caller(arch: u32) -> Vec<Draft> {
    (0..4)
        .map(|form| {
            let mut draft = Draft::new(arch);
            let constants = [draft.constant(&[1, 2]), draft.constant(&[3; 9])];
            let labels = constants.map(|constant| draft.constant_label(constant));
            draft.zeros(5).bind(labels[form % 2]);
            if form >= 2 {
                let loose = draft.label();
                let code = if arch == AARCH64 { 13 } else { 0 };
                draft.use_at(900, loose, code);
            }
            draft
        })
        .collect()
}

/// Number 15, alone and beside uses that 19 to 22 would refuse.
fn unbound(arch: u32) -> Vec<Draft> {
    let code = if arch == AARCH64 { 12 } else { 0 };
    let mut drafts = Vec::new();
    for form in 0..4 {
        let mut draft = Draft::new(arch);
        let bound = draft.here();
        let loose = draft.label();
        draft.zeros(8);
        match form {
            0 => _ = draft.use_at(0, loose, code),
            1 => _ = draft.to_label(0, 0, loose, 0),
            2 => _ = draft.use_at(90, bound, code).use_at(0, loose, code),
            _ => _ = draft.use_at(5, bound, code).to_label(0, 1, loose, 3),
        }
        drafts.push(draft);
    }
    drafts
}

/// Number 19 at each byte around the end, the pooled code's if there is one.
fn past_the_end(arch: u32) -> Vec<Draft> {
    let codes: &[u32] = if arch == AARCH64 {
        &[9, 11, 13, 14, 16]
    } else {
        &[0, 1]
    };
    let mut drafts = Vec::new();
    for code in codes {
        for offset in [4, 5, 7, 8, 9, 4000, u32::MAX - 3, u32::MAX] {
            let mut draft = Draft::new(arch);
            draft.zeros(8);
            let label = draft.here();
            draft.use_at(offset, label, *code);
            drafts.push(draft);
        }
        let mut draft = Draft::new(arch);
        draft.zeros(5);
        let constant = draft.constant(&[1, 2, 3, 4]);
        let label = draft.constant_label(constant);
        draft.use_at(8, label, *code);
        drafts.push(draft);
    }
    drafts
}

/// 19 to 22 go use by use, whatever their numbers.
fn order_of_uses(arch: u32) -> Vec<Draft> {
    let mut drafts = Vec::new();
    for form in 0..6 {
        let mut draft = Draft::new(arch);
        let back = draft.here();
        draft.zeros(200);
        let end = draft.here();
        let (back_use, end_use) = match arch {
            AARCH64 => ((151, back, 12), (50, end, 10)),
            _ => ((150, back, 1), (50, end, 1)),
        };
        let past = (198, end, if arch == AARCH64 { 13 } else { 0 });
        let orders = [
            [back_use, end_use, past],
            [back_use, past, end_use],
            [end_use, back_use, past],
            [end_use, past, back_use],
            [past, back_use, end_use],
            [past, end_use, back_use],
        ];
        for (offset, label, code) in orders[form] {
            draft.use_at(offset, label, code);
        }
        drafts.push(draft);
    }
    drafts
}

/// With a jump: 13, 15 and 18, a use's 15 included, and not 19 to 22.
fn with_jump() -> Vec<Draft> {
    let base = || {
        let mut draft = Draft::with_symbols(X64, 1);
        let label = draft.here();
        draft.jump(label, 5, 16).zeros(150);
        (draft, label)
    };
    let mut drafts = Vec::new();
    let (mut draft, _) = base();
    let loose = draft.label();
    draft.use_at(6, loose, 0);
    drafts.push(draft);
    let (mut draft, _) = base();
    let loose = draft.label();
    draft.to_label(6, 1, loose, 0);
    drafts.push(draft);
    let (mut draft, label) = base();
    let constant = draft.constant(&[1]);
    let pooled = draft.constant_label(constant);
    draft.bind(pooled).ref_at(140, label, 1, 0);
    drafts.push(draft);
    let (mut draft, label) = base();
    draft.ref_at(20, label, 0, 0).ref_at(140, label, 1, 0);
    drafts.push(draft);
    let (mut draft, label) = base();
    draft.ref_at(140, label, 1, 0).ref_at(20, label, 0, 0);
    drafts.push(draft);
    let (mut draft, label) = base();
    draft.use_at(140, label, 1).use_at(9999, label, 0);
    drafts.push(draft);
    drafts
}
