//! What was recorded and finish did not write: nothing of it is to go unnoticed.

use std::collections::HashSet;

use crate::tables::Tables;
use crate::{Arch, Call, Constant, Label, LabelUse};

/// A jump, ref or use that was accepted and that finish did not write.
#[derive(Clone, Debug, PartialEq, Eq)]
#[non_exhaustive]
pub struct Unpatched {
    /// The call that recorded it: [`Call::Jump`], [`Call::Ref`] or [`Call::Use`].
    pub call: Call,
    /// Why finish did not write it.
    pub why: WhyUnpatched,
    /// Whether its field holds its label all the same, because another entry filled it: an assembler may record a field both as a use and as a ref,
    /// or the displacement of a jump as a use too.
    pub filled: bool,
}

/// Why finish did not write a jump or field.
#[derive(Clone, Copy, Debug, PartialEq, Eq, Hash)]
#[non_exhaustive]
pub enum WhyUnpatched {
    /// A jump or ref is accepted unread on X86 and AArch64.
    NotKept,
    /// A ref is patched only where a jump stands.
    NoJump,
    /// A use is patched only where no jump stands.
    BesideJump,
}

impl WhyUnpatched {
    /// The reason in words: `not kept on X86`.
    #[must_use]
    pub fn text(self, arch: Arch) -> String {
        match self {
            Self::NotKept => format!("not kept on {arch}"),
            Self::NoJump => "not patched, since no jump stands".into(),
            Self::BesideJump => "dropped, since a jump stands".into(),
        }
    }
}

/// What a finish of these tables does not write, in the order of recording; `unread` are the calls that the tables did not keep.
pub(crate) fn unpatched(tables: &Tables, unread: &[Call]) -> Vec<Unpatched> {
    let has_jump = tables.has_jump();
    let dropped = if has_jump {
        tables.use_count()
    } else {
        tables.ref_count()
    };
    if unread.is_empty() && dropped == 0 {
        return Vec::new();
    }
    let filled = Filled::new(tables, has_jump);
    let entry = |call: Call, why| Unpatched {
        filled: filled.covers(&call),
        call,
        why,
    };
    let unread = unread.iter().cloned();
    let mut entries: Vec<Unpatched> = unread
        .map(|call| entry(call, WhyUnpatched::NotKept))
        .collect();
    if has_jump {
        let uses = tables.uses().map(|field| Call::Use {
            offset: field.offset,
            label: field.label.id(),
            code: field.kind.code(),
        });
        entries.extend(uses.map(|call| entry(call, WhyUnpatched::BesideJump)));
    } else {
        let refs = tables.refs().map(|field| Call::Ref {
            offset: field.offset,
            label: field.label.id(),
            code: field.kind.code(),
            addend: field.addend,
        });
        entries.extend(refs.map(|call| entry(call, WhyUnpatched::NoJump)));
    }
    entries
}

/// The constants that finish does not pool.
pub(crate) fn unasked_constants(tables: &Tables) -> Vec<Constant> {
    if tables.asked_count() == tables.constant_count() {
        return Vec::new();
    }
    let labels = (0..).zip(tables.constant_labels());
    let unasked = labels.filter(|(_, label)| label.is_none());
    unasked
        .map(|(number, _)| Constant::from_id(number))
        .collect()
}

/// What finish fills, by where it ends, since a jump's displacement ends with the jump whatever its form.
struct Filled {
    fields: HashSet<(u64, Label, u32)>,
    jumps: HashSet<(u64, Label)>,
}

impl Filled {
    fn new(tables: &Tables, has_jump: bool) -> Self {
        let uses = tables
            .uses()
            .map(|field| (field.offset, field.kind, field.label));
        let refs = tables
            .refs()
            .map(|field| (field.offset, field.kind, field.label));
        let key = |(offset, kind, label): (u32, LabelUse, Label)| {
            (end(offset, kind.patch_size()), label, kind.code())
        };
        Self {
            fields: if has_jump {
                refs.map(key).collect()
            } else {
                uses.map(key).collect()
            },
            jumps: tables
                .events()
                .filter_map(|event| Some((event.end().into(), event.label()?)))
                .collect(),
        }
    }

    fn covers(&self, call: &Call) -> bool {
        match *call {
            Call::Jump {
                start,
                length,
                label,
                ..
            } => {
                let (end, label) = (end(start, length), Label::from_id(label));
                let displacements = [LabelUse::X86JmpRel32, LabelUse::X86BranchRel8];
                let mut codes = displacements.into_iter().map(LabelUse::code);
                codes.any(|code| self.fields.contains(&(end, label, code)))
            }
            Call::Use {
                offset,
                label,
                code,
            }
            | Call::Ref {
                offset,
                label,
                code,
                ..
            } => {
                let size = LabelUse::from_code(code).map_or(0, LabelUse::patch_size);
                let (end, label) = (end(offset, size), Label::from_id(label));
                self.fields.contains(&(end, label, code)) || self.jumps.contains(&(end, label))
            }
            _ => false,
        }
    }
}

fn end(start: u32, size: u32) -> u64 {
    u64::from(start) + u64::from(size)
}
