//! Refused recording calls.

use super::{NO_REASON, with_offsets};
use crate::call::broken_form;
use crate::recording::{Label, RelocTarget};
use crate::tables::Tables;
use crate::{Call, Condition, LabelUse, MOST_CONSTANT, MOST_ENTRIES, Reloc};
use sheet_text::counted;

/// Why a recording call was turned down.
pub(crate) fn explain_call(tables: &Tables, call: &Call, number: u32) -> String {
    let sentence = match number {
        1 => broken_form(call),
        3 => Some("the call was lent more than a limit".into()),
        4 => Some("the recording has finished and takes no more calls".into()),
        5 => unfit_alignment(call),
        6 => Some("a use of code 15 (A64Ldr12) cannot be patched".into()),
        7 => foreign_kind(tables, call),
        8 => unknown_number(tables, call),
        9 => bound_label(tables, call),
        10 => out_of_range(tables, call),
        11 => Some(full_table(tables, call)),
        12 => past_the_end(tables, call),
        _ => None,
    };
    sentence.unwrap_or_else(|| NO_REASON.into())
}

fn unfit_alignment(call: &Call) -> Option<String> {
    match call {
        Call::Align { multiple, .. } if multiple.is_power_of_two() => {
            Some(format!("the alignment {multiple} exceeds 4,096"))
        }
        Call::Align { multiple, .. } => {
            Some(format!("the alignment {multiple} is no power of two"))
        }
        _ => None,
    }
}

fn foreign_kind(tables: &Tables, call: &Call) -> Option<String> {
    let kind = match call {
        Call::Use { code, .. } | Call::Ref { code, .. } => {
            format!("code {code} ({})", LabelUse::from_code(*code)?)
        }
        Call::Relocation { kind, .. } => {
            format!("relocation kind {kind} ({})", Reloc::from_number(*kind)?)
        }
        _ => return None,
    };
    Some(format!("{kind} is foreign to {}", tables.arch))
}

fn unknown_number(tables: &Tables, call: &Call) -> Option<String> {
    let unknown = |target: RelocTarget| {
        let known = match target {
            RelocTarget::Label(_) => counted(tables.label_count(), "label"),
            RelocTarget::Sym(_) => counted(tables.counts.symbols() as usize, "symbol"),
        };
        let target = tables.names.text(target);
        Some(format!("{target} is unknown: the recording has {known}"))
    };
    match call {
        Call::Bind(label)
        | Call::Use { label, .. }
        | Call::Ref { label, .. }
        | Call::Jump { label, .. } => unknown(Label::from_id(*label).into()),
        Call::ConstantLabel(constant) => Some(format!(
            "constant {constant} is unknown: the recording has {}",
            counted(tables.constant_count(), "constant")
        )),
        Call::Relocation { target, .. } => unknown(RelocTarget::from_word(*target)),
        _ => None,
    }
}

fn bound_label(tables: &Tables, call: &Call) -> Option<String> {
    let Call::Bind(label) = call else {
        return None;
    };
    let label = Label::from_id(*label);
    let offset = tables.label_offset(label)?;
    let label = tables.names.text(label);
    Some(format!("{label} is bound already, to {offset}"))
}

fn out_of_range(tables: &Tables, call: &Call) -> Option<String> {
    match call {
        Call::Jump {
            start,
            length,
            condition,
            ..
        } => unfit_jump(tables, *start, *length, *condition),
        Call::Relocation { offset, .. } => Some(format!(
            "the relocation's offset, {offset}, is above 16,777,215"
        )),
        Call::Constant(bytes) => Some(format!(
            "a constant of {} bytes is longer than {MOST_CONSTANT}",
            bytes.len()
        )),
        _ => None,
    }
}

fn unfit_jump(tables: &Tables, start: u32, length: u32, condition: u32) -> Option<String> {
    let current = tables.code().len() as u64;
    // In 64 bits: the sum passes 32.
    let end = u64::from(start) + u64::from(length);
    if !(2..=15).contains(&length) {
        return Some(format!(
            "the jump at {start} is {} long, and a jump has 2 to 15 bytes",
            counted(length as usize, "byte")
        ));
    }
    if end != current {
        return Some(format!(
            "the jump at {start} is {length} bytes long and ends at {end}, but the current offset is {current}"
        ));
    }
    if condition > Condition::NONE {
        return Some(format!(
            "condition {condition} is none of 0 to 15, nor 16 for none"
        ));
    }
    if let Some(event) = tables.events().next_back()
        && start < event.end()
    {
        return Some(format!(
            "the jump at {start} starts before the end of {}",
            with_offsets(&event.name(), &event)
        ));
    }
    let (label, offset) = (0..)
        .zip(tables.labels())
        .find(|(_, offset)| start < *offset && u64::from(*offset) < end)?;
    let label = tables.names.text(Label::from_id(label));
    Some(format!(
        "{label}, bound to {offset}, lies inside the jump from {start} to {end}"
    ))
}

fn full_table(tables: &Tables, call: &Call) -> String {
    let table = match call {
        Call::NewLabel => "labels",
        Call::Align { .. } | Call::Jump { .. } => "events (jumps and alignments)",
        Call::Use { .. } => "uses",
        Call::Ref { .. } => "refs",
        Call::Constant(_) => "constants",
        Call::ConstantLabel(_) if tables.label_count() >= MOST_ENTRIES => "labels",
        Call::ConstantLabel(_) => "constants asked for",
        Call::Relocation { .. } => "relocations",
        Call::Bytes(_) | Call::Bind(_) => "entries",
    };
    format!("the table of {table} is full, at 65,536")
}

fn past_the_end(tables: &Tables, call: &Call) -> Option<String> {
    let offset = tables.code().len();
    let what = match call {
        Call::Bytes(bytes) if bytes.len() == 1 => format!("1 more byte at {offset} passes"),
        Call::Bytes(bytes) => format!("{} more bytes at {offset} pass", bytes.len()),
        Call::Align { multiple, .. } => {
            format!("padding at {offset} to a multiple of {multiple} passes")
        }
        _ => return None,
    };
    Some(format!(
        "{what} the end of the code, which has at most 16,777,216 bytes"
    ))
}
