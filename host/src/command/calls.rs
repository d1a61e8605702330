//! Calls looked up: which one made, bound or named what a refusal speaks of.

use std::collections::HashSet;

use wargnifla::{Arch, Call, Entry, Error, Label, LayoutEvent, Recording, RelocTarget};

/// The call, by index, that made an entry of a recording that accepted all calls; none makes a definition.
pub fn call_of_entry(calls: &[Call], arch: Arch, entry: Entry) -> Option<usize> {
    let mut asked = HashSet::new();
    let mut makes_entry = |call: &Call| match (entry, call) {
        (Entry::Event(_), _) => LayoutEvent::is_made_by(call, arch),
        (Entry::Ref(_), Call::Ref { .. }) => arch.tracks_layout(),
        (Entry::Use(_), Call::Use { .. }) => true,
        (Entry::Reloc(_), Call::Relocation { .. }) => true,
        (Entry::Asked(_), Call::ConstantLabel(constant)) => asked.insert(*constant),
        _ => false,
    };
    let mut made = (0..).zip(calls).filter(|(_, call)| makes_entry(call));
    made.nth(entry.index()).map(|(index, _)| index)
}

/// The call that binds a label first.
pub fn binding(calls: &[Call], label: u32) -> Option<usize> {
    calls.iter().position(|call| *call == Call::Bind(label))
}

/// The call that makes a label.
pub fn making(calls: &[Call], label: u32) -> Option<usize> {
    let mut asked = HashSet::new();
    let mut made = (0..).zip(calls).filter(|(_, call)| match call {
        Call::NewLabel => true,
        Call::ConstantLabel(constant) => asked.insert(*constant),
        _ => false,
    });
    made.nth(label as usize).map(|(index, _)| index)
}

/// The label that a call names.
fn named_label(call: &Call) -> Option<u32> {
    match *call {
        Call::Bind(label)
        | Call::Use { label, .. }
        | Call::Ref { label, .. }
        | Call::Jump { label, .. } => Some(label),
        Call::Relocation { target, .. } => match RelocTarget::from_word(target) {
            RelocTarget::Label(label) => Some(label.id()),
            RelocTarget::Sym(_) => None,
        },
        _ => None,
    }
}

/// Which word of its statement a call is refused for, its name being word 0.
pub fn wrong_word(call: &Call, error: &Error) -> usize {
    let is_condition = error.sentence().starts_with("condition");
    match (error.number(), call) {
        (1 | 6 | 7, Call::Use { .. } | Call::Ref { .. }) => 3,
        (1 | 7 | 24, Call::Relocation { .. }) => 2,
        (8 | 15 | 18 | 29, Call::Relocation { .. }) => 3,
        (25, Call::Relocation { .. }) => 4,
        (8 | 15 | 18 | 20..=22, Call::Use { .. } | Call::Ref { .. }) => 2,
        (8 | 15, Call::Jump { .. }) => 3,
        (10, Call::Jump { .. }) if is_condition => 4,
        (10, Call::Jump { length, .. }) if !(2..=15).contains(length) => 2,
        (10, Call::Jump { .. } | Call::Relocation { .. } | Call::Constant(_)) => 1,
        (17 | 23, Call::Relocation { .. }) => 1,
        (17 | 19, Call::Use { .. } | Call::Ref { .. }) => 1,
        (8 | 9 | 13, Call::Bind(_) | Call::ConstantLabel(_)) => 1,
        (5 | 12, Call::Align { .. } | Call::Bytes(_)) => 1,
        _ => 0,
    }
}

/// A second call that a refusal has to do with, and what is to be said of it. `recording` is what stood when it was refused.
pub fn second_place(
    calls: &[Call],
    refused: usize,
    error: &Error,
    recording: &Recording,
) -> Option<(usize, String)> {
    let call = &calls[refused];
    let label = named_label(call);
    let name = |label: u32| recording.names.text(Label::from_id(label));
    match error.number() {
        9 => Some((
            binding(calls, label?)?,
            format!("{} is bound here", name(label?)),
        )),
        10 => beside_jump(calls, call, recording),
        13 => Some((
            making(calls, label?)?,
            "finish binds the label that is asked for here".into(),
        )),
        15 => {
            let sentence = format!("{} is made here, and nothing binds it", name(label?));
            Some((making(calls, label?)?, sentence))
        }
        17 => touched(calls, call, recording),
        18 | 20..=22 | 25 => match binding(calls, label?) {
            Some(call) => Some((call, format!("{} is bound here", name(label?)))),
            None => Some((
                making(calls, label?)?,
                format!("{} is a constant's, asked for here", name(label?)),
            )),
        },
        _ => None,
    }
}

/// What a refused jump starts before the end of, or has inside.
fn beside_jump(calls: &[Call], call: &Call, recording: &Recording) -> Option<(usize, String)> {
    let Call::Jump { start, length, .. } = *call else {
        return None;
    };
    let end = start.checked_add(length)?;
    if end != recording.code_len {
        return None;
    }
    let last = recording.events.len().checked_sub(1);
    if let Some(last) = last.filter(|last| start < recording.events[*last].end()) {
        let what = recording.events[last].name();
        let at = call_of_entry(calls, recording.arch, Entry::Event(last))?;
        return Some((at, format!("{what} stands here")));
    }
    let inside = |offset: &u32| start < *offset && *offset < end;
    let label = recording.labels.iter().position(inside)? as u32;
    let name = recording.names.text(Label::from_id(label));
    Some((binding(calls, label)?, format!("{name} is bound here")))
}

/// The event that a ref's field touches.
fn touched(calls: &[Call], call: &Call, recording: &Recording) -> Option<(usize, String)> {
    let Call::Ref { offset, code, .. } = *call else {
        return None;
    };
    let size = wargnifla::LabelUse::from_code(code)?.patch_size();
    let end = offset.checked_add(size)?;
    let pooled = recording.pooled();
    if end > pooled.len {
        return None;
    }
    let before = pooled.events.partition_point(|event| event.start() < end);
    let index = before.checked_sub(1)?;
    let entry = match index.checked_sub(recording.events.len()) {
        None => Entry::Event(index),
        Some(pool) => Entry::Asked(pool),
    };
    let at = call_of_entry(calls, recording.arch, entry)?;
    let what = pooled.event_name(index);
    Some((at, format!("{what} comes from here")))
}

#[cfg(test)]
mod tests {
    use super::*;
    use wargnifla::read_text;

    #[test]
    fn entries_go_back_to_their_calls() {
        let text = "n; c 01; k 0; k 0; c 02; k 1; b 0000; a 2; j 0 2 0; u 0 0 0; u 1 0 0";
        let calls = read_text(text).unwrap().calls;
        let index = |entry| call_of_entry(&calls, Arch::X64, entry);
        assert_eq!(index(Entry::Asked(0)), Some(2));
        assert_eq!(index(Entry::Asked(1)), Some(5));
        assert_eq!(index(Entry::Event(1)), Some(8));
        assert_eq!(index(Entry::Use(1)), Some(10));
        assert_eq!(index(Entry::Ref(0)), None);
        assert_eq!(making(&calls, 0), Some(0));
        assert_eq!(making(&calls, 1), Some(2));
        assert_eq!(making(&calls, 2), Some(5));
        assert_eq!(making(&calls, 3), None);
        assert_eq!(binding(&calls, 0), None);
    }
}
