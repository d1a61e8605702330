//! Which recordings no added refusal of document 01 turns away.
//!
//! Only on those must the Rust and this project agree, so only those are
//! stored. Where an added refusal and one of the Rust's own meet in one call,
//! the recording is turned away as well: that is stricter than needed.

use sheet_text::{Padding, most_of_word};

use crate::{Call, LABEL_TARGET, TextStep, UNBOUND, X64};

const TABLE: usize = 65_536;
const CODE: u64 = 16_777_216;

/// The number of an added refusal that applies before the Rust's first own
/// one, or at finish; nothing if there is none. Lent slices are taken to be
/// as long as the limits allow.
pub fn added_refusal(arch: u32, symbols: u32, calls: &[Call<'_>]) -> Option<u32> {
    added(arch, symbols, calls.iter().map(Some))
}

/// As [`added_refusal`], of what a text says: whatever follows a finish is
/// refused by 4.
pub fn added_refusal_of_text(arch: u32, symbols: u32, steps: &[TextStep]) -> Option<u32> {
    added(arch, symbols, steps.iter().map(TextStep::call))
}

/// Nothing in the place of a call is a finish.
fn added<'c, 'b: 'c>(
    arch: u32,
    symbols: u32,
    calls: impl Iterator<Item = Option<&'c Call<'b>>>,
) -> Option<u32> {
    if ![1, 2, 6].contains(&arch) {
        return Some(2);
    }
    let mut state = State {
        arch,
        symbols,
        ..State::default()
    };
    for call in calls {
        match call.map_or(Step::Added(4), |call| state.step(call)) {
            Step::Taken => {}
            Step::Added(number) => return Some(number),
            Step::Refused => return None,
        }
    }
    state.finish()
}

enum Step {
    Taken,
    /// Refused by the Rust itself.
    Refused,
    Added(u32),
}

#[derive(Default)]
struct State {
    arch: u32,
    symbols: u32,
    offset: u64,
    labels: Vec<u32>,
    /// Start and end.
    events: Vec<(u64, u64)>,
    jumps: Vec<u32>,
    uses: usize,
    /// Offset, size, label.
    refs: Vec<(u64, u64, u32)>,
    /// Size, and label once asked for.
    constants: Vec<(u64, Option<u32>)>,
    asked: Vec<usize>,
    relocations: usize,
}

impl State {
    fn step(&mut self, call: &Call<'_>) -> Step {
        match call {
            Call::Bytes(bytes) => self.append(bytes.len() as u64),
            Call::NewLabel => self.new_label(),
            Call::Bind(label) => self.bind(*label),
            Call::Align { multiple, most } => self.align(*multiple, *most),
            Call::Use { label, code, .. } => self.use_label(*label, *code),
            Call::Ref { .. } | Call::Jump { .. } if self.arch != X64 => Step::Taken,
            Call::Ref {
                offset,
                label,
                code,
                ..
            } => self.label_ref(*offset, *label, *code),
            Call::Jump {
                start,
                length,
                label,
                condition,
            } => self.jump(*start, *length, *label, *condition),
            Call::Constant(bytes) => self.constant(bytes.len() as u64),
            Call::ConstantLabel(constant) => self.constant_label(*constant),
            Call::Relocation {
                offset,
                kind,
                target,
                ..
            } => self.relocation(*offset, *kind, *target),
        }
    }

    fn append(&mut self, count: u64) -> Step {
        self.offset += count;
        if self.offset > CODE {
            return Step::Added(12);
        }
        Step::Taken
    }

    fn new_label(&mut self) -> Step {
        if self.labels.len() == TABLE {
            return Step::Added(11);
        }
        self.labels.push(UNBOUND);
        Step::Taken
    }

    fn bind(&mut self, label: u32) -> Step {
        match self.labels.get_mut(label as usize) {
            Some(offset) if *offset == UNBOUND => {
                *offset = self.offset as u32;
                Step::Taken
            }
            _ => Step::Refused,
        }
    }

    fn align(&mut self, multiple: u32, most: u32) -> Step {
        if !multiple.is_power_of_two() {
            return Step::Refused;
        }
        if multiple > 4096 {
            return Step::Added(5);
        }
        let start = self.offset;
        let padding = Padding::at(start, multiple, most_of_word(most));
        self.offset += u64::from(padding.spent());
        if self.arch == X64 {
            if self.events.len() == TABLE {
                return Step::Added(11);
            }
            self.events.push((start, self.offset));
        }
        self.append(0)
    }

    fn use_label(&mut self, label: u32, code: u32) -> Step {
        let known = match self.arch {
            6 => matches!(code, 9..=14 | 16),
            _ => code <= 1,
        };
        if !known || label as usize >= self.labels.len() {
            return Step::Refused;
        }
        if self.uses == TABLE {
            return Step::Added(11);
        }
        self.uses += 1;
        Step::Taken
    }

    fn label_ref(&mut self, offset: u32, label: u32, code: u32) -> Step {
        if code > 1 {
            return Step::Added(7);
        }
        if label as usize >= self.labels.len() {
            return Step::Added(8);
        }
        if self.refs.len() == TABLE {
            return Step::Added(11);
        }
        let size = if code == 0 { 4 } else { 1 };
        self.refs.push((u64::from(offset), size, label));
        Step::Taken
    }

    fn jump(&mut self, start: u32, length: u32, label: u32, condition: u32) -> Step {
        let start = u64::from(start);
        let end = start + u64::from(length);
        let last_end = self.events.last().map_or(0, |event| event.1);
        let holds =
            |label: &u32| *label != UNBOUND && start < (*label).into() && end > (*label).into();
        if label as usize >= self.labels.len() {
            return Step::Added(8);
        }
        if end != self.offset
            || !(2..=15).contains(&length)
            || condition > 16
            || start < last_end
            || self.labels.iter().any(holds)
        {
            return Step::Added(10);
        }
        if self.events.len() == TABLE {
            return Step::Added(11);
        }
        self.events.push((start, end));
        self.jumps.push(label);
        Step::Taken
    }

    fn constant(&mut self, size: u64) -> Step {
        if size > 64 {
            return Step::Added(10);
        }
        if self.constants.len() == TABLE {
            return Step::Added(11);
        }
        self.constants.push((size, None));
        Step::Taken
    }

    fn constant_label(&mut self, constant: u32) -> Step {
        let label = self.labels.len() as u32;
        match self.constants.get_mut(constant as usize) {
            None => return Step::Refused,
            Some((_, Some(_))) => return Step::Taken,
            Some((_, none)) => *none = Some(label),
        }
        self.asked.push(constant as usize);
        self.new_label()
    }

    fn relocation(&mut self, offset: u32, kind: u32, target: u32) -> Step {
        if u64::from(offset) >= CODE {
            return Step::Added(10);
        }
        let known = match self.arch {
            6 => matches!(kind, 0 | 1 | 8 | 11..=21),
            _ => matches!(kind, 0..=6 | 9 | 10),
        };
        let named = match target.checked_sub(LABEL_TARGET) {
            Some(label) => (label as usize) < self.labels.len(),
            None => target < self.symbols,
        };
        if !known || !named {
            return Step::Refused;
        }
        if self.relocations == TABLE {
            return Step::Added(11);
        }
        self.relocations += 1;
        Step::Taken
    }

    fn finish(&mut self) -> Option<u32> {
        for constant in std::mem::take(&mut self.asked) {
            let (size, label) = self.constants[constant];
            let label = label.expect("an asked constant has a label");
            if self.labels[label as usize] != UNBOUND {
                // 13, the Rust's own, comes before every added number here.
                return None;
            }
            let multiple = if size <= 8 { 8 } else { 16 };
            let start = self.offset;
            self.offset = start.next_multiple_of(multiple);
            self.events.push((start, self.offset));
            self.labels[label as usize] = self.offset as u32;
            self.offset += size;
        }
        if self.offset > CODE {
            return Some(14);
        }
        let is_unbound = |label: &u32| self.labels[*label as usize] == UNBOUND;
        if self.jumps.iter().any(is_unbound) || self.refs.iter().any(|r| is_unbound(&r.2)) {
            return Some(15);
        }
        if self.jumps.is_empty() {
            return None;
        }
        if self.events.len() > TABLE {
            return Some(16);
        }
        let touches = |start: u64, end: u64| {
            let meets = |event: &(u64, u64)| start < event.1 && end > event.0;
            end > self.offset || self.events.iter().any(meets)
        };
        let unfit = self.refs.iter().any(|r| touches(r.0, r.0 + r.1));
        unfit.then_some(17)
    }
}
