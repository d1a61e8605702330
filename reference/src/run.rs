//! Whole recordings: the calls of a sheet, then finish.

use std::cell::Cell;
use std::fmt;
use std::panic::{self, AssertUnwindSafe};
use std::sync::Once;

use crate::{
    Call, Error, Finished, Image, LABEL_TARGET, Recording, Relocation, Sheet, TextStep, UNBOUND,
};

/// What a recording answers: its first refusal, or what it finished to.
pub struct Answer {
    pub error: Option<Error>,
    /// The refused call, or the number of calls where finish answers.
    pub index: u32,
    pub finished: Option<Finished>,
}

impl Answer {
    fn refused(error: Error, index: u32) -> Self {
        Self {
            error: Some(error),
            index,
            finished: None,
        }
    }
}

/// Runs a binary sheet and finishes if no call is refused.
pub fn run_sheet(arch: u32, symbols: u32, bytes: &[u8]) -> Answer {
    match Sheet::read(bytes) {
        Ok(sheet) => run(arch, symbols, sheet.calls().map(Some)),
        Err(index) => Answer::refused(Error::Malformed, index),
    }
}

/// As [`run_sheet`], of calls at hand.
pub fn run_calls(arch: u32, symbols: u32, calls: &[Call<'_>]) -> Answer {
    run(arch, symbols, calls.iter().map(|call| Some(call.clone())))
}

/// As [`run_calls`], of what a text says.
pub fn run_steps(arch: u32, symbols: u32, steps: &[TextStep]) -> Answer {
    run(arch, symbols, steps.iter().map(|step| step.call().cloned()))
}

/// Runs calls; nothing, in the place of one, is a finish whose answer is dropped.
fn run<'a>(arch: u32, symbols: u32, calls: impl Iterator<Item = Option<Call<'a>>>) -> Answer {
    // Where a panic happened is known only by the calls counted so far.
    let done = Cell::new(0);
    quietly(|| {
        let mut recording = match Recording::new(arch, symbols) {
            Ok(recording) => recording,
            Err(error) => return Answer::refused(error, 0),
        };
        for call in calls {
            let answer = match call {
                Some(call) => recording.call(&call),
                None => recording.finish().map(|_| 0).or(Ok(0)),
            };
            if let Err(error) = answer {
                return Answer::refused(error, done.get());
            }
            done.set(done.get() + 1);
        }
        match recording.finish() {
            Ok(finished) => Answer {
                error: None,
                index: done.get(),
                finished: Some(finished),
            },
            Err(error) => Answer::refused(error, done.get()),
        }
    })
    .unwrap_or_else(|error| Answer::refused(error, done.get()))
}

impl Recording {
    /// Makes one call; the value is that of the call, or 0.
    pub fn call(&mut self, call: &Call<'_>) -> Result<u32, Error> {
        match call {
            Call::Bytes(bytes) => self.bytes(bytes).map(|()| 0),
            Call::NewLabel => self.new_label(),
            Call::Bind(label) => self.bind(*label).map(|()| 0),
            Call::Align { multiple, most } => self.align(*multiple, *most).map(|()| 0),
            Call::Use {
                offset,
                label,
                code,
            } => self.use_label(*offset, *label, *code).map(|()| 0),
            Call::Ref {
                offset,
                label,
                code,
                addend,
            } => self.label_ref(*offset, *label, *code, *addend).map(|()| 0),
            Call::Jump {
                start,
                length,
                label,
                condition,
            } => self.jump(*start, *length, *label, *condition).map(|()| 0),
            Call::Constant(bytes) => self.constant(bytes),
            Call::ConstantLabel(constant) => self.constant_label(*constant),
            Call::Relocation {
                offset,
                kind,
                target,
                addend,
            } => self
                .relocation(*offset, *kind, *target, *addend)
                .map(|()| 0),
        }
    }
}

thread_local! {
    static QUIET: Cell<bool> = const { Cell::new(false) };
}

/// Runs `work` with its panics caught and not printed.
pub fn quietly<T>(work: impl FnOnce() -> T) -> Result<T, Error> {
    static HOOK: Once = Once::new();
    HOOK.call_once(|| {
        let print = panic::take_hook();
        panic::set_hook(Box::new(move |info| {
            if !QUIET.get() {
                print(info);
            }
        }));
    });
    let before = QUIET.replace(true);
    let result = panic::catch_unwind(AssertUnwindSafe(work));
    QUIET.set(before);
    result.map_err(|_| Error::Panic)
}

/// One line, the same on every machine. Code above 64 bytes is given by its
/// checksum, long tables by their number of entries.
impl fmt::Display for Answer {
    fn fmt(&self, f: &mut fmt::Formatter<'_>) -> fmt::Result {
        match (&self.error, &self.finished) {
            (Some(error), _) => write!(f, "{error} at {}", self.index),
            (None, Some(finished)) => write!(f, "{finished}"),
            (None, None) => write!(f, "nothing"),
        }
    }
}

impl fmt::Display for Finished {
    fn fmt(&self, f: &mut fmt::Formatter<'_>) -> fmt::Result {
        let code = self.code();
        write!(f, "length {}, layouts {}", code.len(), self.layouts())?;
        if self.alignment() != 32 {
            write!(f, ", alignment {}", self.alignment())?;
        }
        list_tables(f, self.labels(), self.relocations())?;
        print_code(f, code)
    }
}

impl fmt::Display for Image {
    fn fmt(&self, f: &mut fmt::Formatter<'_>) -> fmt::Result {
        let code = self.code();
        write!(f, "length {}", code.len())?;
        if self.alignment() != 32 {
            write!(f, ", alignment {}", self.alignment())?;
        }
        list(f, "symbols", self.symbols().map(|s| s.to_string()))?;
        list_tables(f, self.labels(), self.relocations())?;
        print_code(f, code)
    }
}

fn list_tables(
    f: &mut fmt::Formatter<'_>,
    labels: &[u32],
    relocations: impl ExactSizeIterator<Item = Relocation>,
) -> fmt::Result {
    list(f, "labels", labels.iter().map(|l| offset(*l)))?;
    let relocations = relocations.map(|r| {
        let (letter, number) = match r.target.checked_sub(LABEL_TARGET) {
            Some(label) => ('l', label),
            None => ('s', r.target),
        };
        let Relocation { offset, kind, .. } = r;
        format!("{offset}:{kind}:{letter}{number}{:+}", r.addend)
    });
    list(f, "relocations", relocations)
}

fn print_code(f: &mut fmt::Formatter<'_>, code: &[u8]) -> fmt::Result {
    if code.len() > 64 {
        return write!(f, ", checksum {:08X}", crate::fnv1a(code));
    }
    f.write_str(if code.is_empty() { "" } else { ", code" })?;
    code.iter().try_for_each(|byte| write!(f, " {byte:02X}"))
}

fn offset(offset: u32) -> String {
    if offset == UNBOUND {
        "unbound".into()
    } else {
        offset.to_string()
    }
}

fn list(
    f: &mut fmt::Formatter<'_>,
    name: &str,
    items: impl ExactSizeIterator<Item = String>,
) -> fmt::Result {
    match items.len() {
        0 => Ok(()),
        1..=16 => {
            write!(f, ", {name}")?;
            items.into_iter().try_for_each(|item| write!(f, " {item}"))
        }
        many => write!(f, ", {many} {name}"),
    }
}
