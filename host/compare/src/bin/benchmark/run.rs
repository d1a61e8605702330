//! A row measured.

use std::time::Duration;

use compare::Piece;

use crate::editor::{Editor, Number};
use crate::inputs::Step;
use crate::joins::{self, Joining, Linked, Linking};
use crate::library::{Library, library};
use crate::measure::{Clock, Effort, Measured, take_turns};
use crate::print::grouped;
use crate::relas::{Loop, Relas};
use crate::rows::{Input, Row, Sides, Timed};
use crate::sides::{Copy, HandOut, Rust, Side, Verified, Wrapper, memory};

/// What a row gave, and what is to be said of it; or why it can't be measured.
pub fn measure(row: &Row, effort: Effort) -> Result<(Measured, Option<String>), String> {
    let steps = row.input.steps()?;
    let mut memory = memory(row.recordings());
    let mut verified = Verified::new(row.arch, &mut memory);
    let rust = |hand_out| Rust::new(row.arch, row.recordings(), hand_out);
    let measured = match row.sides {
        Sides::Editor => return Ok((editors(row, effort, &steps), None)),
        Sides::Join(pieces, linking) => return Ok((join(row, effort, &pieces(), linking), None)),
        Sides::Verified(hand_out) => compare(row, effort, &steps, &mut verified, rust(hand_out)),
        Sides::Wrapper(hand_out) => {
            let mut wrapper = Wrapper::default();
            compare(row, effort, &steps, &mut wrapper, rust(hand_out))
        }
        Sides::Instead(other) => {
            let (other, mut rust) = (other(), rust(HandOut::Copies));
            take_turns(
                effort,
                || time(row, &mut verified, &steps),
                || time(row, &mut rust, &other),
            )
        }
        Sides::Copy => in_turns(row, effort, &steps, &mut verified, &mut Copy::new()),
        Sides::Relas(task) => {
            let verified = &mut verified;
            let mut relas = Relas { verified, task };
            let plain = Loop::new(&mut relas, &steps);
            compare(row, effort, &steps, &mut relas, plain)
        }
    };
    let note = match (row.input, row.timed) {
        (Input::Library, Timed::Finish) => Some(jumps_of(library()?, &verified)),
        _ => None,
    };
    Ok((measured, note))
}

/// Measures two editors, one of which counts afresh what is open.
fn editors(row: &Row, effort: Effort, steps: &[Step]) -> Measured {
    let mut memories = [memory(1), memory(1)];
    let [kept, afresh] = memories.each_mut();
    let mut kept = Editor::new(Verified::new(row.arch, kept), Number::Kept);
    let afresh = Editor::new(Verified::new(row.arch, afresh), Number::Afresh);
    compare(row, effort, steps, &mut kept, afresh)
}

/// Measures a join beside the Rust's linker.
fn join(row: &Row, effort: Effort, pieces: &[Piece], linking: Linking) -> Measured {
    let mut memory = joins::memory(pieces, row.batch);
    let mut ours = Joining::new(&mut memory);
    let linked = Linked::new(pieces, linking, row.batch);
    compare(row, effort, &[], &mut ours, linked)
}

/// Measures two sides, and sees that they finish to the same code.
fn compare(
    row: &Row,
    effort: Effort,
    steps: &[Step],
    ours: &mut impl Side,
    mut other: impl Side,
) -> Measured {
    let measured = in_turns(row, effort, steps, ours, &mut other);
    if row.timed == Timed::Whole {
        record_and_finish(ours, steps);
        record_and_finish(&mut other, steps);
    }
    let is_same = row.timed == Timed::Record || ours.code() == other.code();
    assert!(is_same, "{}: the two finish to different code", row.name);
    measured
}

fn record_and_finish(side: &mut impl Side, steps: &[Step]) {
    side.clear();
    side.record(steps);
    side.finish();
}

fn in_turns(
    row: &Row,
    effort: Effort,
    steps: &[Step],
    ours: &mut impl Side,
    other: &mut impl Side,
) -> Measured {
    take_turns(
        effort,
        || time(row, ours, steps),
        || time(row, other, steps),
    )
}

/// The time of one run: of all its recordings.
fn time(row: &Row, side: &mut impl Side, steps: &[Step]) -> Duration {
    let clock = match row.batch {
        1 => Clock::Processor,
        _ => Clock::Wall,
    };
    side.clear();
    match row.timed {
        Timed::Record => clock.time(|| side.record(steps)),
        Timed::Finish => {
            side.record(steps);
            clock.time(|| side.finish())
        }
        Timed::Whole => clock.time(|| (0..row.batch).for_each(|_| side.whole(steps))),
    }
}

/// The jumps that finish left long, beside those that the file has long.
fn jumps_of(library: &Library, ours: &Verified<'_>) -> String {
    let long: Vec<bool> = ours.event_lengths().map(|length| length > 2).collect();
    let count = |long: &[bool]| grouped(long.iter().filter(|long| **long).count());
    let unlike = |is_long| {
        let pairs = long.iter().zip(&library.long);
        let unlike = pairs.filter(|(ours, file)| ours != file && **ours == is_long);
        grouped(unlike.count())
    };
    format!(
        "The C library: {} jumps among {} bytes, {} layouts. {} jumps are long, {} in the file itself; \
         {} are long that the file has short, {} short that it has long",
        grouped(long.len()),
        grouped(library.bytes),
        ours.layouts(),
        count(&long),
        count(&library.long),
        unlike(true),
        unlike(false),
    )
}
