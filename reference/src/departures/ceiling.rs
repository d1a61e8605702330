//! Document 02, Request Seven: an alignment spends nothing where more than its
//! ceiling is needed, when it is recorded and in each layout.

use sheet_text::most_of_word;

use crate::{Call, Error, Finished, Recording, X64, quietly};

/// Whether finish answers otherwise where each layout is told of the ceilings.
///
/// A ceiling that is in the way when an alignment is recorded is no departure:
/// the driver records an alignment to a multiple of 1 in its place
/// ([`Recording::align`]), which is as good where nothing is laid out. In a
/// layout such a one may gain padding, and another may lose what it has.
pub fn decides_in_layout(arch: u32, symbols: u32, calls: &[Call<'_>]) -> bool {
    let is_jump = |call: &Call<'_>| matches!(call, Call::Jump { .. });
    let answer = |finish| answer(arch, symbols, calls, finish);
    arch == X64
        && calls.iter().any(may_be_skipped)
        && calls.iter().any(is_jump)
        && answer(|recording, _| recording.finish()) != answer(Recording::finish_within)
}

/// Whether there are offsets at which more than the ceiling is needed.
fn may_be_skipped(call: &Call<'_>) -> bool {
    matches!(*call, Call::Align { multiple, most } if most_of_word(most) < multiple.saturating_sub(1))
}

/// What becomes of calls with one finish or another.
fn answer(
    arch: u32,
    symbols: u32,
    calls: &[Call<'_>],
    finish: fn(&mut Recording, &[Call<'_>]) -> Result<Finished, Error>,
) -> Result<Finished, Error> {
    let answer = quietly(|| {
        let mut recording = Recording::new(arch, symbols)?;
        for call in calls {
            recording.call(call)?;
        }
        finish(&mut recording, calls)
    });
    answer.and_then(|answer| answer)
}
