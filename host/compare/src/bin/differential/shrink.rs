//! The smallest input that still disagrees.

use std::borrow::Cow;
use std::time::{Duration, Instant};

use compare::{Part, Piece};
use reference::Call;

use crate::runner::Runner;
use crate::scenario::{Scenario, Step};

/// How long smaller inputs are looked for.
const PATIENCE: Duration = Duration::from_secs(20);

/// Makes a scenario that disagrees smaller, as long as it still does.
pub fn shrink(mut scenario: Scenario) -> Scenario {
    let mut runner = Runner::default();
    let begun = Instant::now();
    let mut disagrees =
        |smaller: &Scenario| begun.elapsed() < PATIENCE && runner.run(smaller).is_err();
    loop {
        let smaller = candidates(&scenario).find(&mut disagrees);
        match smaller {
            Some(smaller) => scenario = smaller,
            None => return scenario,
        }
    }
}

/// Scenarios that are smaller by one thing, large steps first.
fn candidates(scenario: &Scenario) -> impl Iterator<Item = Scenario> {
    let without_step = (0..scenario.steps.len()).map(|number| {
        let mut smaller = scenario.clone();
        smaller.steps.remove(number);
        smaller
    });
    let steps = scenario.steps.iter().enumerate();
    let smaller_step = steps.flat_map(move |(number, step)| {
        smaller_steps(step).map(move |step| {
            let mut smaller = scenario.clone();
            smaller.steps[number] = step;
            smaller
        })
    });
    let less_room = Part::ALL.into_iter().flat_map(move |part| {
        let bytes = scenario.room.bytes(part);
        let fewer = [bytes / 2, bytes.saturating_sub(part.entry_bytes())];
        let fewer = fewer.into_iter().filter(move |fewer| *fewer < bytes);
        fewer.map(move |fewer| {
            let mut smaller = scenario.clone();
            smaller.room.set_bytes(part, fewer);
            smaller
        })
    });
    without_step.chain(smaller_step).chain(less_room)
}

fn smaller_steps(step: &Step) -> Box<dyn Iterator<Item = Step> + '_> {
    match step {
        Step::Sheet(calls) => {
            let smaller = smaller_lists(calls).chain(smaller_calls(calls));
            Box::new(smaller.map(Step::Sheet))
        }
        Step::Bytes(bytes) => Box::new(smaller_lists(bytes).map(Step::Bytes)),
        Step::Constant(bytes) => Box::new(smaller_lists(bytes).map(Step::Constant)),
        Step::Pieces(pieces) => {
            let smaller = smaller_lists(pieces).chain(smaller_pieces(pieces));
            Box::new(smaller.map(Step::Pieces))
        }
        _ => Box::new(std::iter::empty()),
    }
}

/// A list without half, a quarter, .. or one of its entries.
fn smaller_lists<T: Clone>(list: &[T]) -> impl Iterator<Item = Vec<T>> {
    let halved = |width: &usize| (*width > 1).then(|| width.div_ceil(2));
    let widths = std::iter::successors(Some(list.len()).filter(|n| *n > 0), halved);
    widths.flat_map(move |width| {
        let starts = (0..list.len()).step_by(width);
        starts.map(move |start| {
            let end = (start + width).min(list.len());
            [&list[..start], &list[end..]].concat()
        })
    })
}

/// The calls with the bytes of one of them made fewer.
fn smaller_calls<'a>(
    calls: &'a [Call<'static>],
) -> impl Iterator<Item = Vec<Call<'static>>> + use<'a> {
    let shorter = |bytes: &Cow<'static, [u8]>| Cow::Owned(bytes[..bytes.len() / 2].to_vec());
    calls.iter().enumerate().filter_map(move |(index, call)| {
        let smaller = match call {
            Call::Bytes(bytes) if !bytes.is_empty() => Call::Bytes(shorter(bytes)),
            Call::Constant(bytes) if !bytes.is_empty() => Call::Constant(shorter(bytes)),
            _ => return None,
        };
        let mut calls = calls.to_vec();
        calls[index] = smaller;
        Some(calls)
    })
}

/// The pieces with one of them made smaller.
fn smaller_pieces(pieces: &[Piece]) -> impl Iterator<Item = Vec<Piece>> {
    pieces.iter().enumerate().flat_map(move |(number, piece)| {
        smaller_piece(piece).map(move |piece| {
            let mut pieces = pieces.to_vec();
            pieces[number] = piece;
            pieces
        })
    })
}

fn smaller_piece(piece: &Piece) -> impl Iterator<Item = Piece> {
    let relocations = smaller_lists(&piece.relocations).map(|relocations| Piece {
        relocations,
        ..piece.clone()
    });
    let definitions = smaller_lists(&piece.definitions).map(|definitions| Piece {
        definitions,
        ..piece.clone()
    });
    let labels = smaller_lists(&piece.labels).map(|labels| Piece {
        labels,
        ..piece.clone()
    });
    let code = smaller_lists(&piece.code).map(|code| Piece {
        code,
        ..piece.clone()
    });
    relocations.chain(definitions).chain(labels).chain(code)
}
