//! Recorded and finished code in the same parts: runs of bytes, events, constants, and the labels between them.

use std::ops::Range;

use super::Placed;
use crate::ffi::Segment;
use crate::recording::Label;
use crate::relax::events_before;
use crate::{CodeOffset, UNBOUND};

/// A part of the code, where it was recorded and where it came to stand.
pub struct Part {
    pub what: What,
    pub old: Range<CodeOffset>,
    pub new: Range<CodeOffset>,
}

#[derive(Clone, Copy)]
pub enum What {
    Label(Label),
    /// Bytes that stay as they are, but for their fields.
    Run,
    /// An event, by index.
    Event(usize),
    /// A pooled constant, by its index in the order of asking.
    Constant(usize),
}

/// The place of what was recorded at an offset, the same in every layout: behind how many events, and how many bytes behind the last of them.
pub fn place(segments: &[Segment], offset: CodeOffset) -> (usize, u32) {
    let before = events_before(segments, offset);
    (before, offset - last_of(segments, before).old_end)
}

/// The last of so many events; nothing, at 0, if there are none.
fn last_of(segments: &[Segment], before: usize) -> Segment {
    before
        .checked_sub(1)
        .map_or_else(Segment::default, |last| segments[last])
}

/// The parts in order.
pub fn parts(placed: &Placed) -> Vec<Part> {
    let mut labels = labels(placed).into_iter().peekable();
    let mut parts = Vec::new();
    for before in 0..=placed.segments.len() {
        let gap = Gap::new(placed, before);
        let mut from = gap.last.old_end;
        while let Some((_, past, label)) = labels.next_if(|label| label.0 == before) {
            let at = gap.last.old_end + past;
            parts.extend(gap.run(from..at));
            parts.push(gap.part(What::Label(label), at..at));
            from = at;
        }
        parts.extend(gap.run(from..gap.end));
        let event = placed.segments.get(before);
        parts.extend(event.map(|segment| Part {
            what: What::Event(before),
            old: segment.old_start..segment.old_end,
            new: segment.new_start..segment.new_end,
        }));
    }
    parts
}

/// The bound labels with their places, in order.
fn labels(placed: &Placed) -> Vec<(usize, u32, Label)> {
    let bound = (0..).zip(&placed.pooled.labels);
    let mut labels: Vec<(usize, u32, Label)> = bound
        .filter(|(_, offset)| **offset != UNBOUND)
        .map(|(label, offset)| {
            let (before, past) = place(&placed.segments, *offset);
            (before, past, Label::from_id(label))
        })
        .collect();
    labels.sort_unstable();
    labels
}

/// What stands between an event and the next.
struct Gap {
    last: Segment,
    end: CodeOffset,
    what: What,
}

impl Gap {
    /// The gap behind so many events.
    fn new(placed: &Placed, before: usize) -> Self {
        let Placed {
            pooled, segments, ..
        } = placed;
        // Each constant stands behind an alignment of its own, and nothing else does.
        let own_events = segments.len() - pooled.constants.len();
        let constant = before.checked_sub(own_events + 1);
        Self {
            last: last_of(segments, before),
            end: segments
                .get(before)
                .map_or(pooled.len, |next| next.old_start),
            what: constant.map_or(What::Run, What::Constant),
        }
    }

    fn part(&self, what: What, old: Range<CodeOffset>) -> Part {
        let moved = |offset| self.last.new_end + (offset - self.last.old_end);
        Part {
            what,
            new: moved(old.start)..moved(old.end),
            old,
        }
    }

    fn run(&self, old: Range<CodeOffset>) -> Option<Part> {
        (!old.is_empty()).then(|| self.part(self.what, old))
    }
}
