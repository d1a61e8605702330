//! Layouts of a pooled recording, to be shown and explained: the host's own reckoning, beside the verified one. After asmkit's core/relax.rs (see
//! NOTICE).

use crate::event::LayoutEvent;
use crate::ffi::Segment;
use crate::{CodeOffset, UNBOUND};

/// Places events in order, each jump long that `long` marks, and every alignment with what it comes to where it stands.
pub(crate) fn layout(events: &[LayoutEvent], long: &[bool]) -> Vec<Segment> {
    let mut last = Segment::default();
    let mut segments = Vec::with_capacity(events.len());
    for (event, &long) in events.iter().zip(long) {
        let new_start = last.new_end + (event.start() - last.old_end);
        last = Segment {
            old_start: event.start(),
            old_end: event.end(),
            new_start,
            new_end: new_start + event.len_at(new_start, long),
        };
        segments.push(last);
    }
    segments
}

/// The segment that decides where an offset goes: the last that starts at it or before.
pub(crate) fn deciding(segments: &[Segment], offset: CodeOffset) -> Option<usize> {
    segments
        .partition_point(|segment| segment.old_start <= offset)
        .checked_sub(1)
}

/// How many events stand before an offset. One that starts at it stands behind, unless it was recorded with no bytes.
pub(crate) fn events_before(segments: &[Segment], offset: CodeOffset) -> usize {
    match deciding(segments, offset) {
        None => 0,
        Some(event) if offset < segments[event].old_end => event,
        Some(event) => event + 1,
    }
}

/// Moves an offset by the segment that decides.
pub(crate) fn moved(segment: &Segment, offset: CodeOffset) -> CodeOffset {
    match offset.checked_sub(segment.old_end) {
        Some(past) => segment.new_end + past,
        None => segment.new_start + (offset - segment.old_start),
    }
}

/// Moves a recorded offset into a layout; an unbound one stays.
pub(crate) fn map(segments: &[Segment], offset: CodeOffset) -> CodeOffset {
    if offset == UNBOUND {
        return UNBOUND;
    }
    deciding(segments, offset).map_or(offset, |i| moved(&segments[i], offset))
}

#[cfg(test)]
mod tests {
    use super::*;
    use crate::{Alignment, DEFAULT_MOST, Label, RelaxableJump};

    fn jump(start: u32, len: u8) -> LayoutEvent {
        LayoutEvent::Jump(RelaxableJump {
            start,
            len,
            label: Label::from_id(0),
            cc: None,
        })
    }

    fn align(start: u32, len: u32, align: u32) -> LayoutEvent {
        align_within(start, len, align, DEFAULT_MOST)
    }

    fn align_within(start: u32, len: u32, align: u32, most: u32) -> LayoutEvent {
        LayoutEvent::Align(Alignment {
            start,
            len,
            align,
            most,
        })
    }

    #[test]
    fn padding_shrinks_and_grows_with_the_code_before_it() {
        let events = [jump(0, 5), align(5, 11, 16), jump(16, 2), align(18, 0, 2)];
        let segments = layout(&events, &[false, false, true, false]);
        let ends: Vec<u32> = segments.iter().map(|segment| segment.new_end).collect();
        assert_eq!(ends, [2, 16, 21, 22]);
    }

    #[test]
    fn padding_is_spent_or_skipped_by_the_new_offset() {
        let ends = |most, long| {
            let events = [jump(0, 5), align_within(8, 0, 8, most)];
            let segments = layout(&events, &[long, false]);
            [segments[1].new_start, segments[1].new_end]
        };
        assert_eq!(ends(3, false), [5, 8], "nothing was needed when recorded");
        assert_eq!(ends(2, false), [5, 5]);
        assert_eq!(ends(0, true), [8, 8]);
    }

    #[test]
    fn an_events_end_is_past_it_and_its_inside_counts_from_its_start() {
        let segments = layout(&[jump(0, 5), align(8, 0, 8)], &[false, false]);
        assert_eq!(map(&segments, 0), 0);
        assert_eq!(map(&segments, 4), 4);
        assert_eq!(map(&segments, 5), 2);
        assert_eq!(map(&segments, 7), 4);
        assert_eq!(map(&segments, 8), 8, "after the padding that is gained");
        assert_eq!(map(&segments, UNBOUND), UNBOUND);
        assert_eq!(map(&[], 9), 9);
    }
}
