//! asmkit's relax.rs with its layouts counted, and told of ceilings.
//!
//! The file itself is the module `asmkit`; what it takes from `super` is
//! named here.

use std::cell::{Cell, RefCell};

use sheet_text::Padding;

#[allow(unused_imports)]
use super::{buffer, operand};

// Placed here by reference/build.
#[rustfmt::skip]
mod asmkit;

pub(crate) use asmkit::{LabelRef, LayoutEvent, RelaxableJump};

thread_local! {
    static LAYOUTS: Cell<u32> = const { Cell::new(0) };
}

/// The layouts made on this thread since the last call.
pub(crate) fn take_layouts() -> u32 {
    LAYOUTS.take()
}

/// The most bytes that an alignment to a multiple may spend.
pub(crate) struct Ceiling {
    pub multiple: u32,
    pub most: u32,
}

thread_local! {
    static CEILINGS: RefCell<Vec<Ceiling>> = const { RefCell::new(Vec::new()) };
}

/// As long as this lives, the layouts made on this thread keep to ceilings.
pub(crate) struct Told(());

impl Told {
    /// Tells of the ceilings of all alignments recorded, in order.
    pub fn of(ceilings: Vec<Ceiling>) -> Self {
        CEILINGS.set(ceilings);
        Self(())
    }
}

impl Drop for Told {
    fn drop(&mut self) {
        CEILINGS.take();
    }
}

/// asmkit's layout, to which an alignment that would pass its ceiling is handed
/// as one to a multiple of 1. Where an alignment stands hangs on those before it
/// alone, so that each turn settles one more. The pool's come after all others
/// and have no ceiling.
fn layout_within(events: &[LayoutEvent], long: &[bool], ceilings: &[Ceiling]) -> asmkit::OffsetMap {
    let mut events = events.to_vec();
    loop {
        let map = asmkit::OffsetMap::layout(&events, long);
        let alignments = events.iter_mut().zip(map.segments());
        let alignments = alignments.filter_map(|(event, segment)| match event {
            LayoutEvent::Align { align, .. } => Some((align, segment.new_start)),
            LayoutEvent::Jump(_) => None,
        });
        let mut is_settled = true;
        for ((align, new_start), ceiling) in alignments.zip(ceilings) {
            let Ceiling { multiple, most } = *ceiling;
            let padding = Padding::at(new_start.into(), multiple, most);
            let handed = if padding.is_skipped() { 1 } else { multiple };
            is_settled &= *align == handed;
            *align = handed;
        }
        if is_settled {
            return map;
        }
    }
}

/// asmkit's `OffsetMap`, each `layout` of which is counted and, where it is told
/// of ceilings, keeps to them.
#[derive(Clone, Default, Debug)]
pub(crate) struct OffsetMap(asmkit::OffsetMap);

impl OffsetMap {
    pub fn layout(events: &[LayoutEvent], long: &[bool]) -> Self {
        LAYOUTS.set(LAYOUTS.get() + 1);
        Self(CEILINGS.with_borrow(|ceilings| match ceilings[..] {
            [] => asmkit::OffsetMap::layout(events, long),
            _ => layout_within(events, long, ceilings),
        }))
    }

    #[inline]
    pub fn segments(&self) -> &[asmkit::Segment] {
        self.0.segments()
    }

    #[inline]
    pub fn map(&self, offset: buffer::CodeOffset) -> buffer::CodeOffset {
        self.0.map(offset)
    }
}
