//! The recording of a buffer, and the calls that wait to be made on it.
//!
//! Each function of the verified library checks all that it is lent, and a jump or a bind may look at every entry of a table: what costs little once for a
//! sheet of many calls is dear for each of them. So a call whose acceptance is certain is queued, and handed over later with others as one sheet. A call that
//! is not certain is made alone after them, so that every refusal is the library's, and what it finds is as if all calls had been made one by one.

mod calls;
mod mirror;

use std::sync::{Mutex, OnceLock};

use crate::recording::{Label, Names};
use crate::tables::{TableName, Tables, bound};
use crate::{Arch, Call, verified};
use calls::QueuedCalls;
use mirror::Mirror;

/// A recording with its queued calls. What is shown of it is shared, but handing over is not: so it stands in one of two places.
pub(crate) struct Queue {
    /// The recording before its queued calls are made. Locked only by who is about to show it; a caller that may change it has no need to.
    waiting: Mutex<Option<Waiting>>,
    /// The recording with no call waiting, once it was shown and until the next call.
    shown: OnceLock<Box<Waiting>>,
    mirror: Mirror,
}

struct Waiting {
    tables: Tables,
    calls: QueuedCalls,
}

impl Queue {
    /// A recording that is started before the first calls are handed over: counts that stand in their place are not moved as they were just written,
    /// which would take longer than to write them.
    #[inline(always)]
    pub fn new(arch: Arch, symbols: u32) -> Self {
        Self {
            mirror: Mirror::new(arch, symbols),
            waiting: Mutex::new(Some(Waiting {
                tables: Tables::new(arch),
                calls: QueuedCalls::default(),
            })),
            shown: OnceLock::new(),
        }
    }

    /// The recording, after all calls that are queued.
    pub fn tables_mut(&mut self) -> &mut Tables {
        let (waiting, mirror) = self.parts();
        waiting.hand_over(mirror);
        &mut waiting.tables
    }

    pub fn arch(&self) -> Arch {
        self.mirror.arch
    }

    pub fn code_len(&self) -> u32 {
        self.mirror.offset()
    }

    pub fn label_count(&self) -> u32 {
        self.mirror.len(TableName::Labels) as u32
    }

    pub fn constant_count(&self) -> u32 {
        self.mirror.len(TableName::Constants) as u32
    }

    pub fn has_code_room(&self, more: usize) -> bool {
        self.mirror.has_code_room(more)
    }

    pub fn has_event_room(&self) -> bool {
        self.mirror.has_room(TableName::Events)
    }

    /// The offset of a label that is known and bound.
    pub fn label_offset(&self, label: Label) -> Option<u32> {
        // Finish binds labels and moves them.
        if self.mirror.is_recording && self.mirror.is_unbound(label.id()) {
            return None;
        }
        self.tables().label_offset(label).and_then(bound)
    }

    /// The label of a constant that is known and was asked for.
    pub fn constant_label(&self, constant: u32) -> Option<Label> {
        self.mirror.constant_label(constant).map(Label::from_id)
    }

    /// The recording with all calls made.
    pub fn tables(&self) -> &Tables {
        let shown = self.shown.get_or_init(|| {
            let mut waiting = self.waiting.lock().expect(BROKEN);
            let mut waiting = waiting.take().expect(BROKEN);
            waiting.hand_over(&self.mirror);
            Box::new(waiting)
        });
        &shown.tables
    }

    /// The names, whatever is queued.
    pub fn names_mut(&mut self) -> &mut Names {
        &mut self.parts().0.tables.names
    }

    /// Queues a call, if it is certain to be accepted.
    #[inline(always)]
    pub fn take(&mut self, call: &Call<&[u8]>) -> bool {
        if !self.mirror.is_certain(call) || !QueuedCalls::can_hold(call) {
            return false;
        }
        let (waiting, mirror) = self.parts();
        if waiting.calls.is_full() {
            waiting.make_room(mirror);
        }
        mirror.make(call);
        waiting.calls.push(call);
        true
    }

    /// Makes a call by a function of the library, after all that are queued. A finish is such a call, too.
    pub fn make_alone<T>(&mut self, call: impl FnOnce(&mut Tables) -> T) -> T {
        let answer = call(self.tables_mut());
        let (waiting, mirror) = self.parts();
        mirror.follow(&waiting.tables);
        answer
    }

    /// The same of the calls of a sheet.
    pub fn make_many<T>(&mut self, calls: impl FnOnce(&mut Tables) -> T) -> T {
        let answer = calls(self.tables_mut());
        let (waiting, mirror) = self.parts();
        mirror.pass_over(&waiting.tables);
        answer
    }

    /// The recording, taken back if it was shown, and its mirror.
    #[inline(always)]
    fn parts(&mut self) -> (&mut Waiting, &mut Mirror) {
        let waiting = self.waiting.get_mut().expect(BROKEN);
        if let Some(shown) = self.shown.take() {
            *waiting = Some(*shown);
        }
        (waiting.as_mut().expect(BROKEN), &mut self.mirror)
    }
}

/// A copy has no call waiting: they are handed over first, so that they are made once for both.
impl Clone for Queue {
    fn clone(&self) -> Self {
        Self {
            waiting: Mutex::new(Some(Waiting {
                tables: self.tables().clone(),
                calls: QueuedCalls::default(),
            })),
            shown: OnceLock::new(),
            mirror: self.mirror.clone(),
        }
    }
}

/// What is said if the recording is used once more after handing over has panicked.
const BROKEN: &str = "queued calls were refused before";

impl Waiting {
    /// Hands over what is queued. The mirror says what the recording comes to.
    fn hand_over(&mut self, mirror: &Mirror) {
        if !self.tables.counts.is_started() {
            self.start(mirror);
        }
        if self.calls.is_empty() {
            return;
        }
        mirror.make_room(&mut self.tables);
        let (number, index) = verified::run_sheet(&mut self.tables, self.calls.sheet());
        assert_eq!(
            number, 0,
            "a call that was certain to be accepted, number {index} of those queued, is refused"
        );
        assert!(
            mirror.is_as_long_as(&self.tables),
            "the calls that were queued come to another recording"
        );
        self.calls.clear();
    }

    fn start(&mut self, mirror: &Mirror) {
        let counts = &mut self.tables.counts;
        let number = verified::start(counts, mirror.arch.number(), mirror.symbols);
        assert_eq!(number, 0, "start takes every Arch");
    }

    #[cold]
    fn make_room(&mut self, mirror: &Mirror) {
        self.hand_over(mirror);
        self.calls.grow();
    }
}
