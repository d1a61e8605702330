//! The calls that wait, as a sheet in the making.

use crate::Call;
use crate::call::{MOST_BYTES, words_argument, words_of};

/// The bytes of a sheet's count, and of an argument.
const COUNT_BYTES: usize = 4;
const ARGUMENT_BYTES: usize = 16;

/// The most calls that one call becomes: bytes beyond 12 are several.
const MOST_PARTS: usize = 8;

/// So many calls may wait at first, and so many at the most. The more there are, the more share what a sheet costs. The first room is enough for a small
/// rule, and takes 1 KiB, up to which allocating is cheapest.
const FIRST_CALLS: usize = 60;
const MOST_CALLS: usize = 60 * 64;

/// A sheet in the making. Its kinds are to stand in front of its arguments, and their number is not known yet: so there is room for as many as may wait, and
/// the count and the kinds move up to the arguments in the end.
#[derive(Default)]
pub(super) struct QueuedCalls {
    bytes: Vec<u8>,
    count: usize,
    most: usize,
}

impl QueuedCalls {
    /// Whether a sheet can carry the call, as few calls.
    #[inline(always)]
    pub fn can_hold(call: &Call<&[u8]>) -> bool {
        match call {
            Call::Bytes(bytes) => bytes.len() <= MOST_PARTS * MOST_BYTES,
            Call::Constant(bytes) => bytes.len() <= MOST_BYTES,
            Call::Relocation { addend, .. } => i32::try_from(*addend).is_ok(),
            _ => true,
        }
    }

    pub fn is_empty(&self) -> bool {
        self.count == 0
    }

    /// Whether a call might find no room.
    #[inline(always)]
    pub fn is_full(&self) -> bool {
        self.most < self.count + MOST_PARTS
    }

    /// Makes room for more calls than before, if none waits.
    pub fn grow(&mut self) {
        self.most = (4 * self.most).clamp(FIRST_CALLS, MOST_CALLS);
        let kinds_end = COUNT_BYTES + self.most;
        self.bytes.clear();
        self.bytes.reserve(kinds_end + self.most * ARGUMENT_BYTES);
        self.bytes.resize(kinds_end, 0);
    }

    #[inline(always)]
    pub fn push(&mut self, call: &Call<&[u8]>) {
        let kind = call.kind();
        match call {
            Call::Bytes(bytes) if bytes.len() <= MOST_BYTES => self.push_bytes(kind, bytes),
            Call::Bytes(bytes) => {
                for part in bytes.chunks(MOST_BYTES) {
                    self.push_bytes(kind, part);
                }
            }
            Call::Constant(bytes) => self.push_bytes(kind, bytes),
            other => {
                let words = words_of(other).expect("a sheet can carry the call");
                self.push_argument(kind, words_argument(words));
            }
        }
    }

    #[inline(always)]
    fn push_bytes(&mut self, kind: u8, bytes: &[u8]) {
        let at = self.bytes.len() + 4;
        self.push_argument(kind, words_argument([bytes.len() as u32, 0, 0, 0]));
        // In their place: an argument that is moved as it was just written costs more than to write it.
        self.bytes[at..at + bytes.len()].copy_from_slice(bytes);
    }

    #[inline(always)]
    fn push_argument(&mut self, kind: u8, argument: [u8; ARGUMENT_BYTES]) {
        self.bytes[COUNT_BYTES + self.count] = kind;
        self.bytes.extend_from_slice(&argument);
        self.count += 1;
    }

    /// The sheet of all calls.
    pub fn sheet(&mut self) -> &[u8] {
        let start = self.most - self.count;
        let kinds = COUNT_BYTES..COUNT_BYTES + self.count;
        self.bytes.copy_within(kinds, start + COUNT_BYTES);
        let count = (self.count as u32).to_le_bytes();
        self.bytes[start..start + COUNT_BYTES].copy_from_slice(&count);
        &self.bytes[start..]
    }

    pub fn clear(&mut self) {
        self.count = 0;
        self.bytes.truncate(COUNT_BYTES + self.most);
    }
}
