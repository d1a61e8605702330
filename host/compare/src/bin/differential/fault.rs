//! Faults put into what ours answers, so that the comparison is seen to fail.

use compare::{Lent, Ours, Part, Reply};

/// What is put in after a call.
#[derive(Clone, Copy)]
pub enum Put<'a> {
    Fault(Fault),
    /// A wrong answer of ours, which the model shows.
    IntoOurs(&'a [Change]),
    /// The same wrong answer of ours and the model, which the Rust alone can show.
    IntoBoth(&'a [Change]),
}

/// What a call answers, or leaves in a place: the right number, and a wrong one.
pub struct Change {
    pub place: Place,
    pub right: u32,
    pub wrong: u32,
}

#[derive(Clone, Copy)]
pub enum Place {
    Refusal,
    /// The index of a sheet, or the number of a constant.
    Value,
    /// Bytes of a part: where they start, and how many they are, up to four.
    Bytes(Part, usize, usize),
}

impl Change {
    /// What stands in the place.
    pub fn found(&self, reply: Reply, lent: &Lent) -> Option<u32> {
        match self.place {
            Place::Refusal => Some(reply.refusal),
            Place::Value => Some(reply.value),
            Place::Bytes(part, at, count) => {
                let mut word = [0; 4];
                word[..count].copy_from_slice(lent[part].get(at..at + count)?);
                Some(u32::from_le_bytes(word))
            }
        }
    }

    pub fn put<'a>(&self, reply: &mut Reply, content: impl FnOnce(Part) -> &'a mut [u8]) {
        match self.place {
            Place::Refusal => reply.refusal = self.wrong,
            Place::Value => reply.value = self.wrong,
            Place::Bytes(part, at, count) => {
                content(part)[at..at + count].copy_from_slice(&self.wrong.to_le_bytes()[..count]);
            }
        }
    }
}

/// Something of ours that is changed.
#[derive(Clone, Copy, Debug)]
pub enum Fault {
    Refusal,
    Value,
    /// The byte in the middle of a part, if it is lent any.
    Content(Part),
    /// The byte before a part, or the one after it.
    Guard(Part, bool),
    /// The first byte of what is lent to be read alone, or the one after it.
    Read,
}

impl Fault {
    /// Every fault there is.
    pub fn all() -> Vec<Self> {
        let mut all = vec![Self::Refusal, Self::Value, Self::Read];
        for part in Part::ALL {
            all.push(Self::Content(part));
            all.push(Self::Guard(part, false));
            all.push(Self::Guard(part, true));
        }
        all
    }

    pub fn put(self, reply: &mut Reply, ours: &mut Ours) {
        match self {
            Self::Refusal => reply.refusal ^= 1,
            Self::Value => reply.value ^= 1,
            Self::Content(part) => {
                let content = ours.part_mut(part).content_mut();
                let middle = content.len() / 2;
                if let Some(byte) = content.get_mut(middle) {
                    *byte ^= 0x10;
                }
            }
            Self::Read => match ours.read_mut().content_mut() {
                [first, ..] => *first ^= 1,
                [] => *ours.read_mut().guard_mut(true) ^= 1,
            },
            Self::Guard(part, after) => *ours.part_mut(part).guard_mut(after) ^= 0x80,
        }
    }
}
