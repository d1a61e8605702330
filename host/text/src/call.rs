//! Calls on a recording.

use std::sync::Arc;

/// A call on a recording, its numbers as they stand in a sheet. `B` is how it holds bytes.
#[derive(Clone, Debug, PartialEq, Eq)]
pub enum Call<B = Arc<[u8]>> {
    /// Appends bytes, any number of them.
    Bytes(B),
    /// Makes a label.
    NewLabel,
    /// Binds a label to the current offset.
    Bind(u32),
    /// Pads to a multiple, or not at all where that takes more bytes than it may spend.
    Align {
        /// The multiple.
        multiple: u32,
        /// The most bytes that it may spend; 0 stands for [`DEFAULT_MOST`](crate::DEFAULT_MOST).
        most: u32,
    },
    /// Records a use of a label.
    Use {
        /// Where the field starts.
        offset: u32,
        /// What it refers to.
        label: u32,
        /// The code of its [`LabelUse`](crate::LabelUse).
        code: u32,
    },
    /// Records a ref to a label.
    Ref {
        /// Where the field starts.
        offset: u32,
        /// What it refers to.
        label: u32,
        /// The code of its [`LabelUse`](crate::LabelUse).
        code: u32,
        /// What is added to the label's offset.
        addend: i32,
    },
    /// Records a jump that finish may resize.
    Jump {
        /// Offset of the opcode.
        start: u32,
        /// Bytes recorded for it.
        length: u32,
        /// Where it goes.
        label: u32,
        /// The number of its condition, 16 for none.
        condition: u32,
    },
    /// Adds a constant, of at most 64 bytes.
    Constant(B),
    /// Asks for the label of a constant.
    ConstantLabel(u32),
    /// Records a relocation.
    Relocation {
        /// Where it applies.
        offset: u32,
        /// The number of its [`Reloc`](crate::Reloc).
        kind: u32,
        /// A symbol, or a label plus 2^31.
        target: u32,
        /// What is added to the target.
        addend: i64,
    },
}

/// What the calls are named in the text form, by kind from 1 on.
pub const CALL_NAMES: [&str; 10] = [
    "bytes",
    "label",
    "bind",
    "align",
    "use",
    "ref",
    "jump",
    "constant",
    "constant-label",
    "relocation",
];

impl<B> Call<B> {
    /// Pads to a multiple, with the default in the place of a ceiling.
    pub const fn align(multiple: u32) -> Self {
        Self::Align { multiple, most: 0 }
    }

    /// The kind of the call in a sheet.
    pub const fn kind(&self) -> u8 {
        match self {
            Self::Bytes(_) => 1,
            Self::NewLabel => 2,
            Self::Bind(_) => 3,
            Self::Align { .. } => 4,
            Self::Use { .. } => 5,
            Self::Ref { .. } => 6,
            Self::Jump { .. } => 7,
            Self::Constant(_) => 8,
            Self::ConstantLabel(_) => 9,
            Self::Relocation { .. } => 10,
        }
    }

    /// What the call is named in the text form.
    pub const fn name(&self) -> &'static str {
        CALL_NAMES[self.kind() as usize - 1]
    }

    /// The same call with its bytes held otherwise.
    pub fn map_bytes<C>(self, map: impl FnOnce(B) -> C) -> Call<C> {
        match self {
            Self::Bytes(bytes) => Call::Bytes(map(bytes)),
            Self::NewLabel => Call::NewLabel,
            Self::Bind(label) => Call::Bind(label),
            Self::Align { multiple, most } => Call::Align { multiple, most },
            Self::Use {
                offset,
                label,
                code,
            } => Call::Use {
                offset,
                label,
                code,
            },
            Self::Ref {
                offset,
                label,
                code,
                addend,
            } => Call::Ref {
                offset,
                label,
                code,
                addend,
            },
            Self::Jump {
                start,
                length,
                label,
                condition,
            } => Call::Jump {
                start,
                length,
                label,
                condition,
            },
            Self::Constant(bytes) => Call::Constant(map(bytes)),
            Self::ConstantLabel(constant) => Call::ConstantLabel(constant),
            Self::Relocation {
                offset,
                kind,
                target,
                addend,
            } => Call::Relocation {
                offset,
                kind,
                target,
                addend,
            },
        }
    }
}

#[cfg(test)]
mod tests {
    use crate::{Call, TextCall, read_text};

    #[test]
    fn a_call_stays_the_same_however_it_holds_its_bytes() {
        let text =
            "n; l 0; b 0102; a 4; a 8 3; u 1 0 1; r 1 0 0 -4; j 0 5 0 e; c 07; k 0; o 4 1 l0 -9";
        let read = read_text(text, None, |call, calls| {
            calls.push(call);
            Ok(())
        });
        for call in read.unwrap().calls {
            let TextCall::Call(call) = call else {
                panic!("{call:?} is no call");
            };
            let held: Call<Vec<u8>> = call.clone().map_bytes(|bytes| bytes.to_vec());
            assert_eq!(held.name(), call.name());
            assert_eq!(held.map_bytes(Into::into), call);
        }
    }
}
