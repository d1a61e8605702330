//! A recording in the making.

use std::borrow::Cow;

use crate::random::Random;
use crate::sheet::SHEET_BYTES;
use crate::{Call, LABEL_TARGET, X64};

/// The field of code 16, bits 10 to 21.
pub const ADD_FIELD: u32 = 0xFFF << 10;

/// A word for a use of a code to go into. For code 16 the field is cleared:
/// with most others the recording meets the departure `add-field-not-clear`.
pub fn fit_for(code: u32, word: u32) -> u32 {
    if code == 16 { word & !ADD_FIELD } else { word }
}

/// Calls, and the offset that they have reached.
#[derive(Clone)]
pub struct Draft {
    pub arch: u32,
    pub symbols: u32,
    pub calls: Vec<Call<'static>>,
    pub offset: u32,
    labels: u32,
    constants: u32,
}

impl Draft {
    pub fn new(arch: u32) -> Self {
        Self::with_symbols(arch, 0)
    }

    pub fn with_symbols(arch: u32, symbols: u32) -> Self {
        Self {
            arch,
            symbols,
            calls: Vec::new(),
            offset: 0,
            labels: 0,
            constants: 0,
        }
    }

    pub fn x64() -> Self {
        Self::new(X64)
    }

    pub fn push(&mut self, call: Call<'static>) {
        self.calls.push(call);
    }

    /// One call for each 12 bytes; one call for none.
    pub fn bytes(&mut self, bytes: &[u8]) -> &mut Self {
        let (first, rest) = bytes.split_at(bytes.len().min(SHEET_BYTES));
        self.push(Call::Bytes(Cow::Owned(first.to_vec())));
        for part in rest.chunks(SHEET_BYTES) {
            self.push(Call::Bytes(Cow::Owned(part.to_vec())));
        }
        self.offset += bytes.len() as u32;
        self
    }

    pub fn zeros(&mut self, count: u32) -> &mut Self {
        if count > 0 {
            self.bytes(&vec![0; count as usize]);
        }
        self
    }

    pub fn word(&mut self, word: u32) -> &mut Self {
        self.bytes(&word.to_le_bytes())
    }

    pub fn label(&mut self) -> u32 {
        self.push(Call::NewLabel);
        self.labels += 1;
        self.labels - 1
    }

    pub fn bind(&mut self, label: u32) -> &mut Self {
        self.push(Call::Bind(label));
        self
    }

    /// A new label, bound here.
    pub fn here(&mut self) -> u32 {
        let label = self.label();
        self.bind(label);
        label
    }

    pub fn align(&mut self, multiple: u32) -> &mut Self {
        self.push(Call::align(multiple));
        self.offset = self.offset.next_multiple_of(multiple);
        self
    }

    /// `length` bytes and the jump that they are.
    pub fn jump(&mut self, label: u32, length: u32, condition: u32) -> &mut Self {
        let start = self.offset;
        self.bytes(&vec![0xCC; length as usize]);
        self.push(Call::Jump {
            start,
            length,
            label,
            condition,
        });
        self
    }

    pub fn use_at(&mut self, offset: u32, label: u32, code: u32) -> &mut Self {
        self.push(Call::Use {
            offset,
            label,
            code,
        });
        self
    }

    pub fn ref_at(&mut self, offset: u32, label: u32, code: u32, addend: i32) -> &mut Self {
        self.push(Call::Ref {
            offset,
            label,
            code,
            addend,
        });
        self
    }

    pub fn constant(&mut self, bytes: &[u8]) -> u32 {
        self.push(Call::Constant(Cow::Owned(bytes.to_vec())));
        self.constants += 1;
        self.constants - 1
    }

    /// Asks for a constant's label; only the first asking makes one, so a
    /// second goes through [`Self::push`].
    pub fn constant_label(&mut self, constant: u32) -> u32 {
        self.push(Call::ConstantLabel(constant));
        self.labels += 1;
        self.labels - 1
    }

    pub fn to_symbol(&mut self, offset: u32, kind: u32, symbol: u32, addend: i32) -> &mut Self {
        self.push(Call::Relocation {
            offset,
            kind,
            target: symbol,
            addend: addend.into(),
        });
        self
    }

    pub fn to_label(&mut self, offset: u32, kind: u32, label: u32, addend: i32) -> &mut Self {
        self.to_symbol(offset, kind, label + LABEL_TARGET, addend)
    }

    /// Appends until the offset is `end`, by few calls: single bytes followed
    /// by the largest alignment that fits, and plain bytes last.
    pub fn advance(&mut self, end: u32) -> &mut Self {
        while self.offset < end {
            let fits = |multiple: &u32| (self.offset + 1).next_multiple_of(*multiple) <= end;
            let multiples = [4096, 2048, 1024, 512, 256, 128, 64, 32];
            let gains = |multiple: &u32| {
                (self.offset + 1).next_multiple_of(*multiple) - self.offset > 2 * 12
            };
            match multiples.iter().copied().find(|m| fits(m) && gains(m)) {
                Some(multiple) => {
                    self.bytes(&[0x90]).align(multiple);
                }
                None => {
                    self.zeros((end - self.offset).min(12));
                }
            }
        }
        self
    }

    /// Bytes of no pattern.
    pub fn noise(&mut self, random: &mut Random, count: u32) -> &mut Self {
        let bytes = random.bytes(count);
        self.bytes(&bytes)
    }

    pub fn label_count(&self) -> u32 {
        self.labels
    }
}
