//! Binary sheets of calls: written, and read to be shown. Whether a sheet's form is right is for the verified library to say.

use std::fmt;
use std::sync::Arc;

use sheet_text::CALL_NAMES;

use crate::call::{MOST_BYTES, argument, bytes_argument, known_code, known_kind};
use crate::tables::{Room, TableName};
use crate::{Arch, Call, RelocTarget};
use sheet_text::{counted, most_of_word};

/// A call that no sheet can carry.
#[derive(Clone, Debug, PartialEq, Eq)]
pub struct Unwritable {
    /// The call's index among the calls that were to be written.
    pub index: usize,
    /// Why no sheet carries it.
    pub sentence: String,
}

impl fmt::Display for Unwritable {
    fn fmt(&self, f: &mut fmt::Formatter<'_>) -> fmt::Result {
        f.write_str(&self.sentence)
    }
}

impl std::error::Error for Unwritable {}

/// The sheet of some calls. Bytes beyond 12 become several calls.
///
/// # Errors
///
/// A constant of more than 12 bytes, or a relocation whose addend is no 32-bit number, fits no sheet; such a call is for [`crate::CodeBuffer::call`].
pub fn write_sheet(calls: &[Call]) -> Result<Vec<u8>, Unwritable> {
    let mut kinds = Vec::new();
    let mut arguments = Vec::new();
    let mut push = |kind, argument: [u8; 16]| {
        kinds.push(kind);
        arguments.extend_from_slice(&argument);
    };
    for (index, call) in calls.iter().enumerate() {
        if let Call::Bytes(bytes) = call
            && bytes.len() > MOST_BYTES
        {
            for part in bytes.chunks(MOST_BYTES) {
                push(call.kind(), bytes_argument(part).expect("at most 12 bytes"));
            }
            continue;
        }
        let argument = argument(call).ok_or_else(|| unwritable(index, call))?;
        push(call.kind(), argument);
    }
    let count = u32::try_from(kinds.len()).expect("calls in memory are below 2^32");
    Ok([&count.to_le_bytes()[..], &kinds, &arguments].concat())
}

fn unwritable(index: usize, call: &Call) -> Unwritable {
    let sentence = match call {
        Call::Constant(bytes) => format!(
            "a constant of {} bytes fits no binary sheet, whose calls carry at most {MOST_BYTES}",
            bytes.len()
        ),
        Call::Relocation { addend, .. } => format!(
            "a relocation with addend {addend} fits no binary sheet, whose addends have 32 bits"
        ),
        _ => unreachable!("every other call fits a sheet"),
    };
    Unwritable { index, sentence }
}

/// A sheet whose length is right; its calls may still break their form.
#[derive(Clone, Copy, Debug)]
pub struct Sheet<'a> {
    kinds: &'a [u8],
    arguments: &'a [[u8; 16]],
}

impl<'a> Sheet<'a> {
    /// Reads a sheet.
    ///
    /// # Errors
    ///
    /// Says what is wrong with its length.
    pub fn read(bytes: &'a [u8]) -> Result<Self, String> {
        let Some((count, rest)) = bytes.split_first_chunk::<4>() else {
            let len = counted(bytes.len(), "byte");
            return Err(format!("{len} can't hold the number of calls, a word"));
        };
        let count = u32::from_le_bytes(*count);
        // In 64 bits: the product passes 32.
        let expected = 4 + 17 * u64::from(count);
        if bytes.len() as u64 != expected {
            let calls = counted(count as usize, "call");
            let len = bytes.len();
            return Err(format!(
                "a sheet of {calls} has {expected} bytes, not {len}"
            ));
        }
        let (kinds, rest) = rest.split_at(count as usize);
        let (arguments, _) = rest.as_chunks::<16>();
        Ok(Self { kinds, arguments })
    }

    /// The number of calls.
    #[must_use]
    pub fn len(&self) -> usize {
        self.kinds.len()
    }

    /// Whether the sheet has no calls.
    #[must_use]
    pub fn is_empty(&self) -> bool {
        self.kinds.is_empty()
    }

    /// Whether every kind is one of document 01.
    #[must_use]
    pub fn has_known_kinds(&self) -> bool {
        self.kinds.iter().all(|kind| (1..=10).contains(kind))
    }

    /// What the call at an index is named in the text form, if there is one and its kind is known.
    #[must_use]
    pub fn name(&self, index: usize) -> Option<&'static str> {
        let kind = usize::from(*self.kinds.get(index)?);
        CALL_NAMES.get(kind.checked_sub(1)?).copied()
    }

    fn words(&self, index: usize) -> [u32; 4] {
        let (words, _) = self.arguments[index].as_chunks::<4>();
        std::array::from_fn(|i| u32::from_le_bytes(words[i]))
    }

    /// The call at an index.
    ///
    /// # Errors
    ///
    /// Says how it breaks its form, or that there is none.
    pub fn call(&self, index: usize) -> Result<Call, String> {
        if index >= self.len() {
            let calls = counted(self.len(), "call");
            return Err(format!("there is no call {index} in a sheet of {calls}"));
        }
        let words = self.words(index);
        let [a, b, c, d] = words;
        let (call, used) = match self.kinds[index] {
            1 => (Call::Bytes(self.bytes(index)?), 4),
            2 => (Call::NewLabel, 0),
            3 => (Call::Bind(a), 1),
            4 => (
                Call::Align {
                    multiple: a,
                    most: b,
                },
                2,
            ),
            5 => {
                let (offset, label, code) = (a, b, known_code(c)?);
                (
                    Call::Use {
                        offset,
                        label,
                        code,
                    },
                    3,
                )
            }
            6 => {
                let (offset, label, code, addend) = (a, b, known_code(c)?, d.cast_signed());
                (
                    Call::Ref {
                        offset,
                        label,
                        code,
                        addend,
                    },
                    4,
                )
            }
            7 => (
                Call::Jump {
                    start: a,
                    length: b,
                    label: c,
                    condition: d,
                },
                4,
            ),
            8 => (Call::Constant(self.bytes(index)?), 4),
            9 => (Call::ConstantLabel(a), 1),
            10 => (
                Call::Relocation {
                    offset: a,
                    kind: known_kind(b)?,
                    target: c,
                    addend: d.cast_signed().into(),
                },
                4,
            ),
            kind => return Err(format!("kind {kind} is none of 1 to 10")),
        };
        match words[used..].iter().find(|word| **word != 0) {
            Some(word) => Err(format!("an unused word is {word} and not 0")),
            None => Ok(call),
        }
    }

    fn bytes(&self, index: usize) -> Result<Arc<[u8]>, String> {
        let count = self.words(index)[0];
        let bytes = &self.arguments[index][4..];
        if count as usize > MOST_BYTES {
            return Err(format!("its byte count, {count}, is above {MOST_BYTES}"));
        }
        let (used, unused) = bytes.split_at(count as usize);
        match unused.iter().find(|byte| **byte != 0) {
            Some(byte) => Err(format!("a byte past its {count} is {byte:02X} and not 00")),
            None => Ok(used.into()),
        }
    }

    /// The calls, up to the first that breaks its form.
    pub fn calls(&self) -> impl Iterator<Item = Call> {
        (0..self.len()).map_while(|index| self.call(index).ok())
    }

    /// The most that the calls may add to the tables of a recording.
    pub(crate) fn room(&self, arch: Arch) -> Room {
        let mut room = Room::default();
        for (index, kind) in self.kinds.iter().enumerate() {
            let words = self.words(index);
            extended(arch, *kind, words, |table, more| room.add(table, more));
        }
        room
    }
}

/// Names each table that a call of a kind extends, and the most entries that it may add, given its argument: a byte count comes first, or a multiple
/// and the most that is spent for it. Whatever a broken call asks for is cut to what an accepted one could.
#[inline(always)]
pub(crate) fn extended(
    arch: Arch,
    kind: u8,
    words: [u32; 4],
    mut extend: impl FnMut(TableName, usize),
) {
    let [first, second, ..] = words;
    let event = usize::from(arch.tracks_layout());
    match kind {
        1 => extend(TableName::Code, (first as usize).min(MOST_BYTES)),
        2 => extend(TableName::Labels, 1),
        4 => {
            extend(TableName::Events, event);
            extend(TableName::Code, most_padding(first, most_of_word(second)));
        }
        5 => extend(TableName::Uses, 1),
        6 => extend(TableName::Refs, event),
        7 => extend(TableName::Events, event),
        8 => extend(TableName::Constants, 1),
        9 => {
            extend(TableName::Labels, 1);
            extend(TableName::Asked, 1);
        }
        10 => extend(TableName::Relocs, 1),
        _ => {}
    }
}

/// The most bytes of padding that an accepted alignment may add.
#[inline(always)]
pub(crate) fn most_padding(multiple: u32, most: u32) -> usize {
    (multiple.clamp(1, 4096) - 1).min(most) as usize
}

/// How many symbols some calls name: one more than the greatest, or 0.
pub fn symbols_named<'a>(calls: impl IntoIterator<Item = &'a Call>) -> u32 {
    let named = calls.into_iter().filter_map(|call| match call {
        Call::Relocation { target, .. } => match RelocTarget::from_word(*target) {
            RelocTarget::Sym(symbol) => Some(symbol.id() + 1),
            RelocTarget::Label(_) => None,
        },
        _ => None,
    });
    named.max().unwrap_or(0)
}

#[cfg(test)]
mod tests {
    use super::*;
    use crate::call::{one_call_sheet, words_argument, words_of};

    fn one_of_each() -> Vec<Call> {
        vec![
            Call::NewLabel,
            Call::Bytes([1, 2, 3].into()),
            Call::Bind(0),
            Call::align(16),
            Call::Align {
                multiple: 32,
                most: 9,
            },
            Call::Use {
                offset: 1,
                label: 2,
                code: 3,
            },
            Call::Ref {
                offset: 1,
                label: 2,
                code: 0,
                addend: -4,
            },
            Call::Jump {
                start: 0,
                length: 5,
                label: 0,
                condition: 16,
            },
            Call::Constant([9; 12].into()),
            Call::ConstantLabel(0),
            Call::Relocation {
                offset: 3,
                kind: 27,
                target: 1 << 31,
                addend: -1,
            },
        ]
    }

    #[test]
    fn sheets_read_as_they_were_written() {
        let calls = one_of_each();
        let bytes = write_sheet(&calls).unwrap();
        assert_eq!(bytes.len(), 4 + 17 * calls.len());
        let sheet = Sheet::read(&bytes).unwrap();
        assert_eq!(sheet.calls().collect::<Vec<_>>(), calls);
        assert!(sheet.has_known_kinds());
    }

    #[test]
    fn a_one_call_sheet_is_a_sheet() {
        for call in one_of_each() {
            let bytes = write_sheet(std::slice::from_ref(&call)).unwrap();
            if let Some(words) = words_of(&call) {
                assert_eq!(bytes, one_call_sheet(call.kind(), words));
            }
        }
    }

    #[test]
    fn long_bytes_become_calls_of_twelve() {
        let bytes: Vec<u8> = (0..30).collect();
        let sheet = write_sheet(&[Call::Bytes(bytes.clone().into())]).unwrap();
        let calls: Vec<Call> = Sheet::read(&sheet).unwrap().calls().collect();
        let parts: Vec<Call> = bytes
            .chunks(12)
            .map(|part| Call::Bytes(part.into()))
            .collect();
        assert_eq!(calls, parts);
    }

    #[test]
    fn what_fits_no_sheet_is_named() {
        let constant = Call::Constant([0; 13].into());
        let error = write_sheet(&[Call::NewLabel, constant]).unwrap_err();
        assert_eq!(error.index, 1);
        assert!(error.sentence.contains("13 bytes"));
        let relocation = Call::Relocation {
            offset: 0,
            kind: 0,
            target: 0,
            addend: 1 << 31,
        };
        let error = write_sheet(&[relocation]).unwrap_err();
        assert!(error.sentence.contains("2147483648"));
    }

    #[test]
    fn lengths_do_not_wrap() {
        let mut bytes = 0xF0F0_F0F1_u32.to_le_bytes().to_vec();
        bytes.push(0);
        let sentence = Sheet::read(&bytes).err().unwrap();
        assert!(sentence.contains("4042322161 calls"), "{sentence}");
        assert!(Sheet::read(&[0, 0, 0]).is_err());
    }

    #[test]
    fn calls_past_the_last_are_none() {
        let sheet = write_sheet(&[Call::NewLabel]).unwrap();
        let sheet = Sheet::read(&sheet).unwrap();
        assert_eq!((sheet.name(0), sheet.name(1)), (Some("label"), None));
        let none = "there is no call 1 in a sheet of 1 call";
        assert_eq!(sheet.call(1), Err(none.into()));
        assert!(sheet.call(usize::MAX).is_err());
    }

    #[test]
    fn broken_forms_are_described() {
        let broken = |kind, words, expected: &str| {
            let mut bytes = vec![1, 0, 0, 0, kind];
            bytes.extend_from_slice(&words_argument(words));
            let sentence = Sheet::read(&bytes).unwrap().call(0).unwrap_err();
            assert!(sentence.contains(expected), "{sentence}");
        };
        broken(0, [0; 4], "kind 0");
        broken(11, [0; 4], "kind 11");
        broken(1, [13, 0, 0, 0], "13");
        broken(1, [1, 0x200, 0, 0], "02 and not 00");
        broken(2, [0, 0, 0, 7], "unused word is 7");
        broken(3, [0, 5, 0, 0], "unused word is 5");
        broken(4, [16, 5, 6, 0], "unused word is 6");
        broken(5, [0, 0, 17, 0], "code 17");
        broken(6, [0, 0, 99, 0], "code 99");
        broken(10, [0, 28, 0, 0], "kind 28");
    }

    #[test]
    fn room_is_that_of_the_worst_case() {
        let bytes = write_sheet(&one_of_each()).unwrap();
        let room = |arch| Sheet::read(&bytes).unwrap().room(arch);
        let of = |arch, tables: [TableName; 3]| tables.map(|table| room(arch).of(table));
        use TableName::{Asked, Code, Constants, Events, Labels, Refs, Relocs, Uses};
        assert_eq!(of(Arch::X64, [Code, Labels, Events]), [3 + 15 + 9, 2, 3]);
        assert_eq!(of(Arch::X64, [Uses, Refs, Constants]), [1, 1, 1]);
        assert_eq!(of(Arch::X64, [Asked, Relocs, Code]), [1, 1, 3 + 15 + 9]);
        assert_eq!(of(Arch::AArch64, [Events, Refs, Uses]), [0, 0, 1]);
    }

    #[test]
    fn room_for_padding_is_the_least_of_multiple_and_ceiling() {
        let room = |multiple, most| {
            let align = Call::Align { multiple, most };
            let sheet = write_sheet(&[align]).unwrap();
            let room = Sheet::read(&sheet).unwrap().room(Arch::X64);
            room.of(TableName::Code)
        };
        assert_eq!([room(16, 0), room(16, 15), room(16, 14)], [15, 15, 14]);
        assert_eq!([room(4096, 0), room(4096, u32::MAX)], [4095, 4095]);
        assert_eq!([room(u32::MAX, 0), room(0, 9)], [4095, 0]);
    }

    #[test]
    fn symbols_are_counted_by_the_greatest() {
        let relocation = |target| Call::Relocation {
            offset: 0,
            kind: 0,
            target,
            addend: 0,
        };
        assert_eq!(symbols_named(&[]), 0);
        let calls = [relocation(4), relocation(2), relocation(1 << 31)];
        assert_eq!(symbols_named(&calls), 5);
    }
}
