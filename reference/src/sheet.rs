//! Sheets of calls: their form by document 01, read and written.

use std::borrow::Cow;

/// The most bytes that one call of a sheet carries.
pub const SHEET_BYTES: usize = 12;

const LAST_CODE: u32 = 16;
const LAST_RELOC: u32 = 27;

/// One call on a recording.
pub type Call<'a> = sheet_text::Call<Cow<'a, [u8]>>;

/// What a text may say here: a call, or a finish whose answer is dropped. No
/// sheet holds the latter; docs/DIFFERENCES.md needs it to show what the Rust
/// keeps of one.
#[derive(Clone, Debug, PartialEq, Eq)]
pub enum TextStep {
    Call(Call<'static>),
    Finish,
}

impl TextStep {
    /// The call, if it is one.
    pub fn call(&self) -> Option<&Call<'static>> {
        match self {
            Self::Call(call) => Some(call),
            Self::Finish => None,
        }
    }
}

/// A sheet whose form is right.
pub struct Sheet<'a> {
    kinds: &'a [u8],
    arguments: &'a [[u8; 16]],
}

impl<'a> Sheet<'a> {
    /// Checks the form of the whole sheet; a broken one gives the index of
    /// its first broken call, 0 for a wrong length.
    pub fn read(bytes: &'a [u8]) -> Result<Self, u32> {
        let (count, rest) = bytes.split_first_chunk::<4>().ok_or(0u32)?;
        let count = u32::from_le_bytes(*count);
        if rest.len() as u64 != u64::from(count) * 17 {
            return Err(0);
        }
        let (kinds, rest) = rest.split_at(count as usize);
        let (arguments, _) = rest.as_chunks::<16>();
        for (index, (kind, argument)) in kinds.iter().zip(arguments).enumerate() {
            if !is_well_formed(*kind, argument) {
                return Err(index as u32);
            }
        }
        Ok(Self { kinds, arguments })
    }

    pub fn len(&self) -> usize {
        self.kinds.len()
    }

    pub fn is_empty(&self) -> bool {
        self.kinds.is_empty()
    }

    pub fn calls(&self) -> impl Iterator<Item = Call<'a>> + use<'a> {
        self.kinds
            .iter()
            .zip(self.arguments)
            .map(|(kind, argument)| call(*kind, argument))
    }
}

fn words(argument: &[u8; 16]) -> [u32; 4] {
    let (words, _) = argument.as_chunks::<4>();
    std::array::from_fn(|i| u32::from_le_bytes(words[i]))
}

fn is_well_formed(kind: u8, argument: &[u8; 16]) -> bool {
    let words = words(argument);
    let unused = |from: usize| words[from..].iter().all(|word| *word == 0);
    match kind {
        1 | 8 => {
            words[0] <= SHEET_BYTES as u32
                && argument[4 + words[0] as usize..].iter().all(|b| *b == 0)
        }
        2 => unused(0),
        3 | 9 => unused(1),
        4 => unused(2),
        5 => words[2] <= LAST_CODE && unused(3),
        6 => words[2] <= LAST_CODE,
        7 => true,
        10 => words[1] <= LAST_RELOC,
        _ => false,
    }
}

/// The call that a well-formed kind and argument spell.
fn call(kind: u8, argument: &[u8; 16]) -> Call<'_> {
    let [a, b, c, d] = words(argument);
    let data = || Cow::Borrowed(&argument[4..4 + a as usize]);
    match kind {
        1 => Call::Bytes(data()),
        2 => Call::NewLabel,
        3 => Call::Bind(a),
        4 => Call::Align {
            multiple: a,
            most: b,
        },
        5 => Call::Use {
            offset: a,
            label: b,
            code: c,
        },
        6 => Call::Ref {
            offset: a,
            label: b,
            code: c,
            addend: d as i32,
        },
        7 => Call::Jump {
            start: a,
            length: b,
            label: c,
            condition: d,
        },
        8 => Call::Constant(data()),
        9 => Call::ConstantLabel(a),
        _ => Call::Relocation {
            offset: a,
            kind: b,
            target: c,
            addend: i64::from(d as i32),
        },
    }
}

/// The sheet of some calls, or nothing if a call does not fit one.
pub fn write_sheet(calls: &[Call<'_>]) -> Option<Vec<u8>> {
    let mut kinds = Vec::with_capacity(calls.len());
    let mut arguments = Vec::with_capacity(calls.len() * 16);
    for call in calls {
        let (kind, argument) = entry(call)?;
        kinds.push(kind);
        arguments.extend_from_slice(&argument);
    }
    let mut sheet = (calls.len() as u32).to_le_bytes().to_vec();
    sheet.extend_from_slice(&kinds);
    sheet.extend_from_slice(&arguments);
    Some(sheet)
}

fn entry(call: &Call<'_>) -> Option<(u8, [u8; 16])> {
    let argument = match *call {
        Call::Bytes(ref data) | Call::Constant(ref data) => data_argument(data)?,
        Call::NewLabel => argument([0; 4]),
        Call::Bind(number) | Call::ConstantLabel(number) => argument([number, 0, 0, 0]),
        Call::Align { multiple, most } => argument([multiple, most, 0, 0]),
        Call::Use {
            offset,
            label,
            code,
        } => argument([offset, label, code, 0]),
        Call::Ref {
            offset,
            label,
            code,
            addend,
        } => argument([offset, label, code, addend as u32]),
        Call::Jump {
            start,
            length,
            label,
            condition,
        } => argument([start, length, label, condition]),
        Call::Relocation {
            offset,
            kind,
            target,
            addend,
        } => {
            let addend = i32::try_from(addend).ok()?;
            argument([offset, kind, target, addend as u32])
        }
    };
    Some((call.kind(), argument))
}

fn argument(words: [u32; 4]) -> [u8; 16] {
    let mut argument = [0; 16];
    for (bytes, word) in argument.chunks_exact_mut(4).zip(words) {
        bytes.copy_from_slice(&word.to_le_bytes());
    }
    argument
}

fn data_argument(data: &[u8]) -> Option<[u8; 16]> {
    let mut argument = [0; 16];
    argument[0] = u8::try_from(data.len()).ok()?;
    argument.get_mut(4..4 + data.len())?.copy_from_slice(data);
    Some(argument)
}
