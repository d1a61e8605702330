//! A sheet of calls: its form, and the calls that it spells.

use super::calls::Call;
use super::ceilings::in_sheet;

/// The last number of `Reloc`.
pub const LAST_RELOC: u32 = 27;
/// The last code of `LabelUse`.
const LAST_CODE: u32 = 16;
/// The most bytes that one call carries.
const MOST_BYTES: u32 = 12;

/// The calls of a sheet, or the index of the first one whose form is broken; 0 for a wrong length.
pub fn read(sheet: &[u8]) -> Result<Vec<Call<'_>>, u32> {
    let (count, rest) = sheet.split_first_chunk::<4>().ok_or(0u32)?;
    let count = u32::from_le_bytes(*count);
    if rest.len() as u64 != u64::from(count) * 17 {
        return Err(0);
    }
    let (kinds, arguments) = rest.split_at(count as usize);
    let arguments = arguments.chunks_exact(16);
    let calls = kinds.iter().zip(arguments).enumerate();
    calls
        .map(|(index, (kind, argument))| read_call(*kind, argument).ok_or(index as u32))
        .collect()
}

/// Nothing if the form is broken.
fn read_call(kind: u8, argument: &[u8]) -> Option<Call<'_>> {
    let word = |number: usize| {
        let bytes = argument[number * 4..][..4].try_into();
        u32::from_le_bytes(bytes.expect("a word has four bytes"))
    };
    let (call, used_bytes) = match kind {
        1 => (Call::Bytes(data(argument, word(0))?), 4 + word(0)),
        2 => (Call::NewLabel, 0),
        3 => (Call::Bind(word(0)), 4),
        4 => {
            let call = Call::Align {
                multiple: word(0),
                most: in_sheet(word(1)),
            };
            (call, 8)
        }
        5 => {
            let call = Call::Use {
                offset: word(0),
                label: word(1),
                code: at_most(LAST_CODE, word(2))?,
            };
            (call, 12)
        }
        6 => {
            let call = Call::Ref {
                offset: word(0),
                label: word(1),
                code: at_most(LAST_CODE, word(2))?,
                addend: word(3).cast_signed(),
            };
            (call, 16)
        }
        7 => {
            let call = Call::Jump {
                start: word(0),
                length: word(1),
                label: word(2),
                condition: word(3),
            };
            (call, 16)
        }
        8 => (Call::Constant(data(argument, word(0))?), 4 + word(0)),
        9 => (Call::ConstantLabel(word(0)), 4),
        10 => {
            let call = Call::Relocation {
                offset: word(0),
                kind: at_most(LAST_RELOC, word(1))?,
                target: word(2),
                addend: word(3).cast_signed().into(),
            };
            (call, 16)
        }
        _ => return None,
    };
    let unused = &argument[used_bytes as usize..];
    unused.iter().all(|byte| *byte == 0).then_some(call)
}

fn at_most(limit: u32, number: u32) -> Option<u32> {
    (number <= limit).then_some(number)
}

fn data(argument: &[u8], count: u32) -> Option<&[u8]> {
    let count = at_most(MOST_BYTES, count)?;
    Some(&argument[4..][..count as usize])
}
