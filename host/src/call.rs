//! Calls as entries of a sheet.

use sheet_text::most_of_word;

use crate::{Call, CodeOffset, LabelUse, Padding, Reloc};

/// The most bytes that one call of a sheet carries.
pub(crate) const MOST_BYTES: usize = 12;

/// The argument of a call in a sheet; nothing if it does not fit one.
pub(crate) fn argument(call: &Call) -> Option<[u8; 16]> {
    match call {
        Call::Bytes(bytes) | Call::Constant(bytes) => bytes_argument(bytes),
        other => words_of(other).map(words_argument),
    }
}

/// The argument of a call that carries words; nothing if it carries bytes, or if one of its words does not fit.
#[inline(always)]
pub(crate) fn words_of<B>(call: &Call<B>) -> Option<[u32; 4]> {
    Some(match *call {
        Call::Bytes(_) | Call::Constant(_) => return None,
        Call::NewLabel => [0; 4],
        Call::Bind(number) | Call::ConstantLabel(number) => [number, 0, 0, 0],
        Call::Align { multiple, most } => [multiple, most, 0, 0],
        Call::Use {
            offset,
            label,
            code,
        } => [offset, label, code, 0],
        Call::Ref {
            offset,
            label,
            code,
            addend,
        } => [offset, label, code, addend.cast_unsigned()],
        Call::Jump {
            start,
            length,
            label,
            condition,
        } => [start, length, label, condition],
        Call::Relocation {
            offset,
            kind,
            target,
            addend,
        } => {
            let addend = i32::try_from(addend).ok()?;
            [offset, kind, target, addend.cast_unsigned()]
        }
    })
}

/// The bytes that a call appends where it is accepted at an offset.
#[inline(always)]
pub(crate) fn appended(call: &Call<impl AsRef<[u8]>>, offset: CodeOffset) -> u32 {
    match call {
        Call::Bytes(bytes) => bytes.as_ref().len() as u32,
        Call::Align { multiple, most } => {
            Padding::at(offset.into(), *multiple, most_of_word(*most)).spent()
        }
        _ => 0,
    }
}

/// How a call breaks the form of sheets, if it does.
pub(crate) fn broken_form(call: &Call) -> Option<String> {
    match call {
        Call::Use { code, .. } | Call::Ref { code, .. } => known_code(*code).err(),
        Call::Relocation { kind, .. } => known_kind(*kind).err(),
        _ => None,
    }
}

/// The sheet of one call alone: its count, its kind, its argument, written where it stands.
#[inline(always)]
pub(crate) fn one_call_sheet(kind: u8, words: [u32; 4]) -> [u8; 21] {
    let mut sheet = [0; 21];
    sheet[0] = 1;
    sheet[4] = kind;
    put_words(&mut sheet[5..], words);
    sheet
}

pub(crate) fn bytes_argument(bytes: &[u8]) -> Option<[u8; 16]> {
    let mut argument = [0; 16];
    argument[4..].get_mut(..bytes.len())?.copy_from_slice(bytes);
    argument[0] = bytes.len() as u8;
    Some(argument)
}

#[inline(always)]
pub(crate) fn words_argument(words: [u32; 4]) -> [u8; 16] {
    let mut argument = [0; 16];
    put_words(&mut argument, words);
    argument
}

#[inline(always)]
fn put_words(bytes: &mut [u8], words: [u32; 4]) {
    for (bytes, word) in bytes.chunks_exact_mut(4).zip(words) {
        bytes.copy_from_slice(&word.to_le_bytes());
    }
}

/// A code, if there is such a kind of field.
pub(crate) fn known_code(code: u32) -> Result<u32, String> {
    let kind = LabelUse::try_from(code).map_err(|unknown| unknown.to_string())?;
    Ok(kind.code())
}

/// A number, if there is such a kind of relocation.
pub(crate) fn known_kind(kind: u32) -> Result<u32, String> {
    let kind = Reloc::try_from(kind).map_err(|unknown| unknown.to_string())?;
    Ok(kind.number())
}
