//! Document 02, Request Four: a use of code 16 clears its field before it
//! writes, where the Rust ORs.

use crate::recording::label_use;
use crate::{AARCH64, Call, Error, Finished, Recording, quietly};

/// `LabelUse::A64AddAbsLo12`.
const CODE: u32 = 16;
/// Bits 10 to 21.
const FIELD: u32 = 0xFFF << 10;

/// Whether the finished code would be other bytes if code 16 cleared its field.
///
/// What a field holds may come from the bytes recorded, from uses before, or
/// from the pool's zeros; whether it shows hangs on the label's bits, and on
/// uses and constants that are written over it. So nothing is told from the
/// calls alone: the code is patched a second time, by the Rust's own fields,
/// and compared. A recording that the Rust refuses is not met: the request
/// changes no refusal.
pub fn changes_code(arch: u32, symbols: u32, calls: &[Call<'_>]) -> bool {
    let is_add = |call: &Call<'_>| matches!(call, Call::Use { code: CODE, .. });
    arch == AARCH64
        && calls.iter().any(is_add)
        && quietly(|| differs(arch, symbols, calls)) == Ok(Ok(true))
}

fn differs(arch: u32, symbols: u32, calls: &[Call<'_>]) -> Result<bool, Error> {
    let mut recording = Recording::new(arch, symbols)?;
    let values = calls.iter().map(|call| recording.call(call));
    let values = values.collect::<Result<Vec<_>, _>>()?;
    let mut code = recording.code().to_vec();
    let finished = recording.finish()?;
    // The pool's padding is zeros on AArch64.
    code.resize(finished.code().len(), 0);
    write_uses(&mut code, calls, &finished)?;
    write_constants(&mut code, calls, &values, &finished);
    Ok(code != finished.code())
}

/// Writes the uses in order, those of code 16 into fields that are cleared.
fn write_uses(code: &mut [u8], calls: &[Call<'_>], finished: &Finished) -> Result<(), Error> {
    for call in calls {
        let Call::Use {
            offset,
            label,
            code: number,
        } = *call
        else {
            continue;
        };
        let kind = label_use(number)?;
        let field = &mut code[offset as usize..][..kind.patch_size()];
        if number == CODE {
            clear(field);
        }
        kind.patch(field, offset, finished.labels()[label as usize]);
    }
    Ok(())
}

fn clear(field: &mut [u8]) {
    for (byte, bits) in field.iter_mut().zip(FIELD.to_le_bytes()) {
        *byte &= !bits;
    }
}

/// Writes the constants that are asked for; the value of an asking is its label.
fn write_constants(code: &mut [u8], calls: &[Call<'_>], values: &[u32], finished: &Finished) {
    let constants = calls.iter().filter_map(|call| match call {
        Call::Constant(bytes) => Some(bytes),
        _ => None,
    });
    let constants: Vec<_> = constants.collect();
    for (call, label) in calls.iter().zip(values) {
        if let Call::ConstantLabel(constant) = call {
            let bytes = constants[*constant as usize];
            let offset = finished.labels()[*label as usize] as usize;
            code[offset..][..bytes.len()].copy_from_slice(bytes);
        }
    }
}
