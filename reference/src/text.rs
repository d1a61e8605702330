//! Sheets as text: read by the reader that the host has too, and written in its
//! short words. host/README.md has the form. Here `f` is one more call, and bytes
//! and zeros become calls of at most 12 bytes each, so that a sheet can hold them.

use std::borrow::Cow;
use std::fmt::Write;

use sheet_text::{Arch, Call as Read, TextCall};

use crate::sheet::SHEET_BYTES;
use crate::{Call, LABEL_TARGET, TextStep};

pub use sheet_text::TextError;

/// What a text says.
pub type Script = sheet_text::Script<TextStep>;

/// Reads a text, or says what is wrong with it.
pub fn read_text(text: &str) -> Result<Script, TextError> {
    read_text_for(None, text)
}

/// Reads a text for an architecture, whatever the text says, if one is given.
pub fn read_text_for(arch: Option<Arch>, text: &str) -> Result<Script, TextError> {
    sheet_text::read_text(text, arch, |call, steps| {
        match call {
            TextCall::Call(Read::Bytes(bytes)) => append_bytes(&bytes, steps),
            TextCall::Call(call) => {
                let owned = call.map_bytes(|bytes| Cow::Owned(bytes.to_vec()));
                steps.push(TextStep::Call(owned));
            }
            TextCall::Zeros(count) => append_zeros(count as usize, steps),
            TextCall::Finish => steps.push(TextStep::Finish),
        }
        Ok(())
    })
}

/// One call at least, so that `b` alone is a call of no bytes.
fn append_bytes(bytes: &[u8], steps: &mut Vec<TextStep>) {
    let (first, rest) = bytes.split_at(bytes.len().min(SHEET_BYTES));
    let mut push = |part: &[u8]| {
        let call = Call::Bytes(Cow::Owned(part.to_vec()));
        steps.push(TextStep::Call(call));
    };
    push(first);
    rest.chunks(SHEET_BYTES).for_each(push);
}

fn append_zeros(count: usize, steps: &mut Vec<TextStep>) {
    const ZEROS: [u8; SHEET_BYTES] = [0; SHEET_BYTES];
    let mut push = |length: usize| {
        let call = Call::Bytes(Cow::Borrowed(&ZEROS[..length]));
        steps.push(TextStep::Call(call));
    };
    for _ in 0..count / SHEET_BYTES {
        push(SHEET_BYTES);
    }
    if count % SHEET_BYTES > 0 {
        push(count % SHEET_BYTES);
    }
}

/// Writes calls, one after the other with `; ` between; runs of zeros are
/// written as one `z`.
pub fn write_text(calls: &[Call<'_>]) -> String {
    let mut out = Vec::new();
    let mut rest = calls;
    while let Some((call, others)) = rest.split_first() {
        let zeros = rest.iter().take_while(|call| is_full_zeros(call)).count();
        if zeros == 0 {
            out.push(write_call(call));
            rest = others;
            continue;
        }
        out.push(format!("z {}", zeros * SHEET_BYTES));
        rest = &rest[zeros..];
    }
    out.join("; ")
}

fn is_full_zeros(call: &Call<'_>) -> bool {
    matches!(call, Call::Bytes(bytes) if bytes[..] == [0; SHEET_BYTES])
}

fn write_call(call: &Call<'_>) -> String {
    match call {
        Call::Bytes(bytes) => write_bytes('b', bytes),
        Call::NewLabel => "n".into(),
        Call::Bind(label) => format!("l {label}"),
        Call::Align { multiple, most: 0 } => format!("a {multiple}"),
        Call::Align { multiple, most } => format!("a {multiple} {most}"),
        Call::Use {
            offset,
            label,
            code,
        } => format!("u {offset} {label} {code}"),
        Call::Ref {
            offset,
            label,
            code,
            addend,
        } => format!("r {offset} {label} {code} {addend}"),
        Call::Jump {
            start,
            length,
            label,
            condition,
        } => format!("j {start} {length} {label} {condition}"),
        Call::Constant(bytes) => write_bytes('c', bytes),
        Call::ConstantLabel(constant) => format!("k {constant}"),
        Call::Relocation {
            offset,
            kind,
            target,
            addend,
        } => match target.checked_sub(LABEL_TARGET) {
            Some(label) => format!("o {offset} {kind} l{label} {addend}"),
            None => format!("o {offset} {kind} s{target} {addend}"),
        },
    }
}

fn write_bytes(letter: char, bytes: &[u8]) -> String {
    let mut out = String::from(letter);
    if !bytes.is_empty() {
        out.push(' ');
    }
    for byte in bytes {
        let _ = write!(out, "{byte:02X}");
    }
    out
}
