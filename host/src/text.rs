//! Sheets as text, read into the host's calls.

use std::sync::Arc;

use sheet_text::TextCall;

use crate::{Arch, Call};

pub use sheet_text::{Note, Span, TextError};

/// What a text says.
pub type Script = sheet_text::Script<Call>;

/// What a text says that may be half typed, and what is wrong with it.
pub type Draft = sheet_text::Draft<Call>;

/// Zeros become calls of at most so many bytes, which share them.
const ZEROS: usize = 65_536;

/// Reads a text; host/README.md has its form.
///
/// # Errors
///
/// Says what is wrong with the first statement that is.
pub fn read_text(text: &str) -> Result<Script, TextError> {
    read_text_for(None, text)
}

/// Reads a text for an architecture, whatever the text says, if one is given.
///
/// # Errors
///
/// As [`read_text`].
pub fn read_text_for(arch: Option<Arch>, text: &str) -> Result<Script, TextError> {
    sheet_text::read_text(text, arch, append)
}

/// Reads a text that may be half typed, for an architecture, whatever the text says, if one is given. An editor learns from it what is recorded so
/// far, and all that is wrong.
///
/// ```
/// let draft = wargnifla::read_draft(None, "bytes 90\njmp\nzeros x");
/// assert_eq!(draft.script.calls.len(), 1);
/// let lines: Vec<u32> = draft.errors.iter().map(|error| error.place.line).collect();
/// assert_eq!(lines, [2, 3]);
/// ```
pub fn read_draft(arch: Option<Arch>, text: &str) -> Draft {
    sheet_text::read_draft(text, arch, append)
}

fn append(call: TextCall, calls: &mut Vec<Call>) -> Result<(), String> {
    match call {
        TextCall::Call(call) => calls.push(call),
        TextCall::Zeros(count) => append_zeros(count as usize, calls),
        TextCall::Finish => {
            return Err(
                "finish is no call of a sheet: it follows by itself after the last call".into(),
            );
        }
    }
    Ok(())
}

fn append_zeros(count: usize, calls: &mut Vec<Call>) {
    let block: Arc<[u8]> = vec![0; count.min(ZEROS)].into();
    for _ in 0..count / ZEROS {
        calls.push(Call::Bytes(block.clone()));
    }
    let rest = count % ZEROS;
    if rest > 0 {
        calls.push(Call::Bytes(block[..rest].into()));
    }
}

#[cfg(test)]
mod tests {
    use super::*;

    #[test]
    fn zeros_are_bytes_in_parts() {
        let sizes = |text| -> Vec<usize> {
            let calls = read_text(text).unwrap().calls;
            let sizes = calls.iter().map(|call| match call {
                Call::Bytes(bytes) => bytes.len(),
                _ => panic!("bytes"),
            });
            sizes.collect()
        };
        assert_eq!(sizes("z 5"), [5]);
        assert_eq!(sizes("z 65536"), [65_536]);
        assert_eq!(sizes("z 65537"), [65_536, 1]);
        assert_eq!(sizes("z 0"), []);
        assert_eq!(sizes("z 4294967295").len(), 65_536);
    }

    #[test]
    fn every_call_has_the_line_it_stands_in() {
        let script = read_text("n\nz 65537; l 0\n2 ( z 65537 )").unwrap();
        let lines = (0..script.calls.len()).map(|call| script.place(call).line);
        assert_eq!(lines.collect::<Vec<_>>(), [1, 2, 2, 2, 3, 3, 3, 3]);
    }

    #[test]
    fn finish_is_no_call() {
        let error = read_text("n\nf\nn").unwrap_err();
        assert!(error.sentence.contains("finish is no call"), "{error}");
        assert_eq!(error.place.line, 2);
    }
}
