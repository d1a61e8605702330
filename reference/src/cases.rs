//! Cases A to L of document 01.

use crate::samples::Draft;
use crate::{AARCH64, Answer, Error, run_calls};

/// What document 01 says of a case.
enum Expected {
    /// Finished length, layouts, long jumps. The jumps of these cases stand
    /// one after the other from offset 0 on.
    Jumps(usize, u32, usize),
    /// These bytes at this offset.
    Bytes(usize, &'static [u8]),
    /// This word at this offset.
    Word(usize, u32),
    Refused(Error),
}

fn cases() -> Vec<(char, Draft, Expected)> {
    use Expected::{Bytes, Jumps, Refused, Word};
    vec![
        ('A', forward(127), Jumps(129, 1, 0)),
        ('B', forward(128), Jumps(133, 2, 1)),
        ('C', two_jumps(), Jumps(138, 3, 2)),
        ('D', aligned(), Jumps(16, 1, 0)),
        ('D', aligned(), Bytes(0, &PADDED)),
        ('E', backward(126), Bytes(126, &[0xEB, 0x80])),
        (
            'F',
            backward(127),
            Bytes(127, &[0xE9, 0x7C, 0xFF, 0xFF, 0xFF]),
        ),
        ('G', use_at(0, 0x1400_0000, 11, 8), Word(0, 0x1400_0002)),
        ('H', use_at(4, 0x1000_0000, 13, 0), Word(4, 0x10FF_FFE0)),
        (
            'I',
            use_at(0x0FFC, 0x9000_0000, 14, 0x1000),
            Word(0x0FFC, 0xB000_0000),
        ),
        (
            'J',
            use_at(0, 0x9100_0000, 16, 0x0123),
            Word(0, 0x9104_8C00),
        ),
        (
            'K',
            use_at(0, 0x5400_0000, 10, 6),
            Refused(Error::UnsupportedInstruction),
        ),
        ('L', use_at(0, 0x5800_0000, 12, 6), Refused(Error::TooLarge)),
    ]
}

/// EB 0E, then 14 bytes of padding: a form of nine bytes, a form of five.
const PADDED: [u8; 16] = [
    0xEB, 0x0E, 0x66, 0x0F, 0x1F, 0x84, 0, 0, 0, 0, 0, 0x0F, 0x1F, 0x44, 0, 0,
];

/// The cases as recordings of the stored list.
pub(crate) fn drafts() -> Vec<Draft> {
    cases().into_iter().map(|(_, draft, _)| draft).collect()
}

/// Runs the cases; gives the letters of those that fail.
pub fn check_cases() -> String {
    cases()
        .into_iter()
        .filter(|(_, draft, expected)| {
            !holds(
                &run_calls(draft.arch, draft.symbols, &draft.calls),
                expected,
            )
        })
        .map(|(letter, ..)| letter)
        .collect()
}

fn holds(answer: &Answer, expected: &Expected) -> bool {
    let (finished, code) = match (&answer.finished, expected) {
        (None, Expected::Refused(error)) => return answer.error == Some(*error),
        (None, _) => return false,
        (Some(finished), _) => (finished, finished.code()),
    };
    match expected {
        Expected::Jumps(length, layouts, long) => {
            code.len() == *length && finished.layouts() == *layouts && long_jumps(code) == *long
        }
        Expected::Bytes(offset, bytes) => code[*offset..].starts_with(bytes),
        Expected::Word(offset, word) => code[*offset..].starts_with(&word.to_le_bytes()),
        Expected::Refused(_) => false,
    }
}

/// The long ones among the jumps that the code starts with.
fn long_jumps(code: &[u8]) -> usize {
    match code.first() {
        Some(0xE9) => 1 + long_jumps(&code[5..]),
        Some(0xEB) => long_jumps(&code[2..]),
        _ => 0,
    }
}

fn forward(zeros: u32) -> Draft {
    let mut draft = Draft::x64();
    let label = draft.label();
    draft.jump(label, 5, 16).zeros(zeros).bind(label);
    draft
}

fn two_jumps() -> Draft {
    let mut draft = Draft::x64();
    let (first, second) = (draft.label(), draft.label());
    draft.jump(first, 5, 16).jump(second, 5, 16);
    draft.zeros(125).bind(first).zeros(3).bind(second);
    draft
}

fn aligned() -> Draft {
    let mut draft = Draft::x64();
    let label = draft.label();
    draft.jump(label, 5, 16).align(16).bind(label);
    draft
}

fn backward(zeros: u32) -> Draft {
    let mut draft = Draft::x64();
    let label = draft.here();
    draft.zeros(zeros).jump(label, 5, 16);
    draft
}

/// An A64 instruction at an offset whose field a use fills, and its label.
fn use_at(offset: u32, instruction: u32, code: u32, target: u32) -> Draft {
    let mut draft = Draft::new(AARCH64);
    let label = draft.label();
    if target <= offset {
        draft.advance(target).bind(label);
    }
    draft.advance(offset).word(instruction);
    if target > offset {
        draft.advance(target).bind(label);
    }
    draft.use_at(offset, label, code);
    draft
}
