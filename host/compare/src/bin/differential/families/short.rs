//! All recordings of few calls over small alphabets.

use compare::{AARCH64, LABEL_TARGET, X64, X86};
use reference::Call;

use super::draft::Draft;
use crate::scenario::Scenario;

/// What adds a call or a few to a recording.
type Letter = fn(&mut Draft);

/// An architecture, the letters that its recordings are made of, and how many of them follow its first ones at most.
struct Alphabet {
    arch: u32,
    /// The letters that each of its recordings begins with.
    first: &'static [Letter],
    letters: &'static [Letter],
    most: u32,
    /// Labels that are left unbound are bound at the end.
    binds_rest: bool,
}

impl Alphabet {
    /// The number of its recordings.
    fn recordings(&self) -> u64 {
        (0..=self.most)
            .map(|n| (self.letters.len() as u64).pow(n))
            .sum()
    }

    /// The recording of a number, which is written in a system with as many digits as there are letters; shorter recordings come first.
    fn recording(&self, mut number: u64) -> Draft {
        let digits = self.letters.len() as u64;
        let mut length = 0;
        while number >= digits.pow(length) {
            number -= digits.pow(length);
            length += 1;
        }
        let mut draft = Draft::new(self.arch);
        for letter in self.first {
            letter(&mut draft);
        }
        for _ in 0..length {
            self.letters[(number % digits) as usize](&mut draft);
            number /= digits;
        }
        while let Some(label) = draft.unbound_label().filter(|_| self.binds_rest) {
            draft.bind(label);
        }
        draft
    }
}

/// The number of all recordings of all alphabets.
pub fn total() -> u64 {
    ALPHABETS.iter().map(Alphabet::recordings).sum()
}

/// Every recording has a number below [`total`].
pub fn scenario(number: u64) -> Scenario {
    let mut rest = number;
    for alphabet in &ALPHABETS {
        if rest < alphabet.recordings() {
            let steps = alphabet.recording(rest).into_steps();
            return Scenario::new(alphabet.arch, 1, number, steps);
        }
        rest -= alphabet.recordings();
    }
    unreachable!("a recording's number is below the total")
}

const ALPHABETS: [Alphabet; 11] = [
    // Jumps over gaps that bring them to their limits.
    Alphabet {
        arch: X64,
        first: &[new_label, new_label],
        letters: &[
            |d| d.bind(0),
            |d| d.bind(1),
            |d| d.jump(0, 5, 16),
            |d| d.jump(1, 6, 3),
            |d| d.jump(1, 2, 16),
            |d| d.zeros(1),
            |d| d.zeros(61),
            |d| d.zeros(64),
            |d| d.align(1),
            |d| d.align(16),
            |d| ref_here(d, 4, 0),
            |d| ref_here(d, 1, 1),
        ],
        most: 6,
        binds_rest: true,
    },
    // Jumps at fixed offsets, most of them unfit.
    Alphabet {
        arch: X64,
        first: &[new_label],
        letters: &[
            new_label,
            |d| d.bind(0),
            |d| d.bytes(&[1, 2]),
            |d| d.bytes(&[3, 4, 5]),
            |d| d.push(jump(0, 2, 0, 16)),
            |d| d.push(jump(2, 3, 0, 4)),
            |d| d.push(jump(0, 5, 1, 16)),
            |d| d.align(1),
            |d| d.align(4),
            |d| d.ref_at(2, 0, 1, 0),
            |d| d.relocation(3, 0, 0, -1),
        ],
        most: 5,
        binds_rest: false,
    },
    // Uses and refs on the same bytes, with a jump and without.
    Alphabet {
        arch: X64,
        first: &[new_label],
        letters: &[
            |d| d.bind(0),
            |d| d.bytes(&[0xE8, 1, 0, 0, 0]),
            |d| d.use_at(1, 0, 0),
            |d| d.use_at(2, 0, 1),
            |d| d.use_at(4, 0, 1),
            |d| d.ref_at(1, 0, 0, -3),
            |d| d.ref_at(5, 0, 1, 127),
            |d| d.jump(0, 5, 15),
            |d| d.align(8),
            |d| d.align(3),
        ],
        most: 5,
        binds_rest: false,
    },
    // Constants, their labels, and what names them.
    Alphabet {
        arch: X64,
        first: &[|d| constant(d, vec![])],
        letters: &[
            |d| constant(d, vec![7; 9]),
            |d| d.ask(0),
            |d| d.ask(1),
            new_label,
            |d| d.bind(0),
            |d| d.bytes(&[0, 0, 0]),
            |d| d.jump(0, 3, 16),
            |d| d.ref_at(3, 0, 1, 0),
            |d| d.use_at(0, 0, 1),
            |d| d.align(2),
            |d| d.relocation(5, 1, LABEL_TARGET, 1),
        ],
        most: 5,
        binds_rest: false,
    },
    // Constants of 33 bytes and of 32, and jumps across their padding.
    Alphabet {
        arch: X64,
        first: &[new_label, |d| constant(d, vec![9; 33])],
        letters: &[
            |d| constant(d, vec![7; 32]),
            |d| d.ask(0),
            |d| d.ask(1),
            |d| d.bind(0),
            |d| d.zeros(1),
            |d| d.zeros(62),
            |d| d.align(64),
            |d| d.jump(0, 5, 16),
            |d| d.jump(1, 6, 4),
            |d| ref_here(d, 4, 0),
            |d| d.use_at(0, 1, 1),
        ],
        most: 5,
        binds_rest: true,
    },
    Alphabet {
        arch: X86,
        first: &[new_label],
        letters: &[
            |d| d.bind(0),
            |d| d.bytes(&[9, 8, 7, 6]),
            |d| d.use_at(0, 0, 0),
            |d| d.use_at(3, 0, 1),
            |d| d.use_at(0, 0, 15),
            |d| d.ref_at(0, 7, 9, 0),
            |d| d.push(jump(7, 7, 7, 99)),
            |d| d.align(16),
            |d| constant(d, vec![5; 8]),
            |d| d.ask(0),
            |d| d.relocation(1, 2, 0, -1),
            |d| d.relocation(1, 8, 1, 0),
        ],
        most: 5,
        binds_rest: false,
    },
    Alphabet {
        arch: AARCH64,
        first: &[new_label],
        letters: &[
            |d| d.bind(0),
            |d| d.bytes(&[0xFF, 0xFF, 0xFF, 0xFF]),
            |d| d.zeros(2),
            |d| d.align(8),
            |d| constant(d, vec![5; 3]),
            |d| d.ask(0),
            |d| d.relocation(0, 8, LABEL_TARGET, 0),
            |d| use_here(d, 9),
            |d| use_here(d, 10),
            |d| use_here(d, 11),
            |d| use_here(d, 12),
            |d| use_here(d, 13),
            |d| use_here(d, 14),
            |d| use_here(d, 16),
            |d| d.use_at(4, 0, 11),
        ],
        most: 5,
        binds_rest: true,
    },
    // ADDs over fields that hold something, over a branch, and over each other.
    Alphabet {
        arch: AARCH64,
        first: &[new_label, new_label],
        letters: &[
            |d| d.bind(0),
            |d| d.bind(1),
            |d| d.bytes(&0x9100_0000u32.to_le_bytes()),
            |d| d.bytes(&0x9100_0400u32.to_le_bytes()),
            |d| d.bytes(&0x917F_FC1Fu32.to_le_bytes()),
            |d| d.zeros(3),
            |d| d.align(1024),
            |d| d.use_at(0, 0, 16),
            |d| d.use_at(0, 1, 16),
            |d| d.use_at(1, 1, 16),
            |d| d.use_at(4, 0, 16),
            |d| d.use_at(0, 1, 11),
        ],
        most: 5,
        binds_rest: true,
    },
    // Alignments with ceilings, by sheets and by direct calls, around jumps that become short.
    Alphabet {
        arch: X64,
        first: &[new_label],
        letters: &[
            |d| d.bind(0),
            |d| d.zeros(1),
            |d| d.zeros(3),
            |d| d.zeros(122),
            |d| d.jump(0, 5, 16),
            |d| d.jump(0, 2, 4),
            |d| d.align_within(4, 1),
            |d| d.align_within(8, 2),
            |d| d.align_within(8, 5),
            |d| d.align_directly(8, 0),
            |d| d.align(8),
            here,
        ],
        most: 5,
        binds_rest: true,
    },
    // The same off X64, before constants.
    Alphabet {
        arch: X86,
        ..CEILINGS_OFF_X64
    },
    CEILINGS_OFF_X64,
];

/// Alignments with ceilings on AArch64.
const CEILINGS_OFF_X64: Alphabet = Alphabet {
    arch: AARCH64,
    first: &[new_label, |d| constant(d, vec![3; 9])],
    letters: &[
        |d| d.bind(0),
        |d| d.bytes(&[1]),
        |d| d.bytes(&[1, 2, 3, 4, 5]),
        |d| d.align_within(8, 3),
        |d| d.align_within(8, 6),
        |d| d.align_within(16, u32::MAX),
        |d| d.align_directly(4, 0),
        |d| d.align_directly(4, 2),
        |d| d.align(2),
        |d| d.ask(0),
    ],
    most: 5,
    binds_rest: true,
};

fn here(draft: &mut Draft) {
    draft.here();
}

fn new_label(draft: &mut Draft) {
    draft.label();
}

fn constant(draft: &mut Draft, bytes: Vec<u8>) {
    draft.constant(bytes);
}

fn jump(start: u32, length: u32, label: u32, condition: u32) -> Call<'static> {
    Call::Jump {
        start,
        length,
        label,
        condition,
    }
}

/// What stands in a field at first.
const STALE: [u8; 4] = [0x5A, 0xFF, 0, 0x81];

/// Bytes, and the ref that they are, to label 0.
fn ref_here(draft: &mut Draft, size: usize, code: u32) {
    let offset = draft.offset;
    draft.bytes(&STALE[..size]);
    draft.ref_at(offset, 0, code, 0);
}

/// Four bytes, and the use that they are, of label 0.
fn use_here(draft: &mut Draft, code: u32) {
    let offset = draft.offset;
    draft.bytes(&STALE);
    draft.use_at(offset, 0, code);
}
