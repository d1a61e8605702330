//! What is measured: recordings, as a host would hand them over.

use std::borrow::Cow;
use std::slice;

use compare::ceilings::{in_sheet, spent};
use compare::{LABEL_TARGET, MOST_CODE, MOST_ENTRIES, Random};
use reference::{Call, write_sheet};
use wargnifla::Condition;

/// The number of `Reloc::Abs8`.
const ABS8: u32 = 1;
/// The most bytes of a sheet's call.
const MOST_BYTES: usize = 12;

/// One step of a recording.
#[derive(Clone)]
pub enum Step {
    Sheet(Vec<u8>),
    Bytes(Vec<u8>),
    /// Calls made one at a time.
    Calls(Vec<OneCall>),
}

/// A call, and the same as the C functions and the host's wrapper take it.
#[derive(Clone)]
pub struct OneCall {
    pub call: Call<'static>,
    /// A sheet of it alone.
    pub sheet: Vec<u8>,
    /// The condition of a jump.
    pub condition: Option<Condition>,
}

/// Calls in the making.
#[derive(Default)]
pub struct Draft {
    calls: Vec<Call<'static>>,
    offset: u32,
    labels: u32,
}

impl Draft {
    pub fn label(&mut self) -> u32 {
        self.calls.push(Call::NewLabel);
        self.labels += 1;
        self.labels - 1
    }

    pub fn bind(&mut self, label: u32) {
        self.calls.push(Call::Bind(label));
    }

    fn put(&mut self, bytes: Cow<'static, [u8]>) {
        self.offset += bytes.len() as u32;
        self.calls.push(Call::Bytes(bytes));
    }

    /// Bytes as they are.
    pub fn copy(&mut self, bytes: &[u8]) {
        for part in bytes.chunks(MOST_BYTES) {
            self.put(Cow::Owned(part.to_vec()));
        }
    }

    /// So many bytes of plain code.
    fn bytes(&mut self, count: u32) {
        const BYTES: [u8; MOST_BYTES] = [
            0x48, 0x89, 0xD8, 0x48, 0x01, 0xC8, 0x0F, 0xAF, 0xC1, 0x50, 0x58, 0x90,
        ];
        let mut left = count as usize;
        while left > 0 {
            let part = left.min(BYTES.len());
            self.put(Cow::Borrowed(&BYTES[..part]));
            left -= part;
        }
    }

    fn align(&mut self, Alignment { multiple, most }: Alignment) {
        self.calls.push(Call::Align { multiple, most });
        self.offset += spent(self.offset, multiple, in_sheet(most));
    }

    /// A jump in its long form; the condition 16 is none.
    pub fn jump(&mut self, label: u32, condition: u32) {
        let start = self.offset;
        let length = if condition == 16 { 5 } else { 6 };
        self.bytes(length);
        self.calls.push(Call::Jump {
            start,
            length,
            label,
            condition,
        });
    }

    pub fn sheet(self) -> Step {
        Step::Sheet(write_sheet(&self.calls).expect("the calls of a sheet fit one"))
    }

    fn one_by_one(self) -> Step {
        let calls = self.calls.into_iter().map(|call| OneCall {
            sheet: write_sheet(slice::from_ref(&call)).expect("a call fits a sheet"),
            condition: match call {
                Call::Jump { condition, .. } => Condition::from_number(condition),
                _ => None,
            },
            call,
        });
        Step::Calls(calls.collect())
    }
}

/// An alignment as a sheet has it: a `most` of 0 is the default.
#[derive(Clone, Copy)]
struct Alignment {
    multiple: u32,
    most: u32,
}

const ON_16: Alignment = Alignment {
    multiple: 16,
    most: 0,
};

/// How the numbers of labels lie to their offsets.
#[derive(Clone, Copy)]
enum Labels {
    Rising,
    Shuffled,
}

impl Labels {
    /// The number of the label that is bound first, second and so on.
    fn numbers(self, count: u32) -> Vec<u32> {
        let mut numbers: Vec<u32> = (0..count).collect();
        if let Self::Shuffled = self {
            let mut random = Random::new(4);
            for end in (1..count).rev() {
                numbers.swap(end as usize, random.below(end + 1) as usize);
            }
        }
        numbers
    }
}

/// A rule: jumps with labels near them and now and then far away, alignments and plain code between.
fn rule(jumps: u32, alignments: u32, plain: u32, labels: Labels, alignment: Alignment) -> Draft {
    let mut random = Random::new(1);
    let mut draft = Draft::default();
    for _ in 0..jumps {
        draft.label();
    }
    let labels = labels.numbers(jumps);
    for jump in 0..jumps {
        draft.bind(labels[jump as usize]);
        draft.bytes(plain);
        let near = (jump + random.below(13)).saturating_sub(6);
        let far = random.below(jumps);
        let label = if random.chance(10) { far } else { near };
        let condition = random.below(17);
        draft.jump(labels[label.min(jumps - 1) as usize], condition);
        if alignments > 0 && jump % (jumps / alignments) == 0 {
            draft.align(alignment);
        }
    }
    draft
}

/// Few jumps, an alignment for five of them.
fn small_rule(jumps: u32) -> Draft {
    rule(jumps, jumps / 5, 9, Labels::Rising, ON_16)
}

pub fn small(jumps: u32) -> Vec<Step> {
    vec![small_rule(jumps).sheet()]
}

/// As [`small`], call by call.
pub fn small_calls(jumps: u32) -> Vec<Step> {
    vec![small_rule(jumps).one_by_one()]
}

fn typical_rule(labels: Labels) -> Draft {
    rule(1_000, 200, 9, labels, ON_16)
}

/// 1,000 jumps and 200 alignments in 16 KiB.
pub fn typical() -> Vec<Step> {
    vec![typical_rule(Labels::Rising).sheet()]
}

pub fn typical_shuffled() -> Vec<Step> {
    vec![typical_rule(Labels::Shuffled).sheet()]
}

/// As [`typical`], call by call.
pub fn typical_calls() -> Vec<Step> {
    vec![typical_rule(Labels::Rising).one_by_one()]
}

/// As [`typical`], with other alignments.
fn typical_aligned(multiple: u32, most: u32) -> Vec<Step> {
    let alignment = Alignment { multiple, most };
    vec![rule(1_000, 200, 9, Labels::Rising, alignment).sheet()]
}

/// Ceilings that are the default, and said.
pub fn typical_said() -> Vec<Step> {
    typical_aligned(16, 4_095)
}

/// Alignments to 32 that spend at most 10 bytes.
pub fn typical_within() -> Vec<Step> {
    typical_aligned(32, 10)
}

/// The same without ceilings.
pub fn typical_on_32() -> Vec<Step> {
    typical_aligned(32, 0)
}

/// A jump, and as many alignments as events are left, each behind a byte.
fn alignments_of(alignment: Alignment) -> Vec<Step> {
    let mut draft = Draft::default();
    let label = draft.label();
    draft.bind(label);
    draft.jump(label, 16);
    for _ in 1..MOST_ENTRIES {
        draft.bytes(1);
        draft.align(alignment);
    }
    vec![draft.sheet()]
}

pub fn alignments() -> Vec<Step> {
    alignments_of(ON_16)
}

/// The same, each of which spends at most 10 bytes.
pub fn alignments_within() -> Vec<Step> {
    alignments_of(Alignment { most: 10, ..ON_16 })
}

fn large_rule(labels: Labels) -> Vec<Step> {
    vec![rule(50_000, 10_000, 76, labels, ON_16).sheet()]
}

/// 60,000 events in 4 MiB.
pub fn large() -> Vec<Step> {
    large_rule(Labels::Rising)
}

pub fn large_shuffled() -> Vec<Step> {
    large_rule(Labels::Shuffled)
}

/// 16 MiB with one jump, which becomes long.
pub fn one_jump() -> Vec<Step> {
    let half = vec![0x90; MOST_CODE / 2 - 8];
    let mut jump = Draft {
        offset: half.len() as u32,
        ..Draft::default()
    };
    let label = jump.label();
    jump.jump(label, 16);
    let mut end = Draft::default();
    end.bind(label);
    vec![
        Step::Bytes(half.clone()),
        jump.sheet(),
        Step::Bytes(half),
        end.sheet(),
    ]
}

/// 65,536 uses of 1,000 labels, without a jump.
pub fn uses() -> Vec<Step> {
    uses_of(0, |draft| draft.bytes(264))
}

/// The same, of the immediates of ADDs that hold nothing: the Rust would mix in what they hold.
pub fn adds() -> Vec<Step> {
    const ADD: [u8; 4] = 0x9100_0000u32.to_le_bytes();
    uses_of(16, |draft| draft.copy(&ADD.repeat(66)))
}

/// Uses of a code, each 264 bytes of code behind a label.
fn uses_of(code: u32, put: impl Fn(&mut Draft)) -> Vec<Step> {
    let mut random = Random::new(2);
    let mut draft = Draft::default();
    for _ in 0..1_000 {
        let label = draft.label();
        draft.bind(label);
        put(&mut draft);
    }
    for number in 0..MOST_ENTRIES as u32 {
        draft.calls.push(Call::Use {
            offset: number * 4,
            label: random.below(1_000),
            code,
        });
    }
    vec![draft.sheet()]
}

/// 65,536 relocations over a typical rule, at the offsets of their numbers, of some kinds in turn.
fn relocations_at(kinds: &[u32], offset: impl Fn(u32, &mut Random) -> u32) -> Vec<Step> {
    let mut random = Random::new(3);
    let mut draft = typical_rule(Labels::Rising);
    let kinds = kinds.iter().cycle();
    for (number, kind) in (0..MOST_ENTRIES as u32).zip(kinds) {
        draft.calls.push(Call::Relocation {
            offset: offset(number, &mut random),
            kind: *kind,
            target: random.below(1_000) + LABEL_TARGET,
            addend: 8,
        });
    }
    vec![draft.sheet()]
}

/// Relocations in the order of the code, as a recorder makes them.
pub fn relocations() -> Vec<Step> {
    relocations_at(&[ABS8], |number, _| number / 4)
}

/// The same, of every kind that has an ELF type on X64.
pub fn relocations_of_every_type() -> Vec<Step> {
    relocations_at(&[0, 1, 2, 3, 4, 5, 9], |number, _| number / 4)
}

pub fn relocations_at_random() -> Vec<Step> {
    relocations_at(&[ABS8], |_, random| random.below(MOST_ENTRIES as u32 / 4))
}

/// Constants of 1 to 12 bytes, all asked for, after one jump.
pub fn constants(count: u32) -> Vec<Step> {
    let mut draft = Draft::default();
    let label = draft.label();
    draft.bind(label);
    draft.jump(label, 16);
    for number in 0..count {
        let bytes = vec![number as u8; number as usize % 12 + 1];
        draft.calls.push(Call::Constant(Cow::Owned(bytes)));
        draft.calls.push(Call::ConstantLabel(number));
    }
    vec![draft.sheet()]
}

/// 65,536 calls of most kinds, a typical rule first.
pub fn calls() -> Vec<Step> {
    let mut draft = typical_rule(Labels::Rising);
    while draft.calls.len() < MOST_ENTRIES {
        let number = draft.calls.len() as u32;
        let label = number % 1_000;
        draft.calls.push(match number % 5 {
            0 => Call::Bytes(Cow::Borrowed(&[0x48, 0x8D, 0x05, 0, 0, 0, 0])),
            1 => Call::Use {
                offset: number,
                label,
                code: 0,
            },
            2 => Call::Ref {
                offset: number,
                label,
                code: 0,
                addend: 0,
            },
            3 => Call::Constant(Cow::Borrowed(&[1, 2, 3, 4])),
            _ => Call::Relocation {
                offset: number,
                kind: 1,
                target: label + LABEL_TARGET,
                addend: 0,
            },
        });
    }
    vec![draft.sheet()]
}

/// A chain of jumps, of which one grows in each round: each has its label 127 bytes on, behind the next jump; the last one's is out of reach.
pub fn chain(jumps: u32) -> Vec<Step> {
    let mut draft = Draft::default();
    for _ in 0..jumps {
        draft.label();
    }
    for jump in 0..jumps {
        draft.jump(jump, 16);
        draft.bytes(57);
        if jump > 0 {
            draft.bind(jump - 1);
        }
        draft.bytes(11);
    }
    draft.bytes(60);
    draft.bind(jumps - 1);
    vec![draft.sheet()]
}

/// 65,536 uses of so many labels, which are then bound.
pub fn uses_and_binds(count: u32) -> Vec<Step> {
    let mut random = Random::new(5);
    let mut draft = Draft::default();
    for _ in 0..count {
        draft.label();
    }
    for number in 0..MOST_ENTRIES as u32 {
        draft.calls.push(Call::Use {
            offset: number * 4,
            label: random.below(count),
            code: 0,
        });
    }
    for label in 0..count {
        draft.bind(label);
    }
    vec![draft.sheet()]
}

/// As many labels as jumps, all of which each jump's recording looks at.
pub fn labels_and_jumps(count: u32) -> Vec<Step> {
    let mut draft = Draft::default();
    for _ in 0..count {
        let label = draft.label();
        draft.bind(label);
    }
    for jump in 0..count {
        draft.jump(jump, 16);
    }
    vec![draft.sheet()]
}
