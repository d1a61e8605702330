//! Steps made into calls, each at the offset where it comes to stand.

use crate::text_call::Step;
use crate::{Arch, Call, Condition, LabelUse, Padding, TextCall, most_of_word};

/// Steps made into calls, each at the offset where it comes to stand.
pub(crate) struct Placing<C, A> {
    arch: Arch,
    offset: u64,
    append: A,
    pub calls: Vec<C>,
}

impl<C, A: Fn(TextCall, &mut Vec<C>) -> Result<(), String>> Placing<C, A> {
    pub fn new(arch: Arch, append: A) -> Self {
        Self {
            arch,
            offset: 0,
            append,
            calls: Vec::new(),
        }
    }

    pub fn step(&mut self, step: Step) -> Result<(), String> {
        match step {
            Step::Call(call) => self.call(call),
            Step::Branch { label, condition } => self.branch(label, condition),
        }
    }

    fn call(&mut self, call: TextCall) -> Result<(), String> {
        match &call {
            TextCall::Call(Call::Bytes(bytes)) => self.offset += bytes.len() as u64,
            TextCall::Zeros(count) => self.offset += u64::from(*count),
            TextCall::Call(Call::Align { multiple, most }) if multiple.is_power_of_two() => {
                let padding = Padding::at(self.offset, *multiple, most_of_word(*most));
                self.offset += u64::from(padding.spent());
            }
            _ => {}
        }
        (self.append)(call, &mut self.calls)
    }

    fn branch(&mut self, label: u32, condition: u32) -> Result<(), String> {
        if self.arch == Arch::AArch64 {
            return Err("this is a jump of x86, and the sheet is for AArch64".into());
        }
        // Past 32 bits the bytes before it are refused already.
        let start = u32::try_from(self.offset).unwrap_or(u32::MAX);
        let (bytes, fill) = long_jump(self.arch, start, label, Condition::from_number(condition));
        self.call(TextCall::Call(Call::Bytes(bytes.into())))?;
        self.call(TextCall::Call(fill))
    }
}

/// The long form of a jump that starts at an offset, its displacement open, and the call that has finish fill it: on X64 a jump, which finish may
/// shorten, else a use, which AArch64 refuses.
pub fn long_jump<B>(
    arch: Arch,
    start: u32,
    label: u32,
    condition: Option<Condition>,
) -> (&'static [u8], Call<B>) {
    let bytes: &[u8] = match condition {
        Some(condition) => &JCC[condition as usize],
        None => &JMP,
    };
    let length = bytes.len() as u32;
    let fill = match arch {
        Arch::X64 => Call::Jump {
            start,
            length,
            label,
            condition: condition.map_or(Condition::NONE, Condition::number),
        },
        Arch::X86 | Arch::AArch64 => Call::Use {
            offset: start.saturating_add(length - LabelUse::X86JmpRel32.patch_size()),
            label,
            code: LabelUse::X86JmpRel32.code(),
        },
    };
    (bytes, fill)
}

/// `jmp` with a displacement of zeros.
static JMP: [u8; 5] = [0xE9, 0, 0, 0, 0];

/// `jcc`, likewise, by condition.
static JCC: [[u8; 6]; 16] = {
    let mut all = [[0x0F, 0x80, 0, 0, 0, 0]; 16];
    let mut condition = 0;
    while condition < all.len() {
        all[condition][1] += condition as u8;
        condition += 1;
    }
    all
};
