//! A recording in the making: calls, and what they have come to.

use std::borrow::Cow;

use compare::ceilings::{in_sheet, needed, spent};
use compare::{AARCH64, LABEL_TARGET, Random, X64};
use reference::Call;

use crate::scenario::Step;

/// The most bytes that one call of a sheet carries.
const SHEET_BYTES: usize = 12;
/// More bytes than this are worth a call of their own beside the sheets.
const FEW_BYTES: usize = 8 * SHEET_BYTES;

/// None in half of the cases, else any condition.
pub fn any_condition(random: &mut Random) -> u32 {
    if random.chance(50) {
        16
    } else {
        random.below(16)
    }
}

/// Calls, and the offset that they have reached.
pub struct Draft {
    pub arch: u32,
    pub symbols: u32,
    /// Every number that is drawn for a call is fit.
    pub careful: bool,
    pub calls: Vec<Call<'static>>,
    pub offset: u32,
    /// The places among the calls of alignments that are made by direct calls.
    direct: Vec<usize>,
    /// Whether each label is bound.
    bound: Vec<bool>,
    /// Whether each constant's label was asked for.
    asked: Vec<bool>,
}

impl Draft {
    pub fn new(arch: u32) -> Self {
        Self {
            arch,
            symbols: 2,
            careful: false,
            calls: Vec::new(),
            offset: 0,
            direct: Vec::new(),
            bound: Vec::new(),
            asked: Vec::new(),
        }
    }

    pub fn push(&mut self, call: Call<'static>) {
        self.calls.push(call);
    }

    /// Calls of at most 12 bytes each; one call for no bytes.
    pub fn bytes(&mut self, bytes: &[u8]) {
        self.offset += bytes.len() as u32;
        if bytes.is_empty() {
            self.push(Call::Bytes(Cow::Borrowed(&[])));
        }
        for part in bytes.chunks(SHEET_BYTES) {
            self.push(Call::Bytes(Cow::Owned(part.to_vec())));
        }
    }

    /// Few bytes as [`Self::bytes`] has them, many in one call.
    pub fn stretch(&mut self, bytes: &[u8]) {
        if bytes.len() <= FEW_BYTES {
            return self.bytes(bytes);
        }
        self.offset += bytes.len() as u32;
        self.push(Call::Bytes(Cow::Owned(bytes.to_vec())));
    }

    pub fn zeros(&mut self, count: u32) {
        const ZEROS: [u8; SHEET_BYTES] = [0; SHEET_BYTES];
        self.offset += count;
        let mut left = count as usize;
        while left > 0 {
            let part = left.min(SHEET_BYTES);
            self.push(Call::Bytes(Cow::Borrowed(&ZEROS[..part])));
            left -= part;
        }
    }

    pub fn label(&mut self) -> u32 {
        self.push(Call::NewLabel);
        self.bound.push(false);
        self.bound.len() as u32 - 1
    }

    pub fn labels(&self) -> u32 {
        self.bound.len() as u32
    }

    /// The first label that is not bound, if there is one.
    pub fn unbound_label(&self) -> Option<u32> {
        let unbound = self.bound.iter().position(|bound| !bound);
        unbound.map(|label| label as u32)
    }

    pub fn bind(&mut self, label: u32) {
        self.push(Call::Bind(label));
        if let Some(bound) = self.bound.get_mut(label as usize) {
            *bound = true;
        }
    }

    /// A new label, bound here.
    pub fn here(&mut self) -> u32 {
        let label = self.label();
        self.bind(label);
        label
    }

    pub fn align(&mut self, multiple: u32) {
        self.align_within(multiple, 0);
    }

    /// By a sheet's call with a second word, whose 0 is the default.
    pub fn align_within(&mut self, multiple: u32, most: u32) {
        self.push(Call::Align { multiple, most });
        self.spend(multiple, in_sheet(most));
    }

    /// By a direct call, which takes any ceiling.
    pub fn align_directly(&mut self, multiple: u32, most: u32) {
        self.direct.push(self.calls.len());
        self.push(Call::Align { multiple, most });
        self.spend(multiple, most);
    }

    fn spend(&mut self, multiple: u32, most: u32) {
        if multiple.is_power_of_two() && multiple <= 4096 {
            self.offset += spent(self.offset, multiple, most);
        }
    }

    /// The least padding that reaches a multiple here.
    pub fn needed(&self, multiple: u32) -> u32 {
        needed(self.offset, multiple)
    }

    /// Bytes, and the jump that they are.
    pub fn jump(&mut self, label: u32, length: u32, condition: u32) {
        const BYTES: [u8; 15] = [0xCC; 15];
        let start = self.offset;
        self.bytes(&BYTES[..length as usize]);
        self.push(Call::Jump {
            start,
            length,
            label,
            condition,
        });
    }

    pub fn use_at(&mut self, offset: u32, label: u32, code: u32) {
        self.push(Call::Use {
            offset,
            label,
            code,
        });
    }

    pub fn ref_at(&mut self, offset: u32, label: u32, code: u32, addend: i32) {
        self.push(Call::Ref {
            offset,
            label,
            code,
            addend,
        });
    }

    pub fn constant(&mut self, bytes: Vec<u8>) -> u32 {
        self.push(Call::Constant(Cow::Owned(bytes)));
        self.asked.push(false);
        self.asked.len() as u32 - 1
    }

    pub fn constants(&self) -> u32 {
        self.asked.len() as u32
    }

    /// Asks for a constant's label; the first asking makes one.
    pub fn ask(&mut self, constant: u32) {
        self.push(Call::ConstantLabel(constant));
        let first = self.asked.get_mut(constant as usize);
        if first.is_some_and(|asked| !std::mem::replace(asked, true)) {
            // Finish binds it.
            self.bound.push(true);
        }
    }

    pub fn relocation(&mut self, offset: u32, kind: u32, target: u32, addend: i32) {
        self.push(Call::Relocation {
            offset,
            kind,
            target,
            addend: addend.into(),
        });
    }

    /// Binds the labels that are not bound yet, each with some chance.
    pub fn bind_rest(&mut self, random: &mut Random, percent: u32) {
        for label in 0..self.labels() {
            if !self.bound[label as usize] && random.chance(percent) {
                self.bind(label);
            }
        }
    }

    /// An unfit number is to be drawn.
    pub fn strays(&self, random: &mut Random, percent: u32) -> bool {
        !self.careful && random.chance(percent)
    }

    /// A code of the architecture, or now and then any.
    pub fn field_code(&self, random: &mut Random) -> u32 {
        if self.strays(random, 2) {
            return random.below(17);
        }
        if self.arch == AARCH64 {
            random.pick(&[9, 10, 11, 12, 13, 14, 16])
        } else {
            random.below(2)
        }
    }

    /// A kind of relocation of the architecture, or now and then any.
    pub fn reloc_kind(&self, random: &mut Random) -> u32 {
        if self.strays(random, 2) {
            return random.below(28);
        }
        if self.arch == AARCH64 {
            random.pick(&[0, 1, 8, 11, 14, 19, 21])
        } else {
            random.pick(&[0, 1, 2, 3, 6, 9, 10])
        }
    }

    /// A label that was made, one of the last in half of the cases, or now and then any number.
    pub fn any_label(&mut self, random: &mut Random) -> u32 {
        if self.labels() == 0 {
            return self.label();
        }
        if self.strays(random, 1) {
            return random.pick(&[self.labels(), u32::MAX, 0x8000_0000]);
        }
        if random.chance(50) {
            let last = self.labels().min(4);
            return self.labels() - 1 - random.below(last);
        }
        random.below(self.labels())
    }

    /// A symbol, or a label with its mark.
    pub fn reloc_target(&mut self, random: &mut Random) -> u32 {
        if self.symbols > 0 && random.chance(50) {
            let unknown = u32::from(self.strays(random, 5));
            return random.below(self.symbols + unknown);
        }
        self.any_label(random).wrapping_add(LABEL_TARGET)
    }

    /// Sheets that make the calls, direct calls between them for bytes, constants and alignments that no sheet carries, and a finish.
    pub fn into_steps(self) -> Vec<Step> {
        let mut steps = Vec::new();
        for (place, call) in self.calls.into_iter().enumerate() {
            match (call, steps.last_mut()) {
                (Call::Align { multiple, most }, _) if self.direct.contains(&place) => {
                    steps.push(Step::Align { multiple, most });
                }
                (Call::Constant(bytes), _) if bytes.len() > SHEET_BYTES => {
                    steps.push(Step::Constant(bytes.into_owned()));
                }
                (Call::Bytes(bytes), _) if bytes.len() > SHEET_BYTES => {
                    steps.push(Step::Bytes(bytes.into_owned()));
                }
                (call, Some(Step::Sheet(calls))) => calls.push(call),
                (call, _) => steps.push(Step::Sheet(vec![call])),
            }
        }
        steps.push(Step::Finish);
        steps
    }

    /// Whether jumps and refs are kept.
    pub fn keeps_events(&self) -> bool {
        self.arch == X64
    }
}
