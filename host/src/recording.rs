//! A recording as typed entries, to be shown and explained. Types after asmkit's core/buffer.rs (see NOTICE).

use std::collections::BTreeMap;

use sheet_text::shown;

use crate::event::{Alignment, LayoutEvent};
use crate::{Arch, CodeOffset, DEFAULT_MOST, ExternalName, LabelUse, Reloc, UNBOUND};

/// What is added to a label's number where a relocation's target is one word.
const LABEL_TARGET: u32 = 1 << 31;

/// A label, by its number.
#[derive(Clone, Copy, Debug, PartialEq, Eq, PartialOrd, Ord, Hash)]
pub struct Label(u32);

impl Label {
    /// The label of a number.
    #[must_use]
    pub const fn from_id(id: u32) -> Self {
        Self(id)
    }

    /// The label's number.
    #[must_use]
    pub const fn id(self) -> u32 {
        self.0
    }
}

/// The names of labels and symbols, for messages, listings, objects and joins.
#[derive(Clone, Debug, Default, PartialEq, Eq)]
pub struct Names(BTreeMap<RelocTarget, String>);

impl Names {
    /// Gives a label or symbol a name, or another one.
    pub fn insert(&mut self, target: impl Into<RelocTarget>, name: &str) {
        self.0.insert(target.into(), name.into());
    }

    /// The name of a label or symbol, if it has one.
    #[must_use]
    pub fn get(&self, target: impl Into<RelocTarget>) -> Option<&str> {
        self.0.get(&target.into()).map(String::as_str)
    }

    /// A label or symbol as messages have it: `label end`, or `label 0` where it has no name.
    #[must_use]
    pub fn text(&self, target: impl Into<RelocTarget>) -> String {
        let target = target.into();
        match self.get(target) {
            Some(name) => format!("{} {}", target.noun(), shown(name)),
            None => target.to_string(),
        }
    }

    /// What joined pieces share a symbol by: its name, if it has one, else its number.
    #[must_use]
    pub fn external_name(&self, symbol: Sym) -> ExternalName {
        match self.get(symbol) {
            Some(name) => name.into(),
            None => ExternalName::Number(symbol.id()),
        }
    }

    /// The same of a symbol that is given by number or name.
    pub(crate) fn external(&self, symbol: &ExternalName) -> ExternalName {
        match symbol {
            ExternalName::Number(number) => self.external_name(Sym::from_id(*number)),
            ExternalName::Name(_) => symbol.clone(),
        }
    }

    /// Whether a label's name stays within its piece and its object.
    pub(crate) fn is_local(name: &str) -> bool {
        name.starts_with('.')
    }

    /// The labels that have names, by rising number.
    pub fn labels(&self) -> impl Iterator<Item = (Label, &str)> {
        self.0.iter().filter_map(|(target, name)| match target {
            RelocTarget::Label(label) => Some((*label, name.as_str())),
            RelocTarget::Sym(_) => None,
        })
    }
}

/// A symbol, by its number.
#[derive(Clone, Copy, Debug, PartialEq, Eq, PartialOrd, Ord, Hash)]
pub struct Sym(u32);

impl Sym {
    /// The symbol of a number.
    #[must_use]
    pub const fn from_id(id: u32) -> Self {
        Self(id)
    }

    /// The symbol's number.
    #[must_use]
    pub const fn id(self) -> u32 {
        self.0
    }
}

impl From<Sym> for ExternalName {
    fn from(symbol: Sym) -> Self {
        Self::Number(symbol.id())
    }
}

/// A constant, by its number.
#[derive(Clone, Copy, Debug, PartialEq, Eq, PartialOrd, Ord, Hash)]
pub struct Constant(u32);

impl Constant {
    /// The constant of a number.
    #[must_use]
    pub const fn from_id(id: u32) -> Self {
        Self(id)
    }

    /// The constant's number.
    #[must_use]
    pub const fn id(self) -> u32 {
        self.0
    }
}

/// What a relocation is about.
#[derive(Clone, Copy, Debug, PartialEq, Eq, PartialOrd, Ord, Hash)]
pub enum RelocTarget {
    /// A symbol.
    Sym(Sym),
    /// A label.
    Label(Label),
}

impl RelocTarget {
    /// The target in one word, as sheets and tables have it: a symbol, or a label plus 2^31. Numbers from 2^31 on have no word of their own; they
    /// become that of the last label, which no recording can know, so that the call is refused as it should be.
    #[must_use]
    pub const fn to_word(self) -> u32 {
        match self {
            Self::Sym(Sym(id)) if id < LABEL_TARGET => id,
            Self::Label(Label(id)) if id < LABEL_TARGET => id + LABEL_TARGET,
            _ => u32::MAX,
        }
    }

    /// The target that a word names.
    #[must_use]
    pub const fn from_word(word: u32) -> Self {
        match word.checked_sub(LABEL_TARGET) {
            Some(label) => Self::Label(Label(label)),
            None => Self::Sym(Sym(word)),
        }
    }

    /// The symbol, if it is one.
    pub(crate) const fn symbol(self) -> Option<Sym> {
        match self {
            Self::Sym(symbol) => Some(symbol),
            Self::Label(_) => None,
        }
    }

    const fn noun(self) -> &'static str {
        match self {
            Self::Sym(_) => "symbol",
            Self::Label(_) => "label",
        }
    }
}

impl From<Sym> for RelocTarget {
    fn from(symbol: Sym) -> Self {
        Self::Sym(symbol)
    }
}

impl From<Label> for RelocTarget {
    fn from(label: Label) -> Self {
        Self::Label(label)
    }
}

impl std::fmt::Display for RelocTarget {
    fn fmt(&self, f: &mut std::fmt::Formatter<'_>) -> std::fmt::Result {
        let (Self::Sym(Sym(id)) | Self::Label(Label(id))) = self;
        write!(f, "{} {id}", self.noun())
    }
}

/// A use of a label: patched by a finish without a jump, dropped by one with.
#[derive(Clone, Copy, Debug, PartialEq, Eq)]
pub struct AsmFixup {
    /// Where the field starts.
    pub offset: CodeOffset,
    /// What it refers to.
    pub label: Label,
    /// How it holds that.
    pub kind: LabelUse,
}

/// A label-relative field that a finish with a jump encodes.
#[derive(Clone, Copy, Debug, PartialEq, Eq)]
pub struct LabelRef {
    /// Where the field starts.
    pub offset: CodeOffset,
    /// What it refers to.
    pub label: Label,
    /// How it holds that.
    pub kind: LabelUse,
    /// What is added to the label's offset.
    pub addend: i32,
}

/// A relocation.
#[derive(Clone, Copy, Debug, PartialEq, Eq, Hash)]
pub struct AsmReloc {
    /// Where it applies.
    pub offset: CodeOffset,
    /// How it applies.
    pub kind: Reloc,
    /// What is added to the target.
    pub addend: i64,
    /// What it is about.
    pub target: RelocTarget,
}

/// A constant.
#[derive(Clone, Debug, PartialEq, Eq)]
pub struct AsmConstant {
    /// Its bytes.
    pub data: Vec<u8>,
    /// Its label, if that was asked for.
    pub label: Option<Label>,
}

impl AsmConstant {
    /// The multiple that finish sets a constant on: 8 up to 8 bytes, 16 up to 32, and 64 up to 64, for the widest vectors. So a vector of 32 bytes is
    /// to be loaded as one that need not be aligned.
    #[must_use]
    pub const fn alignment(&self) -> u32 {
        constant_alignment(self.data.len())
    }
}

/// The multiple that a constant of a size stands on.
pub(crate) const fn constant_alignment(size: usize) -> u32 {
    match size {
        0..=8 => 8,
        9..=32 => 16,
        _ => 64,
    }
}

/// What a recording holds at some time, but for its bytes.
#[derive(Clone, Debug, PartialEq, Eq)]
#[non_exhaustive]
pub struct Recording {
    /// The architecture.
    pub arch: Arch,
    /// Bytes of code.
    pub code_len: u32,
    /// The offset of each label, or [`UNBOUND`].
    pub labels: Vec<CodeOffset>,
    /// Jumps and alignments; kept on X64 only.
    pub events: Vec<LayoutEvent>,
    /// Uses of labels.
    pub uses: Vec<AsmFixup>,
    /// Refs; kept on X64 only.
    pub refs: Vec<LabelRef>,
    /// Constants, asked for or not.
    pub constants: Vec<AsmConstant>,
    /// The constants whose labels were asked for, in order.
    pub asked: Vec<Constant>,
    /// Relocations.
    pub relocs: Vec<AsmReloc>,
    /// How many uses, refs, jumps and relocations name a label that is not bound.
    pub open: u32,
    /// The labels and symbols that have names.
    pub names: Names,
}

impl Recording {
    /// Whether finish has jumps to relax.
    #[must_use]
    pub fn has_jump(&self) -> bool {
        self.events.iter().any(LayoutEvent::is_relaxed)
    }

    /// The events that go to a label, in the order of recording.
    pub fn jumps(&self) -> impl Iterator<Item = &LayoutEvent> {
        let events = self.events.iter();
        events.filter(|event| event.label().is_some())
    }

    /// The recording as finish lays it out: constants pooled after the code, in the order of asking.
    ///
    /// # Panics
    ///
    /// May panic if its entries were changed since it was taken from a buffer.
    #[must_use]
    pub fn pooled(&self) -> Pooled {
        let mut pooled = Pooled {
            events: self.events.clone(),
            labels: self.labels.clone(),
            constants: Vec::with_capacity(self.asked.len()),
            len: self.code_len,
        };
        for &number in &self.asked {
            pooled.place(number, &self.constants[number.id() as usize]);
        }
        pooled
    }
}

/// A constant in its place behind the code.
#[derive(Clone, Copy, Debug, PartialEq, Eq)]
#[non_exhaustive]
pub struct PooledConstant {
    /// Which constant.
    pub constant: Constant,
    /// Its label.
    pub label: Label,
    /// Where it stands before jumps are relaxed.
    pub offset: CodeOffset,
    /// Its bytes.
    pub size: u32,
}

/// A recording with its constants pooled, before jumps are relaxed.
#[derive(Clone, Debug, PartialEq, Eq)]
#[non_exhaustive]
pub struct Pooled {
    /// The recording's events, then the alignment of each pooled constant.
    pub events: Vec<LayoutEvent>,
    /// The offset of each label, those of the pool bound.
    pub labels: Vec<CodeOffset>,
    /// The constants, in the order of asking.
    pub constants: Vec<PooledConstant>,
    /// Bytes of code and pool.
    pub len: u32,
}

impl Pooled {
    /// The constant that an event, by its index, is the alignment of; none of a recorded event.
    #[must_use]
    pub fn owner(&self, event: usize) -> Option<Constant> {
        let recorded = self.events.len() - self.constants.len();
        let pooled = self.constants.get(event.checked_sub(recorded)?)?;
        Some(pooled.constant)
    }

    /// An event, by its index, as a message names it: `the jump`, `the alignment to 16`, `the alignment to 64 for constant 0`.
    ///
    /// # Panics
    ///
    /// Panics if there is no such event.
    #[must_use]
    pub fn event_name(&self, event: usize) -> String {
        let name = self.events[event].name();
        match self.owner(event) {
            Some(constant) => format!("{name} for constant {}", constant.id()),
            None => name,
        }
    }

    fn place(&mut self, constant: Constant, entry: &AsmConstant) {
        let align = Alignment::recorded(self.len, entry.alignment(), DEFAULT_MOST);
        let offset = self.len + align.len;
        let size = entry.data.len() as u32;
        let label = entry
            .label
            .expect("a constant that was asked for has a label");
        self.events.push(LayoutEvent::Align(align));
        let bound = &mut self.labels[label.id() as usize];
        if *bound == UNBOUND {
            *bound = offset;
        }
        self.constants.push(PooledConstant {
            constant,
            label,
            offset,
            size,
        });
        self.len = offset + size;
    }
}

#[cfg(test)]
mod tests {
    use super::*;

    #[test]
    fn targets_keep_apart_symbols_and_labels() {
        for target in [
            RelocTarget::Sym(Sym::from_id(0)),
            RelocTarget::Sym(Sym::from_id(LABEL_TARGET - 1)),
            RelocTarget::Label(Label::from_id(7)),
        ] {
            assert_eq!(RelocTarget::from_word(target.to_word()), target);
        }
    }

    #[test]
    fn targets_without_a_word_become_a_label_that_is_never_known() {
        let label = RelocTarget::Label(Label::from_id(LABEL_TARGET));
        let symbol = RelocTarget::Sym(Sym::from_id(LABEL_TARGET));
        assert_eq!(label.to_word(), u32::MAX);
        assert_eq!(symbol.to_word(), u32::MAX);
    }

    #[test]
    fn pools_in_the_order_of_asking() {
        let constant = |size, label| AsmConstant {
            data: vec![0; size],
            label: Some(Label::from_id(label)),
        };
        let recording = Recording {
            arch: Arch::X64,
            code_len: 3,
            labels: vec![UNBOUND; 3],
            events: Vec::new(),
            uses: Vec::new(),
            refs: Vec::new(),
            constants: vec![constant(4, 1), constant(33, 2), constant(9, 0)],
            asked: [2, 0, 1].map(Constant::from_id).into(),
            relocs: Vec::new(),
            open: 0,
            names: Names::default(),
        };
        let pooled = recording.pooled();
        assert_eq!(pooled.labels, [16, 32, 64]);
        assert_eq!(pooled.len, 64 + 33);
        assert_eq!(pooled.events[0].end(), 16);
        assert_eq!(pooled.events[1].start(), 25);
        assert_eq!(pooled.events[2].start(), 36);
        assert_eq!(pooled.owner(2), Some(Constant::from_id(1)));
        assert_eq!(pooled.event_name(2), "the alignment to 64 for constant 1");
    }
}
