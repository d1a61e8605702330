//! Events: what finish may resize. What every event has is asked by methods here, so that a further kind is added here. Elsewhere kinds are told
//! apart only where they are worded or drawn differently. After asmkit's core/relax.rs (see NOTICE).

use crate::recording::Label;
use crate::sheet::most_padding;
use crate::{Arch, Call, CodeOffset, Condition, DEFAULT_MOST, Padding, Reach};

/// The kind of a jump in the table of events.
const JUMP_KIND: u32 = 1;

/// A `jmp` or `jcc` whose size relaxation may change.
#[derive(Clone, Copy, Debug, PartialEq, Eq)]
pub struct RelaxableJump {
    /// Offset of the opcode.
    pub start: CodeOffset,
    /// Bytes recorded for it.
    pub len: u8,
    /// Where it goes.
    pub label: Label,
    /// The condition of a `jcc`, or `None` for `jmp`.
    pub cc: Option<Condition>,
}

impl RelaxableJump {
    /// Length of the short form: opcode and rel8.
    pub const SHORT_LEN: u32 = 2;

    /// What the short form reaches: a signed byte from its end.
    const SHORT_REACH: Reach = Reach {
        bias: Self::SHORT_LEN as i64,
        least: i8::MIN as i64,
        most: i8::MAX as i64,
        multiple: 1,
    };

    /// Length of the long form: `E9 rel32` or `0F 8x rel32`.
    #[must_use]
    pub const fn long_len(&self) -> u32 {
        if self.cc.is_some() { 6 } else { 5 }
    }

    /// The instruction's name: `jmp`, or `j` and the condition.
    #[must_use]
    pub fn mnemonic(&self) -> String {
        match self.cc {
            Some(cc) => format!("j{cc}"),
            None => "jmp".into(),
        }
    }
}

/// The padding of an alignment.
#[derive(Clone, Copy, Debug, PartialEq, Eq)]
pub struct Alignment {
    /// Where the padding was recorded.
    pub start: CodeOffset,
    /// Its length as recorded.
    pub len: CodeOffset,
    /// The multiple that it reaches, where it is not skipped.
    pub align: CodeOffset,
    /// The most bytes that it may spend.
    pub most: u32,
}

impl Alignment {
    /// An alignment as it is recorded at an offset.
    pub(crate) fn recorded(start: CodeOffset, align: CodeOffset, most: u32) -> Self {
        Self {
            start,
            len: Padding::at(start.into(), align, most).spent(),
            align,
            most,
        }
    }

    /// What it comes to at an offset.
    #[must_use]
    pub const fn padding_at(&self, offset: CodeOffset) -> Padding {
        Padding::at(offset as u64, self.align, self.most)
    }

    /// Whether it is skipped at some offset: it may spend less than its multiple needs there.
    pub(crate) const fn has_ceiling(&self) -> bool {
        self.most < self.align - 1
    }

    /// As a text has it: `align 16`, or `align 16 5` where it may spend no more than 5 bytes.
    #[must_use]
    pub fn mnemonic(&self) -> String {
        match self.most {
            DEFAULT_MOST => format!("align {}", self.align),
            most => format!("align {} {most}", self.align),
        }
    }
}

/// What finish may resize.
#[derive(Clone, Copy, Debug, PartialEq, Eq)]
#[non_exhaustive]
pub enum LayoutEvent {
    /// A jump.
    Jump(RelaxableJump),
    /// The padding of an alignment.
    Align(Alignment),
}

/// What an event is in a layout.
#[derive(Clone, Copy, Debug, PartialEq, Eq)]
pub(crate) enum Form {
    Short,
    Long,
    Padding,
}

impl LayoutEvent {
    /// An event from the words of its entry.
    pub(crate) fn from_words([kind, start, len, what, how]: [u32; 5]) -> Self {
        if kind == JUMP_KIND {
            Self::Jump(RelaxableJump {
                start,
                len: u8::try_from(len).expect("recorded jumps have at most 15 bytes"),
                label: Label::from_id(what),
                cc: Condition::from_number(how),
            })
        } else {
            Self::Align(Alignment {
                start,
                len,
                align: what,
                most: how,
            })
        }
    }

    /// Whether finish lays the code out anew where an entry of this kind stands.
    pub(crate) const fn is_relaxed_kind(kind: u32) -> bool {
        kind == JUMP_KIND
    }

    /// Whether finish lays the code out anew where this event stands.
    pub(crate) const fn is_relaxed(&self) -> bool {
        matches!(self, Self::Jump(_))
    }

    /// Whether a call makes an event of a [`FinishedRecording`](crate::FinishedRecording): an alignment on every architecture, a jump on X64.
    #[must_use]
    pub const fn is_made_by(call: &Call, arch: Arch) -> bool {
        match call {
            Call::Jump { .. } => arch.tracks_layout(),
            Call::Align { .. } => true,
            _ => false,
        }
    }

    /// Where the event was recorded.
    #[must_use]
    pub const fn start(&self) -> CodeOffset {
        match self {
            Self::Jump(jump) => jump.start,
            Self::Align(alignment) => alignment.start,
        }
    }

    /// Its length as recorded.
    #[must_use]
    pub const fn recorded_len(&self) -> u32 {
        match self {
            Self::Jump(jump) => jump.len as u32,
            Self::Align(alignment) => alignment.len,
        }
    }

    /// The end of the event as recorded.
    #[must_use]
    pub const fn end(&self) -> CodeOffset {
        self.start() + self.recorded_len()
    }

    /// Its length in a layout that starts it at an offset, long or not; `long` says nothing of padding.
    #[must_use]
    pub const fn len_at(&self, start: CodeOffset, long: bool) -> u32 {
        match self {
            Self::Jump(jump) if long => jump.long_len(),
            Self::Jump(_) => RelaxableJump::SHORT_LEN,
            Self::Align(alignment) => alignment.padding_at(start).spent(),
        }
    }

    /// The most bytes that it has in any layout.
    pub(crate) fn most_len(&self) -> usize {
        match self {
            Self::Jump(jump) => jump.long_len() as usize,
            Self::Align(alignment) => most_padding(alignment.align, alignment.most),
        }
    }

    /// What it is in a layout that gives it so many bytes.
    pub(crate) const fn form(&self, len: u32) -> Form {
        match self {
            Self::Jump(_) if len > RelaxableJump::SHORT_LEN => Form::Long,
            Self::Jump(_) => Form::Short,
            Self::Align(_) => Form::Padding,
        }
    }

    /// The label that it goes to; padding has none.
    #[must_use]
    pub const fn label(&self) -> Option<Label> {
        match self {
            Self::Jump(jump) => Some(jump.label),
            Self::Align(_) => None,
        }
    }

    /// Which distances from its start to its label the short form reaches; padding has no label.
    #[must_use]
    pub const fn reach(&self) -> Option<Reach> {
        match self {
            Self::Jump(_) => Some(RelaxableJump::SHORT_REACH),
            Self::Align(_) => None,
        }
    }

    /// The alignment, if it is one.
    #[must_use]
    pub const fn alignment(&self) -> Option<&Alignment> {
        match self {
            Self::Jump(_) => None,
            Self::Align(alignment) => Some(alignment),
        }
    }

    /// What it is called: `jump`, `alignment`.
    #[must_use]
    pub const fn noun(&self) -> &'static str {
        match self {
            Self::Jump(_) => "jump",
            Self::Align(_) => "alignment",
        }
    }

    /// As a message names it: `the jump`, `the alignment to 16`.
    #[must_use]
    pub fn name(&self) -> String {
        let noun = self.noun();
        match self.alignment() {
            Some(alignment) => format!("the {noun} to {}", alignment.align),
            None => format!("the {noun}"),
        }
    }

    /// As an assembler writes it: `jne`, `align 16`.
    #[must_use]
    pub fn mnemonic(&self) -> String {
        match self {
            Self::Jump(jump) => jump.mnemonic(),
            Self::Align(alignment) => alignment.mnemonic(),
        }
    }
}

#[cfg(test)]
mod tests {
    use super::*;

    #[test]
    fn a_jump_has_two_lengths_and_a_reach_from_its_end() {
        let jump = LayoutEvent::from_words([1, 7, 6, 3, 5]);
        assert_eq!((jump.start(), jump.recorded_len(), jump.end()), (7, 6, 13));
        assert_eq!((jump.len_at(9, false), jump.len_at(9, true)), (2, 6));
        assert_eq!((jump.form(2), jump.form(6)), (Form::Short, Form::Long));
        assert_eq!(jump.most_len(), 6);
        assert_eq!(jump.label(), Some(Label::from_id(3)));
        let reach = jump.reach().unwrap();
        let ends = [-127, -126, 129, 130].map(|from_start| reach.holds(from_start));
        assert_eq!(ends, [false, true, true, false]);
        assert_eq!(
            (jump.name(), jump.mnemonic()),
            ("the jump".into(), "jne".into())
        );
        let always = LayoutEvent::from_words([1, 0, 5, 0, 16]);
        assert_eq!(
            (always.len_at(0, true), always.mnemonic()),
            (5, "jmp".into())
        );
        assert!(jump.is_relaxed() && LayoutEvent::is_relaxed_kind(1));
    }

    #[test]
    fn an_alignment_has_what_it_comes_to_where_it_stands() {
        let align = LayoutEvent::from_words([2, 5, 3, 8, 4]);
        assert_eq!(
            (align.start(), align.recorded_len(), align.end()),
            (5, 3, 8)
        );
        let lengths = [4, 3, 8].map(|start| align.len_at(start, true));
        assert_eq!(lengths, [4, 0, 0]);
        assert_eq!((align.form(4), align.most_len()), (Form::Padding, 4));
        assert_eq!((align.label(), align.reach()), (None, None));
        assert!(align.alignment().unwrap().has_ceiling());
        assert!(
            !LayoutEvent::from_words([2, 5, 3, 8, 7])
                .alignment()
                .unwrap()
                .has_ceiling()
        );
        let words = (align.name(), align.mnemonic());
        assert_eq!(words, ("the alignment to 8".into(), "align 8 4".into()));
        assert!(!align.is_relaxed() && !LayoutEvent::is_relaxed_kind(2));
    }
}
