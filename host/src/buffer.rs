//! The buffer: a recording that owns its tables. After asmkit's core/buffer.rs (see NOTICE).

use std::fmt;
use std::ops::Range;

use crate::call::{appended, one_call_sheet, words_of};
use crate::contents::Contents;
use crate::event::{Alignment, LayoutEvent, RelaxableJump};
use crate::explain::{explain_call, explain_finish};
use crate::ffi::Segment;
use crate::finalized::CodeBufferFinalized;
use crate::finished_recording::FinishedRecording;
use crate::queue::Queue;
use crate::recording::{
    AsmFixup, AsmReloc, Constant, Label, Recording, RelocTarget, Sym, constant_alignment,
};
use crate::sheet::{Sheet, extended};
use crate::tables::{Counts, TableName, Tables};
use crate::unpatched::{unasked_constants, unpatched};
use crate::verified::{self, Record};
use crate::{
    Arch, Call, CodeOffset, Condition, Error, ExternalName, LabelUse, MOST_CODE, MOST_ENTRIES,
    Place, Reloc,
};
use sheet_text::{long_jump, most_of_word};

/// A buffer of code to be produced: bytes, labels, fields, alignments, constants, relocations and jumps, recorded call by call and then finished.
///
/// Labels are numbered from 0 in the order of making, and so are constants; a constant's label takes the next number among the labels when it is first
/// asked for. Tables grow before a call could find one full, up to [`MOST_ENTRIES`] entries each and [`MOST_CODE`] bytes of code.
///
/// Calls that are certain to be accepted are queued, and made together by one call of the verified library: when some thousands wait, when a call is not
/// certain, and before anything is shown that depends on them. Nothing of this can be seen but the time that calls take.
///
/// A refused call changes nothing but, for some numbers, that the recording answers every later call with the same refusal. A refused finish changes
/// nothing at all.
///
/// ```
/// use wargnifla::{Arch, CodeBuffer, Condition};
///
/// # fn main() -> Result<(), wargnifla::Error> {
/// let mut buffer = CodeBuffer::new(Arch::X64);
/// let again = buffer.get_label()?;
/// buffer.try_bind_label(again)?;
/// buffer.put_bytes(&[0xFF, 0xC9])?; // dec ecx
/// buffer.put_jump(again, Some(Condition::Ne))?;
/// let code = buffer.finish()?;
/// assert_eq!(code.data(), [0xFF, 0xC9, 0x75, 0xFC]);
/// # Ok(())
/// # }
/// ```
///
/// A clone is a recording of its own, and takes as long as its tables take to copy. So a state can be kept, or finished early:
///
/// ```
/// use wargnifla::{Arch, CodeBuffer};
///
/// # fn main() -> Result<(), wargnifla::Error> {
/// let mut buffer = CodeBuffer::new(Arch::X64);
/// buffer.put1(0x90)?;
/// assert_eq!(buffer.clone().finish()?.data(), [0x90]);
/// buffer.put1(0xC3)?;
/// assert_eq!(buffer.finish()?.data(), [0x90, 0xC3]);
/// # Ok(())
/// # }
/// ```
#[derive(Clone)]
pub struct CodeBuffer {
    queue: Queue,
    /// What the recorded refusal said, if there is one.
    first_refusal: Option<Error>,
    /// The jumps and refs that were accepted unread, which no table keeps.
    unread: Vec<Call>,
    /// The alignments, where the table of events keeps none.
    alignments: Vec<Alignment>,
    /// The symbols that labels define.
    definitions: Vec<(ExternalName, Label)>,
}

impl CodeBuffer {
    /// Starts a recording without symbols.
    #[inline]
    #[must_use]
    pub fn new(arch: Arch) -> Self {
        Self::with_symbols(arch, 0)
    }

    /// Starts a recording whose relocations may name the symbols below a number.
    #[inline]
    #[must_use]
    pub fn with_symbols(arch: Arch, symbols: u32) -> Self {
        Self {
            queue: Queue::new(arch, symbols),
            first_refusal: None,
            unread: Vec::new(),
            alignments: Vec::new(),
            definitions: Vec::new(),
        }
    }

    /// Starts a recording for an architecture given by number.
    ///
    /// # Errors
    ///
    /// Number 2, where it is none of [`Arch`].
    pub fn start(arch: u32, symbols: u32) -> Result<Self, Error> {
        let known = Arch::try_from(arch).map(|arch| Self::with_symbols(arch, symbols));
        known.map_err(|unknown| {
            let mut counts = Counts::ZERO;
            let number = verified::start(&mut counts, arch, symbols);
            Error::new(number, Place::Start, unknown.to_string())
        })
    }

    /// The architecture.
    #[must_use]
    pub fn arch(&self) -> Arch {
        self.queue.arch()
    }

    /// The refusal that this recording answers every call with, if one was recorded.
    ///
    /// ```
    /// use wargnifla::{Arch, CodeBuffer, Refusal};
    ///
    /// let mut buffer = CodeBuffer::new(Arch::X64);
    /// buffer.add_constant(&[0; 65]).unwrap_err();
    /// assert_eq!(buffer.error().unwrap().refusal(), Refusal::BadEntry);
    /// assert_eq!(buffer.put1(0).unwrap_err().refusal(), Refusal::BadEntry);
    /// ```
    #[must_use]
    pub fn error(&self) -> Option<&Error> {
        self.first_refusal.as_ref()
    }

    /// Whether the recording has finished.
    #[must_use]
    pub fn is_finished(&self) -> bool {
        self.tables().counts.is_finished()
    }

    /// The bytes recorded so far.
    #[must_use]
    pub fn data(&self) -> &[u8] {
        self.tables().code()
    }

    /// Where the next byte goes.
    #[must_use]
    pub fn cur_offset(&self) -> CodeOffset {
        self.queue.code_len()
    }

    /// The relocations recorded so far; after finish, with their final offsets.
    #[must_use]
    pub fn relocs(&self) -> Vec<AsmReloc> {
        self.tables().relocs().collect()
    }

    /// Everything recorded so far but the bytes, as typed entries. After finish, labels and relocations have their final offsets.
    #[must_use]
    pub fn recording(&self) -> Recording {
        self.tables().recording()
    }

    /// How many label uses, refs, jumps and relocations against labels name a label that is not bound. It is kept by the recording, call by call;
    /// after finish it is 0. What X86 and AArch64 accept unread is not kept and not counted.
    ///
    /// The label of a constant is bound by finish, so what names it is open until then:
    ///
    /// ```
    /// use wargnifla::{Arch, CodeBuffer, LabelUse};
    ///
    /// # fn main() -> Result<(), wargnifla::Error> {
    /// let mut buffer = CodeBuffer::new(Arch::X64);
    /// let end = buffer.get_label()?;
    /// let one = buffer.add_constant(&1f64.to_le_bytes())?;
    /// let one = buffer.get_label_for_constant(one)?;
    /// buffer.put_bytes(&[0; 8])?;
    /// buffer.use_label_at_offset(0, end, LabelUse::X86JmpRel32)?;
    /// buffer.use_label_at_offset(4, one, LabelUse::X86JmpRel32)?;
    /// assert_eq!(buffer.open(), 2);
    /// buffer.try_bind_label(end)?;
    /// assert_eq!(buffer.open(), 1);
    /// buffer.finish()?;
    /// assert_eq!(buffer.open(), 0);
    /// # Ok(())
    /// # }
    /// ```
    #[must_use]
    pub fn open(&self) -> u32 {
        self.tables().counts.open()
    }

    /// Appends a byte.
    ///
    /// # Errors
    ///
    /// As [`Self::put_bytes`].
    pub fn put1(&mut self, value: u8) -> Result<(), Error> {
        self.put_bytes(&[value])
    }

    /// Appends 2 bytes, little-endian.
    ///
    /// # Errors
    ///
    /// As [`Self::put_bytes`].
    pub fn put2(&mut self, value: u16) -> Result<(), Error> {
        self.put_bytes(&value.to_le_bytes())
    }

    /// Appends 4 bytes, little-endian.
    ///
    /// # Errors
    ///
    /// As [`Self::put_bytes`].
    pub fn put4(&mut self, value: u32) -> Result<(), Error> {
        self.put_bytes(&value.to_le_bytes())
    }

    /// Appends 8 bytes, little-endian.
    ///
    /// # Errors
    ///
    /// As [`Self::put_bytes`].
    pub fn put8(&mut self, value: u64) -> Result<(), Error> {
        self.put_bytes(&value.to_le_bytes())
    }

    /// Appends bytes, any number of them.
    ///
    /// # Errors
    ///
    /// Number 4 or 12.
    pub fn put_bytes(&mut self, bytes: &[u8]) -> Result<(), Error> {
        self.make(Call::Bytes(bytes))
    }

    /// Makes a label, not yet bound.
    ///
    /// # Errors
    ///
    /// Number 4 or 11.
    pub fn get_label(&mut self) -> Result<Label, Error> {
        let label = Label::from_id(self.label_count());
        self.make(Call::NewLabel)?;
        Ok(label)
    }

    /// Whether a label is known and bound.
    #[must_use]
    pub fn is_bound(&self, label: Label) -> bool {
        self.label_offset(label).is_some()
    }

    /// Number of labels made so far; label numbers below it are known.
    #[must_use]
    pub fn label_count(&self) -> u32 {
        self.queue.label_count()
    }

    /// The offset of a label, if it is known and bound.
    #[must_use]
    pub fn label_offset(&self, label: Label) -> Option<CodeOffset> {
        self.queue.label_offset(label)
    }

    /// Gives a label a name, for refusals, listings, objects and [`join`](crate::join()); nothing else depends on it.
    pub fn name_label(&mut self, label: Label, name: &str) {
        self.queue.names_mut().insert(label, name);
    }

    /// Gives a symbol a name, likewise.
    ///
    /// ```
    /// use wargnifla::{Arch, CodeBuffer, Reloc, RelocTarget, Sym};
    ///
    /// let mut buffer = CodeBuffer::with_symbols(Arch::X64, 1);
    /// let puts = Sym::from_id(1);
    /// buffer.name_symbol(puts, "puts");
    /// let error = buffer.add_reloc(Reloc::X86CallPLTRel4, RelocTarget::Sym(puts), -4).unwrap_err();
    /// assert_eq!(error.sentence(), "symbol puts is unknown: the recording has 1 symbol");
    /// ```
    pub fn name_symbol(&mut self, symbol: Sym, name: &str) {
        self.queue.names_mut().insert(symbol, name);
    }

    /// Defines a symbol by a label, bound by now or later, for the buffers that this one is [joined](crate::join()) with and for objects. The symbol
    /// is given by its name, which need not be that of a symbol here, or by its number. Nothing is recorded: a label that is unknown or never bound,
    /// and a symbol that is defined twice, are for the join to refuse.
    ///
    /// ```
    /// use wargnifla::{Arch, CodeBuffer};
    ///
    /// # fn main() -> Result<(), wargnifla::Error> {
    /// let mut buffer = CodeBuffer::new(Arch::X64);
    /// let entry = buffer.get_label()?;
    /// buffer.bind_symbol("sort", entry);
    /// buffer.put1(0x90)?;
    /// buffer.try_bind_label(entry)?;
    /// buffer.put1(0xC3)?;
    /// assert_eq!(buffer.finish()?.defined_symbol_offset("sort"), Some(1));
    /// # Ok(())
    /// # }
    /// ```
    pub fn bind_symbol(&mut self, symbol: impl Into<ExternalName>, label: Label) {
        self.definitions.push((symbol.into(), label));
    }

    /// Binds a label to the current offset.
    ///
    /// # Errors
    ///
    /// Number 4, 8 or 9; none of them is recorded.
    pub fn try_bind_label(&mut self, label: Label) -> Result<(), Error> {
        self.make(Call::Bind(label.id()))
    }

    /// Pads to a multiple, a power of two up to 4,096: with NOPs on x86, with zeros on AArch64.
    ///
    /// ```
    /// use wargnifla::{Arch, CodeBuffer};
    ///
    /// # fn main() -> Result<(), wargnifla::Error> {
    /// let mut buffer = CodeBuffer::new(Arch::X64);
    /// buffer.put1(0xC3)?;
    /// buffer.try_align_to(4)?;
    /// assert_eq!(buffer.data(), [0xC3, 0x0F, 0x1F, 0x00]);
    /// # Ok(())
    /// # }
    /// ```
    ///
    /// # Errors
    ///
    /// Number 4, 5, 11 or 12.
    pub fn try_align_to(&mut self, align_to: CodeOffset) -> Result<(), Error> {
        self.make(Call::align(align_to))
    }

    /// Pads to a multiple as [`Self::try_align_to`] does, but not at all where that takes more than `most` bytes. Finish decides again, by where the
    /// alignment comes to stand: one that is skipped here may be padded there, and the reverse. `most` is any number; with 0 nothing is ever spent,
    /// and with [`DEFAULT_MOST`](crate::DEFAULT_MOST) or more nothing is ever skipped.
    ///
    /// ```
    /// use wargnifla::{Arch, CodeBuffer};
    ///
    /// # fn main() -> Result<(), wargnifla::Error> {
    /// let mut buffer = CodeBuffer::new(Arch::X64);
    /// buffer.put1(0x90)?;
    /// buffer.try_align_to_within(8, 6)?; // 7 are needed
    /// assert_eq!(buffer.cur_offset(), 1);
    /// buffer.try_align_to_within(8, 7)?;
    /// assert_eq!(buffer.cur_offset(), 8);
    /// # Ok(())
    /// # }
    /// ```
    ///
    /// # Errors
    ///
    /// Number 4, 5, 11 or 12.
    pub fn try_align_to_within(&mut self, align_to: CodeOffset, most: u32) -> Result<(), Error> {
        let call = Call::Align {
            multiple: align_to,
            most,
        };
        // In a sheet a `most` of 0 stands for the default.
        if most != 0 {
            return self.make(call);
        }
        let start = self.cur_offset();
        let number = self.queue.make_alone(|tables| {
            let event = usize::from(tables.arch.tracks_layout());
            tables.make_room(TableName::Events, event);
            verified::align(tables, align_to, most)
        });
        if number == 0 {
            self.note_alignment(start, align_to, most);
        }
        self.answer(number, call)
    }

    /// Records a field that a finish without a jump patches; one with a jump leaves it as it is. A field of [`LabelUse::X86JmpRel32`] adds the value
    /// that stands in it.
    ///
    /// ```
    /// use wargnifla::{Arch, CodeBuffer, LabelUse};
    ///
    /// # fn main() -> Result<(), wargnifla::Error> {
    /// let mut buffer = CodeBuffer::new(Arch::AArch64);
    /// let over = buffer.get_label()?;
    /// buffer.use_label_at_offset(0, over, LabelUse::A64Branch26)?;
    /// buffer.put4(0x1400_0000)?; // b over
    /// buffer.put4(0)?;
    /// buffer.try_bind_label(over)?;
    /// assert_eq!(buffer.finish()?.data()[..4], 0x1400_0002u32.to_le_bytes());
    /// # Ok(())
    /// # }
    /// ```
    ///
    /// # Errors
    ///
    /// Number 4, 6, 7, 8 or 11.
    pub fn use_label_at_offset(
        &mut self,
        offset: CodeOffset,
        label: Label,
        kind: LabelUse,
    ) -> Result<(), Error> {
        self.make(Call::Use {
            offset,
            label: label.id(),
            code: kind.code(),
        })
    }

    /// Records a field that a finish with a jump encodes; one without a jump leaves it as it is. What stands in the field does not matter. Accepted
    /// unread unless the architecture is X64; what finish did not write can be asked of its record, [`CodeBufferFinalized::unpatched`].
    ///
    /// Where it is not known whether a jump will stand, a field is recorded as a use and as a ref:
    ///
    /// ```
    /// use wargnifla::{Arch, CodeBuffer, LabelUse};
    ///
    /// # fn main() -> Result<(), wargnifla::Error> {
    /// let mut buffer = CodeBuffer::new(Arch::X64);
    /// let data = buffer.get_label()?;
    /// buffer.put_bytes(&[0x48, 0x8D, 0x05])?; // lea rax, [rip + data + 1]
    /// let field = buffer.cur_offset();
    /// buffer.put4(1)?;
    /// buffer.use_label_at_offset(field, data, LabelUse::X86JmpRel32)?;
    /// buffer.record_label_ref(field, data, LabelUse::X86JmpRel32, 1)?;
    /// buffer.try_bind_label(data)?;
    /// assert_eq!(buffer.finish()?.data()[3..], [1, 0, 0, 0]);
    /// # Ok(())
    /// # }
    /// ```
    ///
    /// # Errors
    ///
    /// Number 4, 7, 8 or 11.
    pub fn record_label_ref(
        &mut self,
        offset: CodeOffset,
        label: Label,
        kind: LabelUse,
        addend: i32,
    ) -> Result<(), Error> {
        self.make(Call::Ref {
            offset,
            label: label.id(),
            code: kind.code(),
            addend,
        })
    }

    /// Records the bytes just appended as a jump that finish may resize; [`Self::put_jump`] appends them, too. Accepted unread unless the
    /// architecture is X64; what finish did not write can be asked of its record, [`CodeBufferFinalized::unpatched`].
    ///
    /// ```
    /// use wargnifla::{Arch, CodeBuffer, Condition, RelaxableJump};
    ///
    /// # fn main() -> Result<(), wargnifla::Error> {
    /// let mut buffer = CodeBuffer::new(Arch::X64);
    /// let here = buffer.get_label()?;
    /// buffer.try_bind_label(here)?;
    /// let start = buffer.cur_offset();
    /// buffer.put_bytes(&[0; 6])?; // room for the jump, whatever stands there
    /// buffer.record_relaxable_jump(RelaxableJump { start, len: 6, label: here, cc: Some(Condition::Ne) })?;
    /// assert_eq!(buffer.finish()?.data(), [0x75, 0xFE]);
    /// # Ok(())
    /// # }
    /// ```
    ///
    /// # Errors
    ///
    /// Number 4, 8, 10 or 11.
    pub fn record_relaxable_jump(&mut self, jump: RelaxableJump) -> Result<(), Error> {
        self.make(Call::Jump {
            start: jump.start,
            length: jump.len.into(),
            label: jump.label.id(),
            condition: jump.cc.map_or(Condition::NONE, Condition::number),
        })
    }

    /// Appends a jump to a label that finish fills: `jmp` without a condition, else `jcc`. On X64 it is recorded as by
    /// [`Self::record_relaxable_jump`], and finish makes it short where it can. On X86 it stays long, and its displacement is a use of
    /// [`LabelUse::X86JmpRel32`]. AArch64 has no such jump and refuses it; [`Self::use_label_at_offset`] shows a branch there.
    ///
    /// A refused jump leaves nothing behind, neither bytes nor a use. As of other calls, the numbers 7, 8, 11 and 12 end the recording.
    ///
    /// ```
    /// use wargnifla::{Arch, CodeBuffer, Condition};
    ///
    /// # fn main() -> Result<(), wargnifla::Error> {
    /// let mut buffer = CodeBuffer::new(Arch::X64);
    /// let (again, end) = (buffer.get_label()?, buffer.get_label()?);
    /// buffer.try_bind_label(again)?;
    /// buffer.put_bytes(&[0xFF, 0xC9])?; // dec ecx
    /// buffer.put_jump(end, Some(Condition::E))?;
    /// buffer.put_jump(again, None)?;
    /// buffer.try_bind_label(end)?;
    /// assert_eq!(buffer.finish()?.data(), [0xFF, 0xC9, 0x74, 2, 0xEB, 0xFA]);
    /// # Ok(())
    /// # }
    /// ```
    ///
    /// # Errors
    ///
    /// Number 4, 8, 11 or 12; on AArch64 number 7 for every jump.
    pub fn put_jump(&mut self, label: Label, cc: Option<Condition>) -> Result<(), Error> {
        let (bytes, fill) = long_jump(self.arch(), self.cur_offset(), label.id(), cc);
        if !self.queue.has_code_room(bytes.len()) {
            return self.put_bytes(bytes);
        }
        if self.arch().tracks_layout() {
            return self.put_relaxable_jump(label, bytes, fill);
        }
        // A use may be recorded before its bytes.
        self.make(fill)?;
        self.put_bytes(bytes)
    }

    /// Appends the bytes of a jump, for which the code has room, and records it. A jump that is to be refused is refused before its bytes stand.
    fn put_relaxable_jump(
        &mut self,
        label: Label,
        bytes: &[u8],
        jump: Call<&[u8]>,
    ) -> Result<(), Error> {
        if label.id() >= self.label_count() {
            // Number 8 comes before the test that the jump ends at the current offset.
            return self.make(jump);
        }
        if !self.queue.has_event_room() {
            // An alignment to 1 takes an event, too, and no bytes.
            let number = self
                .queue
                .make_alone(|tables| verified::align(tables, 1, 0));
            return self.answer(number, jump);
        }
        self.put_bytes(bytes)?;
        self.make(jump)
    }

    /// Adds a constant of at most 64 bytes. It is pooled only if its label is asked for, on a multiple of 8 up to 8 bytes, of 16 up to 32 and of 64
    /// beyond.
    ///
    /// # Errors
    ///
    /// Number 4, 10 or 11.
    pub fn add_constant(&mut self, bytes: &[u8]) -> Result<Constant, Error> {
        let constant = Constant::from_id(self.queue.constant_count());
        self.make(Call::Constant(bytes))?;
        Ok(constant)
    }

    /// The label of a constant, made when it is first asked for and bound by finish.
    ///
    /// ```
    /// use wargnifla::{Arch, CodeBuffer};
    ///
    /// # fn main() -> Result<(), wargnifla::Error> {
    /// let mut buffer = CodeBuffer::new(Arch::X64);
    /// let one = buffer.add_constant(&1f64.to_le_bytes())?;
    /// let one = buffer.get_label_for_constant(one)?;
    /// buffer.put1(0xC3)?;
    /// assert_eq!(buffer.finish()?.label_offset(one), Some(8));
    /// # Ok(())
    /// # }
    /// ```
    ///
    /// # Errors
    ///
    /// Number 4, 8 or 11.
    pub fn get_label_for_constant(&mut self, constant: Constant) -> Result<Label, Error> {
        self.make(Call::ConstantLabel(constant.id()))?;
        let label = self.queue.constant_label(constant.id());
        Ok(label.expect("a constant that was asked for has a label"))
    }

    /// Records a relocation at the current offset.
    ///
    /// ```
    /// use wargnifla::{Arch, CodeBuffer, Reloc, RelocTarget, Sym};
    ///
    /// # fn main() -> Result<(), wargnifla::Error> {
    /// let mut buffer = CodeBuffer::with_symbols(Arch::X64, 1);
    /// buffer.put1(0xE8)?; // call symbol 0
    /// buffer.add_reloc(Reloc::X86CallPLTRel4, RelocTarget::Sym(Sym::from_id(0)), -4)?;
    /// buffer.put4(0)?;
    /// assert_eq!(buffer.finish()?.relocs()[0].offset, 1);
    /// # Ok(())
    /// # }
    /// ```
    ///
    /// # Errors
    ///
    /// As [`Self::add_reloc_at_offset`].
    pub fn add_reloc(
        &mut self,
        kind: Reloc,
        target: RelocTarget,
        addend: i64,
    ) -> Result<(), Error> {
        self.add_reloc_at_offset(self.cur_offset(), kind, target, addend)
    }

    /// Records a relocation.
    ///
    /// # Errors
    ///
    /// Number 4, 7, 8, 10 or 11.
    pub fn add_reloc_at_offset(
        &mut self,
        offset: CodeOffset,
        kind: Reloc,
        target: RelocTarget,
        addend: i64,
    ) -> Result<(), Error> {
        self.make(Call::Relocation {
            offset,
            kind: kind.number(),
            target: target.to_word(),
            addend,
        })
    }

    /// Makes one call, its numbers as they stand in a sheet.
    ///
    /// # Errors
    ///
    /// The call's, and number 1 for a code or kind that is none.
    pub fn call(&mut self, call: &Call) -> Result<(), Error> {
        self.make(match call {
            Call::Bytes(bytes) => Call::Bytes(bytes),
            Call::Constant(bytes) => Call::Constant(bytes),
            // No other call has bytes.
            other => other.clone().map_bytes(|_| &[][..]),
        })
    }

    /// As [`Self::call`]. Inlined, so that a method whose kind of call is known does only what that kind needs.
    #[inline(always)]
    fn make(&mut self, call: Call<&[u8]>) -> Result<(), Error> {
        let start = self.cur_offset();
        if self.queue.take(&call) {
            self.note_unkept(&call, start);
            return Ok(());
        }
        self.make_alone(call)
    }

    /// Lets the library answer a call.
    fn make_alone(&mut self, call: Call<&[u8]>) -> Result<(), Error> {
        let start = self.cur_offset();
        let number = self.queue.make_alone(|tables| made_alone(tables, &call));
        if number == 0 {
            self.note_unkept(&call, start);
        }
        self.answer(number, call)
    }

    /// Keeps of an accepted call what the tables don't; `start` is the offset that it was made at.
    #[inline(always)]
    fn note_unkept(&mut self, call: &Call<&[u8]>, start: CodeOffset) {
        let is_unread = matches!(call, Call::Jump { .. } | Call::Ref { .. });
        if is_unread && !self.arch().tracks_layout() {
            self.unread.push(call.clone().map_bytes(Into::into));
        }
        if let Call::Align { multiple, most } = *call {
            self.note_alignment(start, multiple, most_of_word(most));
        }
    }

    fn note_alignment(&mut self, start: CodeOffset, multiple: u32, most: u32) {
        if !self.arch().tracks_layout() {
            let alignment = Alignment::recorded(start, multiple, most);
            self.alignments.push(alignment);
        }
    }

    fn answer(&mut self, number: u32, call: Call<&[u8]>) -> Result<(), Error> {
        if number == 0 {
            return Ok(());
        }
        Err(self.refused_call(number, &call.map_bytes(Into::into), None))
    }

    #[cold]
    fn refused_call(&mut self, number: u32, call: &Call, index: Option<usize>) -> Error {
        let place = Place::Call {
            name: call.name(),
            index,
        };
        // A broken form, number 1, comes before a recorded refusal.
        if let Some(first) = &self.first_refusal
            && first.number() == number
        {
            return repeated(first, place);
        }
        let tables = self.tables();
        let error = Error::new(number, place, explain_call(tables, call, number));
        if tables.counts.refusal() == number {
            self.first_refusal = Some(error.clone());
        }
        error
    }

    /// Makes the calls of a binary sheet, up to the first that is refused. A sheet whose form is broken makes none.
    ///
    /// ```
    /// use wargnifla::{Arch, CodeBuffer, read_text, write_sheet};
    ///
    /// let calls = read_text("label; bytes 90 C3; bind 0").unwrap().calls;
    /// let mut buffer = CodeBuffer::new(Arch::X64);
    /// buffer.run_sheet(&write_sheet(&calls).unwrap()).unwrap();
    /// assert_eq!(buffer.data(), [0x90, 0xC3]);
    /// ```
    ///
    /// # Errors
    ///
    /// The refused call's, with its index; number 1 for a broken form.
    pub fn run_sheet(&mut self, sheet: &[u8]) -> Result<(), Error> {
        let read = Sheet::read(sheet);
        let mut start = self.cur_offset();
        let (number, index) = self.queue.make_many(|tables| {
            if let Ok(sheet) = &read {
                tables.make_all_room(&sheet.room(tables.arch));
            }
            verified::run_sheet(tables, sheet)
        });
        if let Ok(sheet) = &read
            && !self.arch().tracks_layout()
        {
            // A broken form, number 1, is found before any call is made. The other 1 of a sheet is of a wrong number of open entries, and here it is right.
            let made = if number == 1 { 0 } else { index as usize };
            for call in sheet.calls().take(made) {
                let more = appended(&call, start);
                self.note_unkept(&call.map_bytes(|_| &[][..]), start);
                start += more;
            }
        }
        match (number, read) {
            (0, _) => Ok(()),
            (_, Ok(sheet)) => Err(self.refused_sheet(number, &sheet, index as usize)),
            (_, Err(length)) => Err(Error::new(number, Place::Sheet, length)),
        }
    }

    fn refused_sheet(&mut self, number: u32, sheet: &Sheet<'_>, index: usize) -> Error {
        if index >= sheet.len() {
            return self.refused_whole(number, Place::Sheet);
        }
        match sheet.call(index) {
            Ok(call) => self.refused_call(number, &call, Some(index)),
            Err(sentence) => {
                let name = sheet.name(index).unwrap_or("unknown");
                let index = Some(index);
                Error::new(number, Place::Call { name, index }, sentence)
            }
        }
    }

    /// A refusal that has to do with the recording and no call or entry of it.
    fn refused_whole(&self, number: u32, place: Place) -> Error {
        match &self.first_refusal {
            Some(first) => repeated(first, place),
            None => Error::new(number, place, "the recording has finished".into()),
        }
    }

    /// Finishes the recording: pools its constants, relaxes its jumps, fills its fields and writes its code. The recording's labels and relocations
    /// take their final offsets, and it accepts no more calls.
    ///
    /// With a jump the recording's refs are filled, without one its uses.
    ///
    #[doc = concat!(
        "The verified function takes up to ", finish_stack!(), " bytes of the thread's stack ([`FINISH_STACK`](crate::FINISH_STACK)), \
         whatever is recorded: a thread of 256 KiB has enough."
    )]
    ///
    /// ```
    /// use wargnifla::{Arch, CodeBuffer, Refusal};
    ///
    /// # fn main() -> Result<(), wargnifla::Error> {
    /// let mut buffer = CodeBuffer::with_symbols(Arch::X64, 0);
    /// buffer.put_bytes(&[0x90; 3])?;
    /// let code = buffer.finish()?;
    /// assert_eq!((code.total_size(), code.layouts(), code.alignment()), (3, 0, 32));
    /// assert_eq!(buffer.finish().unwrap_err().refusal(), Refusal::AlreadyFinished);
    /// # Ok(())
    /// # }
    /// ```
    ///
    /// # Errors
    ///
    /// A recorded refusal, number 4, or one of 13 to 23; the buffer is then as it was before.
    pub fn finish(&mut self) -> Result<CodeBufferFinalized, Error> {
        let mut segments = Vec::new();
        let finished = self.queue.make_alone(|tables| {
            segments.resize(most_segments(tables), Segment::default());
            let most = most_finished(tables);
            verified::finish(tables, &mut segments, most)
        });
        match finished {
            Ok((data, record)) => Ok(self.finalized(data, segments, record)),
            Err(number) => Err(self.refused_finish(number, &segments)),
        }
    }

    /// As [`Self::finish`], with the recording as it was kept beside the code, for listings and pictures.
    ///
    /// # Errors
    ///
    /// As [`Self::finish`].
    pub fn finish_with_recording(&mut self) -> Result<FinishedRecording, Error> {
        let mut recording = self.recording();
        let alignments = self.alignments.iter().copied();
        recording.events.extend(alignments.map(LayoutEvent::Align));
        let recorded = self.data().to_vec();
        let code = self.finish()?;
        Ok(FinishedRecording::new(recording, recorded, code))
    }

    fn finalized(
        &mut self,
        data: Vec<u8>,
        segments: Vec<Segment>,
        record: Record,
    ) -> CodeBufferFinalized {
        let zeros = self.zero_padding();
        let tables = self.queue.tables_mut();
        let pool = pool(tables, &segments, data.len() as CodeOffset);
        CodeBufferFinalized {
            contents: Contents::finished(tables, &self.definitions, &zeros, pool),
            arch: tables.arch,
            data,
            label_offsets: tables.labels().collect(),
            relocs: tables.relocs().collect(),
            record,
            segments,
            unpatched: unpatched(tables, &self.unread),
            unasked_constants: unasked_constants(tables),
            names: tables.names.clone(),
            definitions: self.definitions.clone(),
            has_page_fields: has_page_fields(tables),
        }
    }

    /// Where alignments spent zeros: on AArch64 alone.
    fn zero_padding(&self) -> Vec<Range<CodeOffset>> {
        let alignments = self.alignments.iter();
        let padding = alignments.map(|padding| padding.start..padding.start + padding.len);
        match self.arch() {
            Arch::AArch64 => padding.collect(),
            _ => Vec::new(),
        }
    }

    /// The recording with all calls made.
    fn tables(&self) -> &Tables {
        self.queue.tables()
    }

    fn refused_finish(&self, number: u32, segments: &[Segment]) -> Error {
        if self.first_refusal.is_some() || self.is_finished() {
            return self.refused_whole(number, Place::Finish);
        }
        let (sentence, entry) = explain_finish(&self.recording(), segments, number);
        Error::new(number, Place::Finish, sentence).at_entry(entry)
    }
}

impl fmt::Debug for CodeBuffer {
    fn fmt(&self, f: &mut fmt::Formatter<'_>) -> fmt::Result {
        f.debug_struct("CodeBuffer")
            .field("recording", &self.recording())
            .field("first_refusal", &self.first_refusal)
            .finish_non_exhaustive()
    }
}

fn repeated(first: &Error, place: Place) -> Error {
    let sentence = format!("the recording answers everything with its first refusal, {first}");
    Error::new(first.number(), place, sentence)
}

/// Makes one call: the refusal, or 0.
fn made_alone(tables: &mut Tables, call: &Call<&[u8]>) -> u32 {
    match call {
        Call::Bytes(bytes) => {
            tables.make_room(TableName::Code, bytes.len());
            verified::put_bytes(tables, bytes)
        }
        Call::Constant(bytes) => {
            tables.make_room(TableName::Constants, 1);
            verified::add_constant(tables, bytes).0
        }
        Call::Relocation {
            offset,
            kind,
            target,
            addend,
        } => {
            tables.make_room(TableName::Relocs, 1);
            verified::add_reloc(tables, *offset, *kind, *target, *addend)
        }
        other => run_one(tables, other),
    }
}

/// Makes a call whose argument is four words, by a sheet of its own.
fn run_one(tables: &mut Tables, call: &Call<&[u8]>) -> u32 {
    let kind = call.kind();
    let words = words_of(call).expect("its argument is four words");
    extended(tables.arch, kind, words, |table, more| {
        tables.make_room(table, more);
    });
    verified::run_sheet(tables, &one_call_sheet(kind, words)).0
}

/// One for each event, those of the pool too; without a jump finish needs none.
fn most_segments(tables: &Tables) -> usize {
    if tables.has_jump() {
        MOST_ENTRIES.min(tables.event_count() + tables.asked_count())
    } else {
        0
    }
}

/// What the finished code cannot exceed, as `wargnifla_output_bound` of include/wargnifla.h has it: every jump long, every padding one less than
/// its multiple or as much as it may spend, and the pool.
fn most_finished(tables: &Tables) -> usize {
    let mut most = tables.code().len();
    for event in tables.events() {
        most -= event.recorded_len() as usize;
        most += event.most_len();
    }
    let pool = tables.asked_sizes();
    most += pool
        .map(|size| size + constant_alignment(size) as usize - 1)
        .sum::<usize>();
    MOST_CODE.min(most)
}

/// Where the pool stands in finished code, its padding included: behind the recorded code, or where the segment of its first alignment says.
fn pool(tables: &Tables, segments: &[Segment], end: CodeOffset) -> Range<CodeOffset> {
    let first = segments.get(tables.event_count());
    let start = match (tables.asked_count(), first) {
        (0, _) => end,
        (_, Some(segment)) => segment.new_start,
        (_, None) => tables.code().len() as CodeOffset,
    };
    start..end
}

fn has_page_fields(tables: &Tables) -> bool {
    let is_page_field =
        |field: AsmFixup| matches!(field.kind, LabelUse::A64Adrp21 | LabelUse::A64AddAbsLo12);
    tables.arch == Arch::AArch64 && tables.uses().any(is_page_field)
}
