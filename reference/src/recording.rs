//! One recording: a `CodeBuffer` and the calls of document 01 on it.

use sheet_text::{Padding, most_of_word};

use crate::core::arch_traits::Arch;
use crate::core::buffer::{
    CodeBuffer, CodeBufferFinalized, Constant, ConstantData, LabelUse, Reloc, RelocDistance,
    RelocTarget,
};
use crate::core::operand::{Label, Sym};
use crate::core::relax::{self, Ceiling, RelaxableJump, Told};
use crate::core::target::Environment;
use crate::{Call, Error, LABEL_TARGET, X64, link};

/// `LabelUse` by code.
const LABEL_USES: [LabelUse; 17] = [
    LabelUse::X86JmpRel32,
    LabelUse::X86BranchRel8,
    LabelUse::RVJal20,
    LabelUse::RVPCRel32,
    LabelUse::RVB12,
    LabelUse::RVPCRelHi20,
    LabelUse::RVPCRelLo12I,
    LabelUse::RVCJump,
    LabelUse::RVCB9,
    LabelUse::A64Branch14,
    LabelUse::A64Branch19,
    LabelUse::A64Branch26,
    LabelUse::A64Ldr19,
    LabelUse::A64Adr21,
    LabelUse::A64Adrp21,
    LabelUse::A64Ldr12,
    LabelUse::A64AddAbsLo12,
];

/// `Reloc` by kind.
const RELOCS: [Reloc; 28] = [
    Reloc::Abs4,
    Reloc::Abs8,
    Reloc::X86PCRel4,
    Reloc::X86CallPCRel4,
    Reloc::X86CallPLTRel4,
    Reloc::X86GOTPCRel4,
    Reloc::X86SecRel,
    Reloc::Arm32Call,
    Reloc::Arm64Call,
    Reloc::ElfX86_64TlsGd,
    Reloc::MachOX86_64Tlv,
    Reloc::MachOAarch64TlsAdrPage21,
    Reloc::MachOAarch64TlsAdrPageOff12,
    Reloc::Aarch64TlsDescAdrPage21,
    Reloc::Aarch64TlsDescLd64Lo12,
    Reloc::Aarch64TlsDescAddLo12,
    Reloc::Aarch64TlsDescCall,
    Reloc::Aarch64AdrGotPage21,
    Reloc::Aarch64Ld64GotLo12Nc,
    Reloc::Aarch64AdrPrelPgHi21,
    Reloc::Aarch64AddAbsLo12Nc,
    Reloc::Aarch64Ld64AbsLo12Nc,
    Reloc::RiscvAbs8,
    Reloc::RiscvCallPlt,
    Reloc::RiscvTlsGdHi20,
    Reloc::RiscvPCRelLo12I,
    Reloc::RiscvGotHi20,
    Reloc::RiscvPCRelHi20,
];

/// A `CodeBuffer` that takes the calls of document 01.
///
/// A call that answers no value in the Rust answers the buffer's recorded
/// error, if there is one by then. `align` and `bind` are `try_align_to` and
/// `try_bind_label`. A panic of the Rust passes through; see
/// [`quietly`](crate::quietly).
pub struct Recording {
    buffer: CodeBuffer,
    arch: u32,
}

impl Recording {
    /// Starts a recording with symbols 0 to `symbols` - 1.
    ///
    /// Besides 1, 2 and 6 the architectures 3 and 4 (RISC-V) are taken, for
    /// docs/DIFFERENCES.md alone: the Rust's buffer does not refuse them.
    #[inline]
    pub fn new(arch: u32, symbols: u32) -> Result<Self, Error> {
        let named = arch_of(arch).ok_or(Error::Unrepresentable)?;
        let mut buffer = CodeBuffer::new(Environment::new(named));
        for index in 0..symbols {
            buffer.add_symbol(link::name(index), RelocDistance::Near);
        }
        Ok(Self { buffer, arch })
    }

    /// The buffer's recorded error in place of `value`, if it has one.
    fn answer<T>(&self, value: T) -> Result<T, Error> {
        match self.buffer.error() {
            Some(error) => Err(Error::from(error)),
            None => Ok(value),
        }
    }

    /// Appends bytes by the buffer's widest writes; it writes words in the
    /// host's order, so they are read in that order too.
    pub fn bytes(&mut self, bytes: &[u8]) -> Result<(), Error> {
        let (eights, rest) = bytes.as_chunks::<8>();
        for eight in eights {
            self.buffer.put8(u64::from_ne_bytes(*eight));
        }
        let (fours, rest) = rest.as_chunks::<4>();
        for four in fours {
            self.buffer.put4(u32::from_ne_bytes(*four));
        }
        for byte in rest {
            self.buffer.put1(*byte);
        }
        self.answer(())
    }

    pub fn new_label(&mut self) -> Result<u32, Error> {
        let label = self.buffer.get_label().id();
        self.answer(label)
    }

    pub fn bind(&mut self, label: u32) -> Result<(), Error> {
        Ok(self.buffer.try_bind_label(Label::from_id(label))?)
    }

    /// `most` is a sheet's word: 0 is no ceiling, as the Rust has none. In the
    /// place of an alignment that its ceiling has spend nothing stands one to a
    /// multiple of 1, which spends nothing and, on X64, is an event as well.
    pub fn align(&mut self, multiple: u32, most: u32) -> Result<(), Error> {
        let is_skipped = most != 0 && multiple.is_power_of_two() && {
            let offset = self.buffer.data().len() as u64;
            Padding::at(offset, multiple, most).is_skipped()
        };
        let multiple = if is_skipped { 1 } else { multiple };
        Ok(self.buffer.try_align_to(multiple)?)
    }

    pub fn use_label(&mut self, offset: u32, label: u32, code: u32) -> Result<(), Error> {
        let kind = label_use(code)?;
        self.buffer
            .use_label_at_offset(offset, Label::from_id(label), kind);
        self.answer(())
    }

    pub fn label_ref(
        &mut self,
        offset: u32,
        label: u32,
        code: u32,
        addend: i32,
    ) -> Result<(), Error> {
        let kind = label_use(code)?;
        self.buffer
            .record_label_ref(offset, Label::from_id(label), kind, addend);
        self.answer(())
    }

    /// `condition` 0 to 15, or 16 for none. asmkit holds length and condition
    /// in bytes; larger ones are [`Error::Unrepresentable`], except where a
    /// jump is not read at all.
    pub fn jump(
        &mut self,
        start: u32,
        length: u32,
        label: u32,
        condition: u32,
    ) -> Result<(), Error> {
        if self.arch == X64 && (length > 255 || condition > 255) {
            return Err(Error::Unrepresentable);
        }
        self.buffer.record_relaxable_jump(RelaxableJump {
            start,
            len: length as u8,
            label: Label::from_id(label),
            cc: (condition != 16).then_some(condition as u8),
        });
        self.answer(())
    }

    pub fn constant(&mut self, bytes: &[u8]) -> Result<u32, Error> {
        let data = ConstantData::Bytes(bytes.to_vec());
        let constant = self.buffer.add_constant(data).0;
        self.answer(constant)
    }

    pub fn constant_label(&mut self, constant: u32) -> Result<u32, Error> {
        let label = self.buffer.get_label_for_constant(Constant(constant)).id();
        self.answer(label)
    }

    /// `target` is a symbol, or a label plus 2^31.
    pub fn relocation(
        &mut self,
        offset: u32,
        kind: u32,
        target: u32,
        addend: i64,
    ) -> Result<(), Error> {
        let kind = reloc_of(kind).ok_or(Error::Malformed)?;
        let target = if target >= LABEL_TARGET {
            RelocTarget::Label(Label::from_id(target - LABEL_TARGET))
        } else {
            RelocTarget::Sym(Sym::from_id(target))
        };
        self.buffer
            .add_reloc_at_offset(offset, kind, target, addend);
        self.answer(())
    }

    /// `CodeBuffer::bind_symbol`: the label defines the symbol, for the linker.
    pub fn define(&mut self, symbol: u32, label: u32) -> Result<(), Error> {
        self.buffer
            .bind_symbol(link::name(symbol), Label::from_id(label));
        self.answer(())
    }

    /// `CodeBuffer::finish`, with the layouts that it made. Inlined, as `new`
    /// is: to move what they answer once more would show in a benchmark.
    #[inline]
    pub fn finish(&mut self) -> Result<Finished, Error> {
        relax::take_layouts();
        let finalized = self.buffer.finish()?;
        let layouts = relax::take_layouts();
        Ok(Finished { finalized, layouts })
    }

    /// As [`Self::finish`], but each layout is told of the ceilings of the
    /// alignments, which are those of the calls that were made.
    pub fn finish_within(&mut self, calls: &[Call<'_>]) -> Result<Finished, Error> {
        let ceilings = calls.iter().filter_map(|call| match *call {
            Call::Align { multiple, most } => Some(Ceiling {
                multiple,
                most: most_of_word(most),
            }),
            _ => None,
        });
        let _told = Told::of(ceilings.collect());
        self.finish()
    }

    /// `CodeBuffer::finish_owned`, which hands out its vectors in place of
    /// copies and leaves the buffer empty.
    #[inline]
    pub fn finish_owned(&mut self) -> Result<Finished, Error> {
        relax::take_layouts();
        let finalized = self.buffer.finish_owned()?;
        let layouts = relax::take_layouts();
        Ok(Finished { finalized, layouts })
    }

    /// The bytes recorded so far.
    pub fn code(&self) -> &[u8] {
        self.buffer.data()
    }
}

/// `Arch` by number.
#[inline]
pub(crate) fn arch_of(arch: u32) -> Option<Arch> {
    Some(match arch {
        1 => Arch::X86,
        2 => Arch::X64,
        3 => Arch::RISCV32,
        4 => Arch::RISCV64,
        6 => Arch::AArch64,
        _ => return None,
    })
}

pub(crate) fn reloc_of(kind: u32) -> Option<Reloc> {
    RELOCS.get(kind as usize).copied()
}

pub(crate) fn label_use(code: u32) -> Result<LabelUse, Error> {
    LABEL_USES
        .get(code as usize)
        .copied()
        .ok_or(Error::Malformed)
}

/// A relocation of a finished record.
#[derive(Clone, Copy, Debug, PartialEq, Eq)]
pub struct Relocation {
    pub offset: u32,
    pub kind: u32,
    /// A symbol, or a label plus 2^31.
    pub target: u32,
    pub addend: i64,
}

/// What `finish` hands out.
pub struct Finished {
    finalized: CodeBufferFinalized,
    layouts: u32,
}

impl Finished {
    pub(crate) fn into_finalized(self) -> CodeBufferFinalized {
        self.finalized
    }

    pub fn code(&self) -> &[u8] {
        self.finalized.data()
    }

    /// The offsets of all labels, constants' labels included; 0xFFFFFFFF
    /// where unbound.
    pub fn labels(&self) -> &[u32] {
        &self.finalized.label_offsets
    }

    pub fn relocations(&self) -> impl ExactSizeIterator<Item = Relocation> + '_ {
        relocations_of(&self.finalized)
    }

    pub fn alignment(&self) -> u32 {
        self.finalized.alignment()
    }

    /// How many layouts the rounds made; 0 without a jump.
    pub fn layouts(&self) -> u32 {
        self.layouts
    }
}

/// Whether all that is handed out is the same.
impl PartialEq for Finished {
    fn eq(&self, other: &Self) -> bool {
        let parts = |finished: &Self| (finished.alignment(), finished.layouts());
        parts(self) == parts(other)
            && self.code() == other.code()
            && self.labels() == other.labels()
            && self.relocations().eq(other.relocations())
    }
}

/// The relocations of finished code; a symbol is its place in the code's list.
pub(crate) fn relocations_of(
    finalized: &CodeBufferFinalized,
) -> impl ExactSizeIterator<Item = Relocation> + '_ {
    finalized.relocs().iter().map(|reloc| Relocation {
        offset: reloc.offset,
        kind: reloc.kind as u32,
        target: match &reloc.target {
            RelocTarget::Sym(sym) => sym.id(),
            RelocTarget::Label(label) => label.id() + LABEL_TARGET,
        },
        addend: reloc.addend,
    })
}
