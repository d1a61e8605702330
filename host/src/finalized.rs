//! What finish makes of a recording. After asmkit's core/buffer.rs (see NOTICE).

use std::ops::Range;

use crate::contents::Contents;
use crate::ffi::Segment;
use crate::recording::{AsmReloc, Constant, Label, Names};
use crate::tables::bound;
use crate::verified::Record;
use crate::{Arch, CodeOffset, ExternalName, LayoutEvent, Unpatched};

/// A [`crate::CodeBuffer`] once finish has accepted it, or several [joined](crate::join()): the code and what goes with it.
#[derive(Clone, Debug, PartialEq, Eq)]
pub struct CodeBufferFinalized {
    pub(crate) arch: Arch,
    pub(crate) data: Vec<u8>,
    pub(crate) label_offsets: Vec<CodeOffset>,
    pub(crate) relocs: Vec<AsmReloc>,
    pub(crate) record: Record,
    pub(crate) segments: Vec<Segment>,
    pub(crate) unpatched: Vec<Unpatched>,
    pub(crate) unasked_constants: Vec<Constant>,
    /// Those that labels and symbols had at finish.
    pub(crate) names: Names,
    /// The symbols that labels define; likewise.
    pub(crate) definitions: Vec<(ExternalName, Label)>,
    /// Whether a field holds pages of its label: that of an ADRP, or of the ADD after one.
    pub(crate) has_page_fields: bool,
    pub(crate) contents: Contents,
}

impl CodeBufferFinalized {
    /// The architecture.
    #[must_use]
    pub fn arch(&self) -> Arch {
        self.arch
    }

    /// Bytes of finished code.
    #[must_use]
    pub fn total_size(&self) -> usize {
        self.data.len()
    }

    /// The finished code.
    #[must_use]
    pub fn data(&self) -> &[u8] {
        &self.data
    }

    /// The final offset of a label, if it is known and bound.
    #[must_use]
    pub fn label_offset(&self, label: Label) -> Option<CodeOffset> {
        let offset = self.label_offsets.get(label.id() as usize);
        offset.copied().and_then(bound)
    }

    /// The final offset of a label that something in the code depends on, so that finish or join would have refused an unbound one.
    pub(crate) fn bound_offset(&self, label: Label) -> CodeOffset {
        self.label_offset(label)
            .expect("what is written has its label bound")
    }

    /// The final offset of every label, by its number; [`UNBOUND`](crate::UNBOUND) where it is not bound.
    #[must_use]
    pub fn label_offsets(&self) -> &[CodeOffset] {
        &self.label_offsets
    }

    /// The relocations, with their final offsets.
    #[must_use]
    pub fn relocs(&self) -> &[AsmReloc] {
        &self.relocs
    }

    /// The multiple that the code is to be loaded on: the greater of 32 and the largest alignment among the constants that finish pooled, so 32 or 64.
    /// Code that is loaded on a multiple of it has every pooled constant on a multiple of its own ([`AsmConstant::alignment`]). Of joined code it is
    /// the greatest among the pieces.
    ///
    /// A constant that was added and never asked for does not count, and neither do alignments in the code: these count from its start.
    ///
    /// ```
    /// use std::alloc::Layout;
    /// use wargnifla::{Arch, CodeBuffer};
    ///
    /// # fn main() -> Result<(), Box<dyn std::error::Error>> {
    /// let mut buffer = CodeBuffer::new(Arch::X64);
    /// let vector = buffer.add_constant(&[7; 64])?;
    /// let vector = buffer.get_label_for_constant(vector)?;
    /// buffer.put1(0xC3)?;
    /// let code = buffer.finish()?;
    /// assert_eq!((code.label_offset(vector), code.alignment()), (Some(64), 64));
    /// let memory = Layout::from_size_align(code.total_size(), code.alignment() as usize)?;
    /// # assert_eq!((memory.size(), memory.align()), (128, 64));
    /// # Ok(())
    /// # }
    /// ```
    ///
    /// [`AsmConstant::alignment`]: crate::AsmConstant::alignment
    #[must_use]
    pub fn alignment(&self) -> u32 {
        self.record.alignment()
    }

    /// The names that labels and symbols had at finish.
    #[must_use]
    pub fn names(&self) -> &Names {
        &self.names
    }

    /// The symbols that labels define, in the order of [`bind_symbol`](crate::CodeBuffer::bind_symbol); of joined code those of all pieces, and those
    /// that labels define by their names.
    #[must_use]
    pub fn definitions(&self) -> &[(ExternalName, Label)] {
        &self.definitions
    }

    /// The definitions by labels that are bound nowhere: [`Self::object`] leaves them out.
    ///
    /// ```
    /// use wargnifla::{Arch, CodeBuffer};
    ///
    /// # fn main() -> Result<(), wargnifla::Error> {
    /// let mut buffer = CodeBuffer::new(Arch::X64);
    /// let never = buffer.get_label()?;
    /// buffer.bind_symbol("sort", never);
    /// let code = buffer.finish()?;
    /// let left_out: Vec<_> = code.unbound_definitions().collect();
    /// assert_eq!(left_out, [&("sort".into(), never)]);
    /// # Ok(())
    /// # }
    /// ```
    pub fn unbound_definitions(&self) -> impl Iterator<Item = &(ExternalName, Label)> {
        let definitions = self.definitions.iter();
        definitions.filter(|(_, label)| self.label_offset(*label).is_none())
    }

    /// The offset of a symbol, if a label that is bound defines it.
    #[must_use]
    pub fn defined_symbol_offset(&self, symbol: impl Into<ExternalName>) -> Option<CodeOffset> {
        let symbol = self.names.external(&symbol.into());
        let mut definitions = self.definitions.iter();
        let (_, label) = definitions.find(|(defined, _)| self.names.external(defined) == symbol)?;
        self.label_offset(*label)
    }

    /// How many layouts finish made: the rounds of relaxation, 0 without a jump and of joined code.
    #[must_use]
    pub fn layouts(&self) -> u32 {
        self.record.layouts()
    }

    /// Where each event came to stand, those of the pool included; empty without a jump and of joined code.
    #[must_use]
    pub fn segments(&self) -> &[Segment] {
        &self.segments
    }

    /// Where an event, by its index in [`Pooled::events`](crate::Pooled::events), came to stand: as recorded, unless jumps were relaxed.
    #[must_use]
    pub fn event_range(&self, index: usize, event: &LayoutEvent) -> Range<CodeOffset> {
        match self.segments.get(index) {
            Some(segment) => segment.new_start..segment.new_end,
            None => event.start()..event.end(),
        }
    }

    /// What was accepted and is not in the code: jumps and refs where the architecture keeps none, refs where no jump stands, uses where one does. Of
    /// joined code its pieces know.
    #[must_use]
    pub fn unpatched(&self) -> &[Unpatched] {
        &self.unpatched
    }

    /// The constants that are not in the code, since their labels were never [asked for](crate::CodeBuffer::get_label_for_constant). Of joined code
    /// its pieces know.
    ///
    /// ```
    /// use wargnifla::{Arch, CodeBuffer};
    ///
    /// # fn main() -> Result<(), wargnifla::Error> {
    /// let mut buffer = CodeBuffer::new(Arch::X64);
    /// let forgotten = buffer.add_constant(&[7; 8])?;
    /// assert_eq!(buffer.finish()?.unasked_constants(), [forgotten]);
    /// # Ok(())
    /// # }
    /// ```
    pub fn unasked_constants(&self) -> &[Constant] {
        &self.unasked_constants
    }
}
