//! A safe wrapper over Wargnifla, the verified code buffer.
//!
//! [`CodeBuffer`] owns the tables of a recording and lends them to the C functions of libwargnifla.a, which record calls and finish the code. Names
//! are those of asmkit's core/buffer.rs (see NOTICE), of which the verified library is a port. A refusal is an [`Error`]: its number by documents 01
//! and 02, its name ([`Refusal`]), and a sentence that says what is wrong and where. Buffers share nothing: threads may each have their own. Finished
//! buffers are joined into one by [`join`](join()), and written as objects for the system linker by [`CodeBufferFinalized::object`]. What is to be
//! shown is finished by [`CodeBuffer::finish_with_recording`]: a [`FinishedRecording`] has a listing, its rounds and a [`Picture`].
//!
//! ```
//! use wargnifla::{Arch, CodeBuffer};
//!
//! # fn main() -> Result<(), wargnifla::Error> {
//! let mut buffer = CodeBuffer::new(Arch::X64);
//! let end = buffer.get_label()?;
//! buffer.put_jump(end, None)?; // a jmp; finish chooses its size
//! buffer.put_bytes(&[0x90; 100])?;
//! buffer.try_bind_label(end)?;
//! let code = buffer.finish()?;
//! assert_eq!(code.data()[..2], [0xEB, 100]);
//! # Ok(())
//! # }
//! ```

#![deny(unsafe_code)]
#![warn(missing_docs)]

/// Bytes of stack that are enough for finish, as a literal: `WARGNIFLA_FINISH_STACK` in include/wargnifla.h.
macro_rules! finish_stack {
    () => {
        143360
    };
}

/// Bytes of stack that are enough for join, likewise: `WARGNIFLA_JOIN_STACK`.
macro_rules! join_stack {
    () => {
        532480
    };
}

mod buffer;
mod call;
mod contents;
mod elf;
mod error;
mod event;
mod explain;
#[allow(missing_docs, unsafe_code)]
pub mod ffi;
mod finalized;
mod finished_recording;
mod join;
mod listing;
mod open;
mod picture;
mod queue;
mod recording;
mod refusal;
mod relax;
mod rounds;
mod sheet;
mod tables;
mod text;
mod unpatched;
mod verified;

pub use buffer::CodeBuffer;
pub use elf::{ElfType, ObjectError, Rela, SourceLine, SourceLines, read_relas};
pub use error::{Entry, Error, Place};
pub use event::{Alignment, LayoutEvent, RelaxableJump};
pub use ffi::Segment;
pub use finalized::CodeBufferFinalized;
pub use finished_recording::FinishedRecording;
pub use join::{Filled, Joined, Origin, join};
pub use listing::{Extent, JoinedRecordings, ListedPiece, Radix, SourceText, Style};
pub use open::OpenLabel;
pub use picture::{JoinedPicture, Picture};
pub use recording::{
    AsmConstant, AsmFixup, AsmReloc, Constant, Label, LabelRef, Names, Pooled, PooledConstant,
    Recording, RelocTarget, Sym,
};
pub use refusal::Refusal;
pub use rounds::{Change, Lengthened, Mismatch, Round, RoundChanges, Rounds, Turn};
pub use sheet::{Sheet, Unwritable, symbols_named, write_sheet};
pub use sheet_text::{
    Arch, Call, Condition, DEFAULT_MOST, Definition, ExternalName, LabelUse, MOST_ERRORS,
    NoSuchName, NoSuchNumber, Padding, Reach, Reloc,
};
pub use text::{Draft, Note, Script, Span, TextError, read_draft, read_text, read_text_for};
pub use unpatched::{Unpatched, WhyUnpatched};

/// Offset in bytes from the beginning of the code.
pub type CodeOffset = u32;

/// The most bytes of code, recorded or finished.
pub const MOST_CODE: usize = 16_777_216;

/// The most entries of each table, and the most segments.
pub const MOST_ENTRIES: usize = 65_536;

/// The most bytes of a constant.
pub const MOST_CONSTANT: usize = 64;

/// The most pieces that are joined.
pub const MOST_PIECES: usize = 256;

/// Bytes of stack that are enough for the verified finish, which [`CodeBuffer::finish`] calls: it keeps its marks there and allocates nothing. The
/// other calls but join take less than 8 KiB.
pub const FINISH_STACK: usize = finish_stack!();

/// Bytes of stack that are enough for the verified join, which [`join`](join()) calls, likewise.
pub const JOIN_STACK: usize = join_stack!();

/// The offset of a label that is not bound.
pub const UNBOUND: CodeOffset = u32::MAX;
