//! asmkit's `CodeBuffer`, unchanged, behind a driver.
//!
//! `core/buffer.rs`, `core/linker.rs`, `core/relax/asmkit.rs` and
//! `x86/encoder.rs` are put in place by `reference/build`: the first three are
//! asmkit's files as published, the fourth holds the two padding functions
//! lifted out of its encoder.rs. Everything else here is a stand-in for what
//! asmkit keeps in other files, or the driver: [`Recording`] for single calls,
//! [`run_sheet`] for sheets, [`Link`] for finished records.

extern crate alloc;

mod answers;
mod cases;
mod core;
mod departures;
mod differences;
mod error;
mod joins;
mod link;
mod random;
mod recording;
mod run;
mod samples;
mod screen;
mod sheet;
mod text;
mod x86;

pub use answers::{Entry, Record, Sample, fnv1a, read_list, write_list};
pub use cases::check_cases;
pub use departures::{DEPARTURES, Departure, first_departure};
pub use differences::{Difference, read_differences};
pub(crate) use error::AsmError;
pub use error::Error;
pub use joins::{
    JoinDifference, Joined, check_recorded, is_filled, join_pieces, read_join_differences,
    read_pieces,
};
pub use link::{Image, Link, Piece, Unlinked, field_size};
pub use recording::{Finished, Recording, Relocation};
pub use run::{Answer, quietly, run_calls, run_sheet, run_steps};
pub use samples::samples;
pub use screen::{added_refusal, added_refusal_of_text};
pub use sheet::{Call, Sheet, TextStep, write_sheet};
pub use sheet_text::Arch as TextArch;
pub use text::{Script, TextError, read_text, read_text_for, write_text};

/// `Arch::X86`.
pub const X86: u32 = 1;
/// `Arch::X64`.
pub const X64: u32 = 2;
/// `Arch::AArch64`.
pub const AARCH64: u32 = 6;
/// Set in a relocation's target when it names a label.
pub const LABEL_TARGET: u32 = 1 << 31;
/// The offset of a label that is not bound.
pub const UNBOUND: u32 = u32::MAX;
