//! What the differential runs and the benchmark share: everything that a caller lends, the C functions on it, and a plain model of document 01.

pub mod boundary;
pub mod lent;
pub mod model;
pub mod ours;
pub mod pieces;
pub mod random;
pub mod vast;

pub use boundary::{Boundary, Reply};
pub use lent::{Lent, Part};
pub use model::{Model, ceilings, open};
pub use ours::{Lending, Ours};
pub use pieces::Piece;
pub use random::Random;
pub use vast::Vast;

/// `Arch::X86`.
pub const X86: u32 = 1;
/// `Arch::X64`.
pub const X64: u32 = 2;
/// `Arch::AArch64`.
pub const AARCH64: u32 = 6;
/// The offset of an unbound label, the label of a constant that has none, and what a refused call for a number gives.
pub const NONE: u32 = u32::MAX;
/// Set in a relocation's target when it names a label.
pub const LABEL_TARGET: u32 = 1 << 31;
/// The most bytes of code, and of output.
pub const MOST_CODE: usize = 16_777_216;
/// The most entries of a table, and segments.
pub const MOST_ENTRIES: usize = 65_536;
