//! The part of asmkit's `core` that the buffer and the linker need.

pub mod arch_traits;
// Placed here by reference/build.
#[allow(dead_code)]
#[rustfmt::skip]
pub mod buffer;
#[allow(dead_code)]
#[rustfmt::skip]
pub mod linker;
pub mod operand;
pub mod patch;
pub mod relax;
pub mod section;
pub mod target;
