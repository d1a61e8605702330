//! Stand-in for asmkit's finished sections: what the linker reads of them.

use alloc::borrow::Cow;

use super::buffer::CodeBufferFinalized;

pub struct FinalizedSection {
    pub name: Cow<'static, str>,
    /// What the section's start is to be a multiple of.
    pub align: u32,
    pub code: CodeBufferFinalized,
}
