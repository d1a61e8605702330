//! Stand-ins for patch regions, which the driver never reserves.

use super::arch_traits::Arch;
use super::buffer::CodeOffset;
use crate::AsmError;

pub struct PatchableRegion;

impl PatchableRegion {
    pub fn new(_offset: CodeOffset, _size: CodeOffset, _arch: Arch) -> Self {
        Self
    }
}

pub fn fill_with_nops(_arch: Arch, _block: &mut [u8]) -> Result<(), AsmError> {
    unreachable!("no patch region is reserved")
}

pub fn minimum_patch_alignment(_arch: Arch) -> CodeOffset {
    unreachable!("no patch region is reserved")
}
