//! Stand-in for asmkit's environment: an architecture and nothing else.

use super::arch_traits::Arch;

pub struct Environment {
    arch: Arch,
}

impl Environment {
    pub fn new(arch: Arch) -> Self {
        Self { arch }
    }

    /// Named by `CodeBuffer::host`, which the driver never calls.
    pub fn host() -> Self {
        Self::new(Arch::X64)
    }

    pub fn arch(&self) -> Arch {
        self.arch
    }
}
