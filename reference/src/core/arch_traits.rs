//! Stand-in for asmkit's architectures: the ones that the buffer names.

#[derive(Clone, Copy, Debug, PartialEq, Eq)]
pub enum Arch {
    /// Keeps the buffer's last arms reachable; nothing makes one.
    #[allow(dead_code)]
    Unknown,
    X86,
    X64,
    RISCV32,
    RISCV64,
    AArch64,
}
