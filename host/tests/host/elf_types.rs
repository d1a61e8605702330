//! The ELF types of relocations, as document 02 lists them, with the psABIs' names.

use wargnifla::{Arch, Reloc};

const X64: [(Reloc, &str, u32); 7] = [
    (Reloc::Abs8, "R_X86_64_64", 1),
    (Reloc::X86PCRel4, "R_X86_64_PC32", 2),
    (Reloc::X86CallPCRel4, "R_X86_64_PLT32", 4),
    (Reloc::X86CallPLTRel4, "R_X86_64_PLT32", 4),
    (Reloc::X86GOTPCRel4, "R_X86_64_GOTPCREL", 9),
    (Reloc::Abs4, "R_X86_64_32", 10),
    (Reloc::ElfX86_64TlsGd, "R_X86_64_TLSGD", 19),
];

const AARCH64: [(Reloc, &str, u32); 5] = [
    (Reloc::Abs8, "R_AARCH64_ABS64", 257),
    (Reloc::Abs4, "R_AARCH64_ABS32", 258),
    (
        Reloc::Aarch64AdrPrelPgHi21,
        "R_AARCH64_ADR_PREL_PG_HI21",
        275,
    ),
    (Reloc::Aarch64AddAbsLo12Nc, "R_AARCH64_ADD_ABS_LO12_NC", 277),
    (Reloc::Arm64Call, "R_AARCH64_CALL26", 283),
];

/// The kinds that have a type on an architecture, with its name and number.
pub fn elf_types(arch: Arch) -> &'static [(Reloc, &'static str, u32)] {
    match arch {
        Arch::X86 => &[],
        Arch::X64 => &X64,
        Arch::AArch64 => &AARCH64,
    }
}
