//! The ELF types of relocations.

use std::fmt;

use crate::{Arch, Reloc};

/// How a relocation of ELF applies: the types that relocations are written as, by their names in the psABIs of X64 and AArch64.
#[derive(Clone, Copy, Debug, PartialEq, Eq, Hash)]
#[allow(
    missing_docs,
    non_camel_case_types,
    reason = "the names are the psABIs', which explain them"
)]
#[non_exhaustive]
pub enum ElfType {
    R_X86_64_64 = 1,
    R_X86_64_PC32 = 2,
    R_X86_64_PLT32 = 4,
    R_X86_64_GOTPCREL = 9,
    R_X86_64_32 = 10,
    R_X86_64_TLSGD = 19,
    R_AARCH64_ABS64 = 257,
    R_AARCH64_ABS32 = 258,
    R_AARCH64_ADR_PREL_PG_HI21 = 275,
    R_AARCH64_ADD_ABS_LO12_NC = 277,
    R_AARCH64_CALL26 = 283,
}

impl ElfType {
    /// Every type, by rising number.
    pub const ALL: [Self; 11] = [
        Self::R_X86_64_64,
        Self::R_X86_64_PC32,
        Self::R_X86_64_PLT32,
        Self::R_X86_64_GOTPCREL,
        Self::R_X86_64_32,
        Self::R_X86_64_TLSGD,
        Self::R_AARCH64_ABS64,
        Self::R_AARCH64_ABS32,
        Self::R_AARCH64_ADR_PREL_PG_HI21,
        Self::R_AARCH64_ADD_ABS_LO12_NC,
        Self::R_AARCH64_CALL26,
    ];

    /// The type's number.
    #[must_use]
    pub const fn number(self) -> u32 {
        self as u32
    }

    /// The type of a number, if it is one of these.
    #[must_use]
    pub fn from_number(number: u32) -> Option<Self> {
        Self::ALL.into_iter().find(|ty| ty.number() == number)
    }

    /// What a kind of relocation is written as on an architecture, if it has a type there.
    ///
    /// ```
    /// use wargnifla::{Arch, ElfType, Reloc};
    ///
    /// let call = ElfType::of(Arch::X64, Reloc::X86CallPLTRel4).unwrap();
    /// assert_eq!((call, call.number()), (ElfType::R_X86_64_PLT32, 4));
    /// assert_eq!(call.to_string(), "R_X86_64_PLT32");
    /// assert_eq!(ElfType::of(Arch::X64, Reloc::X86SecRel), None);
    /// ```
    #[must_use]
    pub const fn of(arch: Arch, kind: Reloc) -> Option<Self> {
        Some(match (arch, kind) {
            (Arch::X64, Reloc::Abs8) => Self::R_X86_64_64,
            (Arch::X64, Reloc::X86PCRel4) => Self::R_X86_64_PC32,
            (Arch::X64, Reloc::X86CallPCRel4 | Reloc::X86CallPLTRel4) => Self::R_X86_64_PLT32,
            (Arch::X64, Reloc::X86GOTPCRel4) => Self::R_X86_64_GOTPCREL,
            (Arch::X64, Reloc::Abs4) => Self::R_X86_64_32,
            (Arch::X64, Reloc::ElfX86_64TlsGd) => Self::R_X86_64_TLSGD,
            (Arch::AArch64, Reloc::Abs8) => Self::R_AARCH64_ABS64,
            (Arch::AArch64, Reloc::Abs4) => Self::R_AARCH64_ABS32,
            (Arch::AArch64, Reloc::Aarch64AdrPrelPgHi21) => Self::R_AARCH64_ADR_PREL_PG_HI21,
            (Arch::AArch64, Reloc::Aarch64AddAbsLo12Nc) => Self::R_AARCH64_ADD_ABS_LO12_NC,
            (Arch::AArch64, Reloc::Arm64Call) => Self::R_AARCH64_CALL26,
            _ => return None,
        })
    }
}

impl fmt::Display for ElfType {
    fn fmt(&self, f: &mut fmt::Formatter<'_>) -> fmt::Result {
        fmt::Debug::fmt(self, f)
    }
}
