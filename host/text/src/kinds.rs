//! Architectures, conditions, and the kinds of fields and relocations: the numbers of document 01 under asmkit's names (core/buffer.rs, see NOTICE).

use std::fmt;

/// A processor architecture that a recording can be for.
#[derive(Clone, Copy, Debug, PartialEq, Eq, PartialOrd, Ord, Hash)]
pub enum Arch {
    /// 32-bit x86.
    X86 = 1,
    /// 64-bit x86: the only one whose jumps are relaxed.
    X64 = 2,
    /// 64-bit Arm.
    AArch64 = 6,
}

impl Arch {
    /// Every architecture, by rising number.
    pub const ALL: [Self; 3] = [Self::X86, Self::X64, Self::AArch64];

    /// The architecture's number.
    pub const fn number(self) -> u32 {
        self as u32
    }

    /// The architecture of a number, if there is one.
    pub fn from_number(number: u32) -> Option<Self> {
        Self::ALL.into_iter().find(|arch| arch.number() == number)
    }

    /// Names that others use.
    const OTHER_NAMES: [(&'static str, Self); 5] = [
        ("i386", Self::X86),
        ("amd64", Self::X64),
        ("x86_64", Self::X64),
        ("x86-64", Self::X64),
        ("arm64", Self::AArch64),
    ];

    /// The architecture of a name, in capitals or not: `amd64`, `x86_64` and `x86-64` as well as `x64`, `arm64` as well as `aarch64`, and `i386` as
    /// well as `x86`.
    pub fn from_name(name: &str) -> Option<Self> {
        find_by_name(&Self::ALL, name).or_else(|| find_other(&Self::OTHER_NAMES, name))
    }

    /// Every name that an architecture goes by.
    pub(crate) fn names() -> impl Iterator<Item = &'static str> {
        let others = Self::OTHER_NAMES.into_iter().map(|(name, _)| name);
        ["x86", "x64", "aarch64"].into_iter().chain(others)
    }

    /// Whether recordings keep events and refs, so that finish can relax jumps.
    pub const fn tracks_layout(self) -> bool {
        matches!(self, Self::X64)
    }
}

impl fmt::Display for Arch {
    fn fmt(&self, f: &mut fmt::Formatter<'_>) -> fmt::Result {
        fmt::Debug::fmt(self, f)
    }
}

/// The condition of a `jcc`: the low nibble of its opcode.
#[derive(Clone, Copy, Debug, PartialEq, Eq, PartialOrd, Ord, Hash)]
#[allow(missing_docs, reason = "the names are Intel's, and explain themselves")]
pub enum Condition {
    O,
    No,
    B,
    Ae,
    E,
    Ne,
    Be,
    A,
    S,
    Ns,
    P,
    Np,
    L,
    Ge,
    Le,
    G,
}

impl Condition {
    /// The number that stands for no condition, in sheets and tables.
    pub const NONE: u32 = 16;

    /// Every condition, by rising number.
    pub const ALL: [Self; 16] = [
        Self::O,
        Self::No,
        Self::B,
        Self::Ae,
        Self::E,
        Self::Ne,
        Self::Be,
        Self::A,
        Self::S,
        Self::Ns,
        Self::P,
        Self::Np,
        Self::L,
        Self::Ge,
        Self::Le,
        Self::G,
    ];

    /// The condition's number.
    pub const fn number(self) -> u32 {
        self as u32
    }

    /// The condition of a number, if there is one.
    pub fn from_number(number: u32) -> Option<Self> {
        find_by_number(&Self::ALL, number)
    }

    /// Intel's second names.
    const OTHER_NAMES: [(&'static str, Self); 14] = [
        ("c", Self::B),
        ("nae", Self::B),
        ("nb", Self::Ae),
        ("nc", Self::Ae),
        ("z", Self::E),
        ("nz", Self::Ne),
        ("na", Self::Be),
        ("nbe", Self::A),
        ("pe", Self::P),
        ("po", Self::Np),
        ("nge", Self::L),
        ("nl", Self::Ge),
        ("ng", Self::Le),
        ("nle", Self::G),
    ];

    /// The condition of a name, in capitals or not: one of Intel's, `nz` as well as `ne`.
    pub fn from_name(name: &str) -> Option<Self> {
        find_by_name(&Self::ALL, name).or_else(|| find_other(&Self::OTHER_NAMES, name))
    }

    /// Every name that a condition goes by.
    pub(crate) fn names() -> impl Iterator<Item = String> {
        let others = Self::OTHER_NAMES.into_iter().map(|(name, _)| name.into());
        let first = Self::ALL.into_iter().map(|condition| condition.to_string());
        first.chain(others)
    }
}

impl fmt::Display for Condition {
    fn fmt(&self, f: &mut fmt::Formatter<'_>) -> fmt::Result {
        f.write_str(&format!("{self:?}").to_lowercase())
    }
}

/// Which label distances a field can hold: the distance from the field's start, less `bias`, is a multiple of `multiple` in `least..=most`.
#[derive(Clone, Copy, Debug, PartialEq, Eq)]
pub struct Reach {
    /// What the processor has passed when it counts: a field's size where it counts from the field's end.
    pub bias: i64,
    /// The least distance.
    pub least: i64,
    /// The greatest distance.
    pub most: i64,
    /// What divides every distance.
    pub multiple: i64,
}

impl Reach {
    const fn power(bits: u32, multiple: i64) -> Self {
        Self {
            bias: 0,
            least: -(1 << bits),
            most: (1 << bits) - multiple,
            multiple,
        }
    }

    /// The distance that the field would hold for a target this far from its start.
    pub const fn distance(&self, from_start: i64) -> i64 {
        from_start - self.bias
    }

    /// Whether the field can hold a target this far from its start.
    pub const fn holds(&self, from_start: i64) -> bool {
        let distance = self.distance(from_start);
        distance % self.multiple == 0 && self.spans(distance)
    }

    /// Whether a distance lies between the least and the greatest, a multiple or not.
    pub const fn spans(&self, distance: i64) -> bool {
        self.least <= distance && distance <= self.most
    }
}

impl fmt::Display for Reach {
    fn fmt(&self, f: &mut fmt::Formatter<'_>) -> fmt::Result {
        if self.multiple != 1 {
            write!(f, "multiples of {} in ", self.multiple)?;
        }
        write!(f, "{}..{}", self.least, self.most)
    }
}

/// How a field holds the offset of a label.
#[derive(Clone, Copy, Debug, PartialEq, Eq, PartialOrd, Ord, Hash)]
#[non_exhaustive]
pub enum LabelUse {
    /// 32-bit displacement, relative to the end of the field.
    X86JmpRel32,
    /// 8-bit displacement of a short `jmp`, `jcc` or `loop`, relative to the end of the field.
    X86BranchRel8,
    /// A RISC-V kind, foreign to every architecture here.
    RVJal20,
    /// A RISC-V kind, foreign to every architecture here.
    RVPCRel32,
    /// A RISC-V kind, foreign to every architecture here.
    RVB12,
    /// A RISC-V kind, foreign to every architecture here.
    RVPCRelHi20,
    /// A RISC-V kind, foreign to every architecture here.
    RVPCRelLo12I,
    /// A RISC-V kind, foreign to every architecture here.
    RVCJump,
    /// A RISC-V kind, foreign to every architecture here.
    RVCB9,
    /// 14-bit branch offset in bits 18:5, in words: `tbz`, `tbnz`.
    A64Branch14,
    /// 19-bit branch offset in bits 23:5, in words: `cbz`, `cbnz`, `b.cond`.
    A64Branch19,
    /// 26-bit branch offset in bits 25:0, in words: `b`, `bl`.
    A64Branch26,
    /// 19-bit offset in bits 23:5, in words: `ldr` of a literal.
    A64Ldr19,
    /// 21-bit offset, low 2 bits in 30:29, the rest in 23:5: `adr`.
    A64Adr21,
    /// 21-bit offset in pages of 4,096 bytes, placed as for `adr`: `adrp`.
    A64Adrp21,
    /// Known by number only: every use of it is refused.
    A64Ldr12,
    /// The low 12 bits of a label's offset, in bits 21:10, whatever these held: the `add` after an `adrp`. Bit 22, which shifts them, stays.
    A64AddAbsLo12,
}

impl LabelUse {
    /// Every kind, by rising code.
    pub const ALL: [Self; 17] = [
        Self::X86JmpRel32,
        Self::X86BranchRel8,
        Self::RVJal20,
        Self::RVPCRel32,
        Self::RVB12,
        Self::RVPCRelHi20,
        Self::RVPCRelLo12I,
        Self::RVCJump,
        Self::RVCB9,
        Self::A64Branch14,
        Self::A64Branch19,
        Self::A64Branch26,
        Self::A64Ldr19,
        Self::A64Adr21,
        Self::A64Adrp21,
        Self::A64Ldr12,
        Self::A64AddAbsLo12,
    ];

    /// The kind's code.
    pub const fn code(self) -> u32 {
        self as u32
    }

    /// The kind of a code, if there is one.
    pub fn from_code(code: u32) -> Option<Self> {
        find_by_number(&Self::ALL, code)
    }

    /// The kind of a name, in capitals or not.
    pub fn from_name(name: &str) -> Option<Self> {
        find_by_name(&Self::ALL, name)
    }

    /// The architectures that take uses of this kind; to the others it is foreign. None takes a kind that is known by number only.
    pub const fn archs(self) -> &'static [Arch] {
        match self.code() {
            0..=1 => &[Arch::X86, Arch::X64],
            9..=14 | 16 => &[Arch::AArch64],
            _ => &[],
        }
    }

    /// The bytes of a field of a kind that recordings keep.
    pub const fn patch_size(self) -> u32 {
        match self {
            Self::X86BranchRel8 => 1,
            _ => 4,
        }
    }

    /// The distances that a field of this kind holds; nothing where it reaches every label, as page offsets do.
    pub const fn reach(self) -> Option<Reach> {
        match self {
            Self::X86JmpRel32 => Some(Reach {
                bias: 4,
                ..Reach::power(31, 1)
            }),
            Self::X86BranchRel8 => Some(Reach {
                bias: 1,
                ..Reach::power(7, 1)
            }),
            Self::A64Branch14 => Some(Reach::power(15, 4)),
            Self::A64Branch19 | Self::A64Ldr19 => Some(Reach::power(20, 4)),
            Self::A64Branch26 => Some(Reach::power(27, 4)),
            Self::A64Adr21 => Some(Reach::power(20, 1)),
            _ => None,
        }
    }
}

impl fmt::Display for LabelUse {
    fn fmt(&self, f: &mut fmt::Formatter<'_>) -> fmt::Result {
        fmt::Debug::fmt(self, f)
    }
}

/// Kinds of relocations, in asmkit's order.
#[derive(Clone, Copy, Debug, PartialEq, Eq, PartialOrd, Ord, Hash)]
#[allow(
    missing_docs,
    non_camel_case_types,
    reason = "the names are asmkit's, and its docs explain them"
)]
#[non_exhaustive]
pub enum Reloc {
    Abs4,
    Abs8,
    X86PCRel4,
    X86CallPCRel4,
    X86CallPLTRel4,
    X86GOTPCRel4,
    X86SecRel,
    Arm32Call,
    Arm64Call,
    ElfX86_64TlsGd,
    MachOX86_64Tlv,
    MachOAarch64TlsAdrPage21,
    MachOAarch64TlsAdrPageOff12,
    Aarch64TlsDescAdrPage21,
    Aarch64TlsDescLd64Lo12,
    Aarch64TlsDescAddLo12,
    Aarch64TlsDescCall,
    Aarch64AdrGotPage21,
    Aarch64Ld64GotLo12Nc,
    Aarch64AdrPrelPgHi21,
    Aarch64AddAbsLo12Nc,
    Aarch64Ld64AbsLo12Nc,
    RiscvAbs8,
    RiscvCallPlt,
    RiscvTlsGdHi20,
    RiscvPCRelLo12I,
    RiscvGotHi20,
    RiscvPCRelHi20,
}

impl Reloc {
    /// Every kind, by rising number.
    pub const ALL: [Self; 28] = [
        Self::Abs4,
        Self::Abs8,
        Self::X86PCRel4,
        Self::X86CallPCRel4,
        Self::X86CallPLTRel4,
        Self::X86GOTPCRel4,
        Self::X86SecRel,
        Self::Arm32Call,
        Self::Arm64Call,
        Self::ElfX86_64TlsGd,
        Self::MachOX86_64Tlv,
        Self::MachOAarch64TlsAdrPage21,
        Self::MachOAarch64TlsAdrPageOff12,
        Self::Aarch64TlsDescAdrPage21,
        Self::Aarch64TlsDescLd64Lo12,
        Self::Aarch64TlsDescAddLo12,
        Self::Aarch64TlsDescCall,
        Self::Aarch64AdrGotPage21,
        Self::Aarch64Ld64GotLo12Nc,
        Self::Aarch64AdrPrelPgHi21,
        Self::Aarch64AddAbsLo12Nc,
        Self::Aarch64Ld64AbsLo12Nc,
        Self::RiscvAbs8,
        Self::RiscvCallPlt,
        Self::RiscvTlsGdHi20,
        Self::RiscvPCRelLo12I,
        Self::RiscvGotHi20,
        Self::RiscvPCRelHi20,
    ];

    /// The kind's number.
    pub const fn number(self) -> u32 {
        self as u32
    }

    /// The kind of a number, if there is one.
    pub fn from_number(number: u32) -> Option<Self> {
        find_by_number(&Self::ALL, number)
    }

    /// The kind of a name, in capitals or not.
    pub fn from_name(name: &str) -> Option<Self> {
        find_by_name(&Self::ALL, name)
    }

    /// The architectures that take relocations of this kind; to the others it is foreign.
    pub const fn archs(self) -> &'static [Arch] {
        match self.number() {
            0..=1 => &Arch::ALL,
            2..=6 | 9..=10 => &[Arch::X86, Arch::X64],
            8 | 11..=21 => &[Arch::AArch64],
            _ => &[],
        }
    }

    /// The bytes that it applies to.
    pub const fn field_size(self) -> u32 {
        match self {
            Self::Abs8 | Self::RiscvAbs8 => 8,
            _ => 4,
        }
    }
}

impl fmt::Display for Reloc {
    fn fmt(&self, f: &mut fmt::Formatter<'_>) -> fmt::Result {
        fmt::Debug::fmt(self, f)
    }
}

fn find_by_number<T: Copy>(all: &[T], number: u32) -> Option<T> {
    all.get(number as usize).copied()
}

fn find_by_name<T: Copy + fmt::Debug>(all: &[T], name: &str) -> Option<T> {
    all.iter()
        .copied()
        .find(|kind| format!("{kind:?}").eq_ignore_ascii_case(name))
}

fn find_other<T: Copy>(others: &[(&str, T)], name: &str) -> Option<T> {
    let mut others = others.iter();
    let other = others.find(|(other, _)| other.eq_ignore_ascii_case(name));
    other.map(|(_, kind)| *kind)
}

#[cfg(test)]
mod tests {
    use super::*;

    #[test]
    fn lists_stand_in_the_order_of_their_numbers() {
        for (i, kind) in LabelUse::ALL.iter().enumerate() {
            assert_eq!(kind.code() as usize, i);
        }
        for (i, kind) in Reloc::ALL.iter().enumerate() {
            assert_eq!(kind.number() as usize, i);
        }
        for (i, condition) in Condition::ALL.iter().enumerate() {
            assert_eq!(condition.number() as usize, i);
        }
    }

    #[test]
    fn numbers_of_document_01() {
        assert_eq!(Arch::ALL.map(Arch::number), [1, 2, 6]);
        assert_eq!(LabelUse::A64Branch14.code(), 9);
        assert_eq!(LabelUse::A64AddAbsLo12.code(), 16);
        assert_eq!(LabelUse::from_code(17), None);
        assert_eq!(Reloc::RiscvPCRelHi20.number(), 27);
        assert_eq!(Reloc::from_number(28), None);
        assert_eq!(Condition::from_number(Condition::NONE), None);
    }

    #[test]
    fn names_are_found_in_any_case() {
        for (name, arch) in [
            ("aarch64", Arch::AArch64),
            ("Arm64", Arch::AArch64),
            ("X86", Arch::X86),
            ("i386", Arch::X86),
            ("x64", Arch::X64),
            ("amd64", Arch::X64),
            ("x86_64", Arch::X64),
            ("X86-64", Arch::X64),
        ] {
            assert_eq!(Arch::from_name(name), Some(arch), "{name}");
        }
        assert!(Arch::names().all(|name| Arch::from_name(name).is_some()));
        assert!(Condition::names().all(|name| Condition::from_name(&name).is_some()));
        assert_eq!(LabelUse::from_name("a64adr21"), Some(LabelUse::A64Adr21));
        assert_eq!(Reloc::from_name("X86PCRel4"), Some(Reloc::X86PCRel4));
        assert_eq!(Condition::from_name("nE"), Some(Condition::Ne));
        assert_eq!(Condition::from_name("NZ"), Some(Condition::Ne));
        assert_eq!(Condition::from_name("nle"), Some(Condition::G));
        assert_eq!(Condition::from_name("xyz"), None);
    }

    #[test]
    fn reaches_end_where_document_01_says() {
        let holds = |kind: LabelUse, d| kind.reach().unwrap().holds(d);
        assert!(holds(LabelUse::X86BranchRel8, 128) && !holds(LabelUse::X86BranchRel8, 129));
        assert!(holds(LabelUse::X86BranchRel8, -127) && !holds(LabelUse::X86BranchRel8, -128));
        assert!(holds(LabelUse::X86JmpRel32, (1 << 31) + 3));
        assert!(!holds(LabelUse::X86JmpRel32, (1 << 31) + 4));
        assert!(holds(LabelUse::A64Branch14, 32_764) && !holds(LabelUse::A64Branch14, 32_768));
        assert!(holds(LabelUse::A64Branch14, -32_768) && !holds(LabelUse::A64Branch14, 6));
        assert!(holds(LabelUse::A64Adr21, 1_048_575) && !holds(LabelUse::A64Adr21, 1_048_576));
        assert_eq!(LabelUse::A64Adrp21.reach(), None);
    }
}
