//! An ELF relocatable object: finished code as a section, its relocations, and the symbols that these and the labels' names ask for. Constants and
//! fields have the names of the ELF specification.

use std::collections::HashMap;
use std::fmt;

use super::debug;
use super::file::{Bytes, SHT_PROGBITS, SHT_RELA, SHT_STRTAB, SHT_SYMTAB, Section, Strings, file};
use super::lines::SourceLines;
use super::symbols::{SHN_UNDEF, STB_LOCAL, STT_NOTYPE, Symbols, TEXT};
use crate::explain::of_relocation;
use crate::recording::RelocTarget;
use crate::verified::RELA_BYTES;
use crate::{Arch, CodeBufferFinalized, CodeOffset, Error, Reloc};
use sheet_text::shown;

const EM_X86_64: u16 = 62;
const EM_AARCH64: u16 = 183;

const SHF_ALLOC: u64 = 2;
const SHF_EXECINSTR: u64 = 4;
const SHF_INFO_LINK: u64 = 0x40;

const STT_SECTION: u8 = 3;

const SYM_BYTES: u64 = 24;

/// Sections by number; those that are not named here are behind these.
const SYMTAB: u32 = 3;
const STRTAB: u32 = 4;

/// The symbol that stands for the section of code; symbol 0 is none.
pub(super) const TEXT_SYMBOL: u32 = 1;

/// A page of AArch64, whose number an ADRP holds.
const PAGE: u32 = 4096;

/// Why finished code can't be an object.
#[derive(Clone, Debug, PartialEq, Eq)]
#[non_exhaustive]
pub enum ObjectError {
    /// The relocations are refused: number 24 or 25.
    Relocations(Error),
    /// The field of a relocation passes the end of the code, where no linker fills it.
    FieldPastEnd {
        /// The relocation, by its index.
        relocation: usize,
        /// What is wrong.
        sentence: String,
    },
    /// A relocation for which a linker makes entries in the GOT, [`Reloc::X86GOTPCRel4`] or [`Reloc::ElfX86_64TlsGd`], names a label. The linker makes
    /// them for symbols alone, and would make them for the section's, without the label's offset.
    LabelInGot {
        /// The relocation, by its index.
        relocation: usize,
        /// What is wrong.
        sentence: String,
    },
    /// The name of a label or symbol is empty or has a zero byte, which ends names in an object.
    UnfitName(RelocTarget),
    /// The lines are unfit: what is wrong with them.
    Lines(String),
    /// Two labels or symbols have one name.
    NameTwice {
        /// The name.
        name: String,
        /// The first that has it, in the order of the object's symbols.
        first: RelocTarget,
        /// The second.
        second: RelocTarget,
    },
}

impl fmt::Display for ObjectError {
    fn fmt(&self, f: &mut fmt::Formatter<'_>) -> fmt::Result {
        match self {
            Self::Relocations(error) => error.fmt(f),
            Self::FieldPastEnd { sentence, .. } | Self::LabelInGot { sentence, .. } => {
                f.write_str(sentence)
            }
            Self::Lines(sentence) => f.write_str(sentence),
            Self::UnfitName(target) => write!(
                f,
                "the name of {target} is empty or has a zero byte, and no symbol of an object has such a name"
            ),
            Self::NameTwice {
                name,
                first,
                second,
            } => write!(
                f,
                "{first} and {second} are both named '{}', and an object has one symbol of a name",
                shown(name)
            ),
        }
    }
}

impl std::error::Error for ObjectError {}

impl From<Error> for ObjectError {
    fn from(error: Error) -> Self {
        Self::Relocations(error)
    }
}

impl CodeBufferFinalized {
    /// The multiple that the code's section is aligned on in an object: [`Self::alignment`], or 4,096 where an ADRP of the code, or the ADD after one,
    /// names a label by a use: finish fills such fields for code that is loaded on a page.
    #[must_use]
    pub fn section_alignment(&self) -> u32 {
        match self.has_page_fields {
            true => PAGE.max(self.alignment()),
            false => self.alignment(),
        }
    }

    /// An ELF relocatable object (ELF64, little-endian) for the system linker: the code as the section `.text`, and its relocations as
    /// [`Self::relas`] gives them, but for the symbols' numbers, which are the object's own.
    ///
    /// Bound labels that have names are global symbols, or local ones where the name starts with `.`, and so are the symbols that bound labels define
    /// ([`bind_symbol`](crate::CodeBuffer::bind_symbol)); [`Self::unbound_definitions`] lists what labels that are not bound define. Other symbols that
    /// relocations name are undefined ones, for the linker to find. A symbol is called `s0`, `s1` and so on where it has no name. Names and definitions
    /// are those that were given before finish.
    ///
    /// A label that was given a symbol to define is a function, `STT_FUNC`, if code stands behind it: up to the next such label, or to the pool. The
    /// label of a constant is an object, `STT_OBJECT`, of the constant's size. Other labels have neither type nor size.
    ///
    /// On AArch64 the mapping symbols `$x` and `$d` stand in front of instructions and of data. Data are the zeros of alignments and those between
    /// joined pieces, pools with their padding, and the fields of absolute addresses. All other bytes count as instructions.
    ///
    /// ```
    /// use wargnifla::{Arch, CodeBuffer, Reloc, RelocTarget, Sym};
    ///
    /// # fn main() -> Result<(), Box<dyn std::error::Error>> {
    /// let mut buffer = CodeBuffer::with_symbols(Arch::X64, 1);
    /// let (rule, puts) = (buffer.get_label()?, Sym::from_id(0));
    /// buffer.name_label(rule, "rule");
    /// buffer.name_symbol(puts, "puts");
    /// buffer.try_bind_label(rule)?;
    /// buffer.put1(0xE9)?; // jmp puts
    /// buffer.add_reloc(Reloc::X86CallPLTRel4, RelocTarget::Sym(puts), -4)?;
    /// buffer.put4(0)?;
    /// let object = buffer.finish()?.object()?;
    /// assert_eq!(object[..4], *b"\x7fELF");
    /// # Ok(())
    /// # }
    /// ```
    ///
    /// # Errors
    ///
    /// As [`Self::relas`]; and where a relocation's field passes the end of the code, one of kind [`Reloc::X86GOTPCRel4`] or
    /// [`Reloc::ElfX86_64TlsGd`] names a label, two symbols that are not both local would have one name, or one a name that no object holds.
    pub fn object(&self) -> Result<Vec<u8>, ObjectError> {
        self.object_from(None)
    }

    /// The same with debug information, DWARF 4, which says from which lines the code comes: debuggers, profilers and disassemblers show them.
    ///
    /// ```
    /// use wargnifla::{Arch, CodeBuffer, SourceLine, SourceLines};
    ///
    /// # fn main() -> Result<(), Box<dyn std::error::Error>> {
    /// let mut buffer = CodeBuffer::new(Arch::X64);
    /// buffer.put_bytes(&[0x90, 0xC3])?;
    /// let lines = SourceLines {
    ///     folder: "/rules".into(),
    ///     files: vec!["sort.rule".into()],
    ///     lines: vec![
    ///         SourceLine { code: 0..1, file: 0, line: 7 },
    ///         SourceLine { code: 1..2, file: 0, line: 9 },
    ///     ],
    /// };
    /// let object = buffer.finish()?.object_with_lines(&lines)?;
    /// assert_eq!(object[..4], *b"\x7fELF");
    /// # Ok(())
    /// # }
    /// ```
    ///
    /// # Errors
    ///
    /// As [`Self::object`]; and where a name of the lines is unfit, or a line's code is empty, passes the end of the code or does not stand behind
    /// that of the line before.
    pub fn object_with_lines(&self, lines: &SourceLines) -> Result<Vec<u8>, ObjectError> {
        self.object_from(Some(lines))
    }

    fn object_from(&self, lines: Option<&SourceLines>) -> Result<Vec<u8>, ObjectError> {
        let sections = lines.map_or(&[][..], |_| &debug::SECTIONS);
        let symbols = Symbols::new(self, sections);
        let relas = self.relas_of(&symbols.renumbered(&self.relocs), TEXT_SYMBOL)?;
        self.check_relocs()?;
        if let Some(wrong) = lines.and_then(|lines| lines.wrong(self.total_size())) {
            return Err(ObjectError::Lines(wrong));
        }
        let (symtab, strtab) = symbol_tables(&symbols)?;
        let mut sections = vec![
            Section {
                sh_flags: SHF_ALLOC | SHF_EXECINSTR,
                sh_addralign: self.section_alignment().into(),
                ..Section::plain(".text", SHT_PROGBITS, self.data().to_vec())
            },
            rela_section(".rela.text", TEXT, relas),
            Section {
                sh_link: STRTAB,
                sh_info: symbols.first_global,
                sh_addralign: 8,
                sh_entsize: SYM_BYTES,
                ..Section::plain(".symtab", SHT_SYMTAB, symtab)
            },
            Section::plain(".strtab", SHT_STRTAB, strtab),
            // Without it a linker takes the object for one that needs its stack to be executable.
            Section::plain(".note.GNU-stack", SHT_PROGBITS, Vec::new()),
        ];
        sections.extend(
            lines
                .into_iter()
                .flat_map(|lines| debug::sections(self, lines)),
        );
        Ok(file(machine(self.arch()), sections))
    }

    /// Refuses relocations that have a type, but that no linker fills as they are meant.
    fn check_relocs(&self) -> Result<(), ObjectError> {
        let len = self.total_size() as CodeOffset;
        for (relocation, reloc) in self.relocs.iter().enumerate() {
            let (kind, size) = (reloc.kind, reloc.kind.field_size());
            if u64::from(reloc.offset) + u64::from(size) > len.into() {
                let wrong =
                    format!("has a field of {size} bytes, which passes the end of the code, {len}");
                return Err(ObjectError::FieldPastEnd {
                    relocation,
                    sentence: of_relocation(relocation, reloc, &wrong),
                });
            }
            if let RelocTarget::Label(label) = reloc.target
                && let Reloc::X86GOTPCRel4 | Reloc::ElfX86_64TlsGd = kind
            {
                let label = self.names.text(label);
                let wrong = format!(
                    "is of kind {kind} and names {label}, but a linker makes GOT entries for symbols alone: name a symbol instead"
                );
                return Err(ObjectError::LabelInGot {
                    relocation,
                    sentence: of_relocation(relocation, reloc, &wrong),
                });
            }
        }
        Ok(())
    }
}

/// The relocations of a section, which is given by its number.
pub(super) fn rela_section(name: &'static str, section: u16, relas: Vec<u8>) -> Section {
    Section {
        sh_flags: SHF_INFO_LINK,
        sh_link: SYMTAB,
        sh_info: section.into(),
        sh_addralign: 8,
        sh_entsize: RELA_BYTES as u64,
        ..Section::plain(name, SHT_RELA, relas)
    }
}

fn machine(arch: Arch) -> u16 {
    match arch {
        Arch::X64 => EM_X86_64,
        Arch::AArch64 => EM_AARCH64,
        Arch::X86 => unreachable!("its relocations are refused"),
    }
}

/// The symbol table and its strings.
fn symbol_tables(symbols: &Symbols<'_>) -> Result<(Vec<u8>, Vec<u8>), ObjectError> {
    let mut strings = Strings::new();
    let mut table = Bytes::default();
    table.symbol(0, [STB_LOCAL, STT_NOTYPE], SHN_UNDEF, [0, 0]);
    for section in &symbols.sections {
        table.symbol(0, [STB_LOCAL, STT_SECTION], *section, [0, 0]);
    }
    for (name, offset) in &symbols.mapping {
        let st_name = strings.add(name);
        table.symbol(st_name, [STB_LOCAL, STT_NOTYPE], TEXT, [*offset, 0]);
    }
    let mut named = HashMap::new();
    for symbol in &symbols.all {
        let (name, target) = (&*symbol.name, symbol.target);
        if name.is_empty() || name.contains('\0') {
            return Err(ObjectError::UnfitName(target));
        }
        // Local names, which come first, may be the same: each piece of joined code has its own.
        let first = named.insert(name, target);
        if let Some(first) = first.filter(|_| symbol.binding != STB_LOCAL) {
            return Err(ObjectError::NameTwice {
                name: name.into(),
                first,
                second: target,
            });
        }
        table.symbol(
            strings.add(name),
            [symbol.binding, symbol.st_type],
            symbol.st_shndx,
            [symbol.st_value, symbol.st_size],
        );
    }
    Ok((table.0, strings.0))
}
