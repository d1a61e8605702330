//! Relocations for the system linker: `Elf64_Rela` entries, which the verified library writes and reads, and objects with them.

mod debug;
mod file;
mod lines;
mod mapping;
mod object;
mod symbols;
mod types;

pub use lines::{SourceLine, SourceLines};
pub use object::ObjectError;
pub use types::ElfType;

use crate::explain::{explain_read_relas, explain_write_relas};
use crate::recording::AsmReloc;
use crate::tables::{RELOC_BYTES, label_entries, reloc_addend, reloc_entries, word};
use crate::verified;
use crate::{CodeBufferFinalized, CodeOffset, Error, Place};

/// An `Elf64_Rela` entry.
#[derive(Clone, Copy, Debug, PartialEq, Eq)]
pub struct Rela {
    /// Where it applies.
    pub offset: CodeOffset,
    /// How it applies.
    pub elf_type: ElfType,
    /// What it is about, by its number in a symbol table.
    pub symbol: u32,
    /// What is added to the symbol.
    pub addend: i64,
}

impl CodeBufferFinalized {
    /// The relocations as `Elf64_Rela` entries of 24 bytes, in recorded order. Symbols keep their numbers; a label becomes `section_symbol`, the
    /// number of the symbol that stands for the code's section, and its offset is added to the addend. So [`Reloc::X86GOTPCRel4`] and
    /// [`Reloc::ElfX86_64TlsGd`] are to name a symbol: a linker makes their places in the GOT for the symbol alone, without the addend.
    ///
    /// [`Reloc::X86GOTPCRel4`]: crate::Reloc::X86GOTPCRel4
    /// [`Reloc::ElfX86_64TlsGd`]: crate::Reloc::ElfX86_64TlsGd
    ///
    /// ```
    /// use wargnifla::{Arch, CodeBuffer, Reloc, RelocTarget, Sym};
    ///
    /// # fn main() -> Result<(), wargnifla::Error> {
    /// let mut buffer = CodeBuffer::with_symbols(Arch::X64, 4);
    /// buffer.put1(0xE8)?;
    /// buffer.add_reloc(Reloc::X86CallPLTRel4, RelocTarget::Sym(Sym::from_id(3)), -4)?;
    /// buffer.put4(0)?;
    /// let relas = buffer.finish()?.relas(1)?;
    /// let [offset, info, addend] = [1, 3 << 32 | 4, -4i64].map(i64::to_le_bytes);
    /// assert_eq!(relas, [offset, info, addend].concat());
    /// # Ok(())
    /// # }
    /// ```
    ///
    /// # Errors
    ///
    /// Number 24, where the architecture is X86 or a kind has no [`ElfType`], or 25, where an addend and a label's offset pass 64 bits.
    pub fn relas(&self, section_symbol: u32) -> Result<Vec<u8>, Error> {
        self.relas_of(&self.relocs, section_symbol)
    }

    /// The same of relocations that differ from this code's in their symbols' numbers alone.
    fn relas_of(&self, relocs: &[AsmReloc], section_symbol: u32) -> Result<Vec<u8>, Error> {
        let labels = label_entries(&self.label_offsets);
        let relocs = reloc_entries(relocs);
        verified::write_relas(&self.record, &labels, &relocs, section_symbol).map_err(|number| {
            let (sentence, entry) = explain_write_relas(self, number);
            Error::new(number, Place::WriteRelas, sentence).at_entry(entry)
        })
    }
}

/// Reads `Elf64_Rela` entries, of X64 and of AArch64.
///
/// ```
/// use wargnifla::{ElfType, Rela, Refusal, read_relas};
///
/// let bytes = [1, 3 << 32 | 4, -4i64].map(i64::to_le_bytes).concat();
/// let rela = Rela { offset: 1, elf_type: ElfType::R_X86_64_PLT32, symbol: 3, addend: -4 };
/// assert_eq!(read_relas(&bytes), Ok(vec![rela]));
/// assert_eq!(read_relas(&bytes[1..]).unwrap_err().refusal(), Refusal::Malformed);
/// ```
///
/// # Errors
///
/// Number 1, where the length is no multiple of 24, an offset passes 32 bits or a type is no [`ElfType`], or 11, where there are more than 65,536
/// entries.
pub fn read_relas(relas: &[u8]) -> Result<Vec<Rela>, Error> {
    let entries = verified::read_relas(relas).map_err(|number| {
        let sentence = explain_read_relas(relas, number);
        Error::new(number, Place::ReadRelas, sentence)
    })?;
    Ok(entries.chunks_exact(RELOC_BYTES).map(rela).collect())
}

/// An entry of the table that is read into: a relocation's, with the type in the place of the kind.
fn rela(entry: &[u8]) -> Rela {
    Rela {
        offset: word(entry, 0),
        elf_type: ElfType::from_number(word(entry, 1)).expect("the types of ElfType are all"),
        symbol: word(entry, 2),
        addend: reloc_addend(entry),
    }
}
