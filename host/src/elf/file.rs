//! The bytes of an ELF relocatable object: its header, its sections and their headers. Constants and fields have the names of the ELF specification.

const ET_REL: u16 = 1;

pub(super) const SHT_PROGBITS: u32 = 1;
pub(super) const SHT_SYMTAB: u32 = 2;
pub(super) const SHT_STRTAB: u32 = 3;
pub(super) const SHT_RELA: u32 = 4;

const EHDR_BYTES: u16 = 64;
const SHDR_BYTES: u16 = 64;

/// A section, but for its place in the file.
pub(super) struct Section {
    pub name: &'static str,
    pub sh_type: u32,
    pub sh_flags: u64,
    pub sh_link: u32,
    pub sh_info: u32,
    pub sh_addralign: u64,
    pub sh_entsize: u64,
    pub bytes: Vec<u8>,
}

impl Section {
    /// One whose fields say no more than its type.
    pub fn plain(name: &'static str, sh_type: u32, bytes: Vec<u8>) -> Self {
        Self {
            name,
            sh_type,
            sh_flags: 0,
            sh_link: 0,
            sh_info: 0,
            sh_addralign: 1,
            sh_entsize: 0,
            bytes,
        }
    }
}

/// The file with some sections, numbered from 1, and behind them the one of the sections' names.
pub(super) fn file(e_machine: u16, mut sections: Vec<Section>) -> Vec<u8> {
    const NAMES: &str = ".shstrtab";
    let mut names = Strings::new();
    let mut sh_names: Vec<u32> = sections.iter().map(|found| names.add(found.name)).collect();
    sh_names.push(names.add(NAMES));
    sections.push(Section::plain(NAMES, SHT_STRTAB, names.0));
    let mut contents = Bytes::default();
    let mut headers = Bytes(vec![0; SHDR_BYTES.into()]);
    contents.0.resize(EHDR_BYTES.into(), 0);
    for (sh_name, section) in sh_names.into_iter().zip(&sections) {
        contents.align(section.sh_addralign);
        headers.section(sh_name, contents.0.len(), section);
        contents.0.extend(&section.bytes);
    }
    contents.align(8);
    let mut header = Bytes::default();
    header.file(e_machine, contents.0.len(), sections.len() as u16);
    contents.0[..EHDR_BYTES.into()].copy_from_slice(&header.0);
    [contents.0, headers.0].concat()
}

/// A string table: names, each ended by a zero byte, behind the one that is empty.
pub(super) struct Strings(pub Vec<u8>);

impl Strings {
    pub fn new() -> Self {
        Self(vec![0])
    }

    /// Appends a name: where it stands.
    pub fn add(&mut self, name: &str) -> u32 {
        let at = self.0.len() as u32;
        self.0.extend(name.as_bytes());
        self.0.push(0);
        at
    }
}

/// Bytes to which ELF's numbers are appended, little-endian.
#[derive(Default)]
pub(super) struct Bytes(pub Vec<u8>);

impl Bytes {
    pub fn half(&mut self, value: u16) {
        self.0.extend(value.to_le_bytes());
    }

    pub fn word(&mut self, value: u32) {
        self.0.extend(value.to_le_bytes());
    }

    pub fn xword(&mut self, value: u64) {
        self.0.extend(value.to_le_bytes());
    }

    fn align(&mut self, multiple: u64) {
        let len = self.0.len().next_multiple_of(multiple as usize);
        self.0.resize(len, 0);
    }

    /// An `Elf64_Ehdr`, where the names are those of the last section.
    fn file(&mut self, e_machine: u16, e_shoff: usize, e_shstrndx: u16) {
        // 64 bits, little-endian, version 1; the rest is 0.
        self.0.extend(b"\x7fELF\x02\x01\x01");
        self.0.resize(16, 0);
        self.half(ET_REL);
        self.half(e_machine);
        self.word(1); // e_version
        self.xword(0); // e_entry
        self.xword(0); // e_phoff
        self.xword(e_shoff as u64);
        self.word(0); // e_flags
        self.half(EHDR_BYTES);
        self.half(0); // e_phentsize
        self.half(0); // e_phnum
        self.half(SHDR_BYTES);
        self.half(e_shstrndx + 1); // e_shnum
        self.half(e_shstrndx);
    }

    /// An `Elf64_Shdr`.
    fn section(&mut self, sh_name: u32, sh_offset: usize, section: &Section) {
        self.word(sh_name);
        self.word(section.sh_type);
        self.xword(section.sh_flags);
        self.xword(0); // sh_addr
        self.xword(sh_offset as u64);
        self.xword(section.bytes.len() as u64);
        self.word(section.sh_link);
        self.word(section.sh_info);
        self.xword(section.sh_addralign);
        self.xword(section.sh_entsize);
    }

    /// An `Elf64_Rela`.
    pub fn rela(&mut self, r_offset: u64, symbol: u32, elf_type: u32, r_addend: u64) {
        self.xword(r_offset);
        self.xword(u64::from(symbol) << 32 | u64::from(elf_type));
        self.xword(r_addend);
    }

    /// An `Elf64_Sym`.
    pub fn symbol(
        &mut self,
        st_name: u32,
        [binding, st_type]: [u8; 2],
        st_shndx: u16,
        [st_value, st_size]: [u32; 2],
    ) {
        self.word(st_name);
        self.0.extend([binding << 4 | st_type, 0]);
        self.half(st_shndx);
        self.xword(st_value.into());
        self.xword(st_size.into());
    }
}
