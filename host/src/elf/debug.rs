//! Debug information of an object, by DWARF 4: a compile unit and its table of lines. Constants have the names of the DWARF specification.

use super::file::{Bytes, SHT_PROGBITS, Section};
use super::lines::{SourceLine, SourceLines};
use super::object::{TEXT_SYMBOL, rela_section};
use super::types::ElfType;
use crate::{Arch, CodeBufferFinalized, CodeOffset, Reloc};

/// The sections, by number: their order behind those of any object, with relocations behind two of them.
const DEBUG_LINE: u16 = 6;
const DEBUG_INFO: u16 = 8;
const DEBUG_ABBREV: u16 = 10;

/// The sections that have symbols behind the section of code's, since relocations name them; and these symbols.
pub(super) const SECTIONS: [u16; 2] = [DEBUG_LINE, DEBUG_ABBREV];
const LINE_SYMBOL: u32 = TEXT_SYMBOL + 1;
const ABBREV_SYMBOL: u32 = TEXT_SYMBOL + 2;

const VERSION: u16 = 4;
const ADDRESS_BYTES: u8 = 8;

const DW_TAG_COMPILE_UNIT: u8 = 0x11;
const DW_CHILDREN_NO: u8 = 0;
const DW_AT_NAME: u8 = 0x03;
const DW_AT_STMT_LIST: u8 = 0x10;
const DW_AT_LOW_PC: u8 = 0x11;
const DW_AT_HIGH_PC: u8 = 0x12;
const DW_AT_LANGUAGE: u8 = 0x13;
const DW_AT_COMP_DIR: u8 = 0x1B;
const DW_AT_PRODUCER: u8 = 0x25;
const DW_FORM_ADDR: u8 = 0x01;
const DW_FORM_DATA2: u8 = 0x05;
const DW_FORM_DATA8: u8 = 0x07;
const DW_FORM_STRING: u8 = 0x08;
const DW_FORM_SEC_OFFSET: u8 = 0x17;

/// What GNU's assembler gives for its language.
const DW_LANG_MIPS_ASSEMBLER: u16 = 0x8001;

const DW_LNS_COPY: u8 = 1;
const DW_LNS_ADVANCE_PC: u8 = 2;
const DW_LNS_ADVANCE_LINE: u8 = 3;
const DW_LNS_SET_FILE: u8 = 4;
const DW_LNE_END_SEQUENCE: u8 = 1;
const DW_LNE_SET_ADDRESS: u8 = 2;

/// The table's own description of how it is read: lengths of instructions, no operations side by side, each row a statement, and the numbers of
/// operands that the standard opcodes have. Special opcodes, whose three parameters are the usual ones, are not used.
const LINE_READING: [u8; 18] = [1, 1, 1, 0xFB, 14, 13, 0, 1, 1, 1, 1, 0, 0, 0, 1, 0, 0, 1];

/// The sections of debug information for code that comes from some lines, by number from [`DEBUG_LINE`] on.
pub(super) fn sections(code: &CodeBufferFinalized, lines: &SourceLines) -> Vec<Section> {
    let mut table = Content::new(code.arch());
    table.line_table(lines);
    let mut unit = Content::new(code.arch());
    unit.compile_unit(code, lines);
    let plain = |name, bytes: Bytes| Section::plain(name, SHT_PROGBITS, bytes.0);
    vec![
        plain(".debug_line", table.bytes),
        rela_section(".rela.debug_line", DEBUG_LINE, table.relas.0),
        plain(".debug_info", unit.bytes),
        rela_section(".rela.debug_info", DEBUG_INFO, unit.relas.0),
        plain(".debug_abbrev", abbreviations()),
    ]
}

/// The one abbreviation: what [`Content::compile_unit`] has, in its order.
fn abbreviations() -> Bytes {
    let mut bytes = Bytes(vec![1, DW_TAG_COMPILE_UNIT, DW_CHILDREN_NO]);
    for attribute in [
        [DW_AT_STMT_LIST, DW_FORM_SEC_OFFSET],
        [DW_AT_LOW_PC, DW_FORM_ADDR],
        [DW_AT_HIGH_PC, DW_FORM_DATA8],
        [DW_AT_NAME, DW_FORM_STRING],
        [DW_AT_COMP_DIR, DW_FORM_STRING],
        [DW_AT_PRODUCER, DW_FORM_STRING],
        [DW_AT_LANGUAGE, DW_FORM_DATA2],
        [0, 0],
    ] {
        bytes.0.extend(attribute);
    }
    bytes.0.push(0);
    bytes
}

/// What a section has, and its relocations.
struct Content {
    arch: Arch,
    bytes: Bytes,
    relas: Bytes,
}

impl Content {
    fn new(arch: Arch) -> Self {
        Self {
            arch,
            bytes: Bytes::default(),
            relas: Bytes::default(),
        }
    }

    /// Appends a field that the linker fills.
    fn field(&mut self, kind: Reloc, symbol: u32, addend: CodeOffset) {
        let elf_type = ElfType::of(self.arch, kind).expect("absolute addresses have types");
        let at = self.bytes.0.len() as u64;
        self.relas
            .rela(at, symbol, elf_type.number(), addend.into());
        let end = at as usize + kind.field_size() as usize;
        self.bytes.0.resize(end, 0);
    }

    fn string(&mut self, text: &str) {
        self.bytes.0.extend(text.as_bytes());
        self.bytes.0.push(0);
    }

    /// Appends a length that counts what follows it: where it stands.
    fn open_length(&mut self) -> usize {
        self.bytes.word(0);
        self.bytes.0.len()
    }

    /// Fills a length that was appended before what it counts.
    fn close_length(&mut self, start: usize) {
        let len = (self.bytes.0.len() - start) as u32;
        self.bytes.0[start - 4..start].copy_from_slice(&len.to_le_bytes());
    }

    fn compile_unit(&mut self, code: &CodeBufferFinalized, lines: &SourceLines) {
        let unit = self.open_length();
        self.bytes.half(VERSION);
        self.field(Reloc::Abs4, ABBREV_SYMBOL, 0);
        self.bytes.0.extend([ADDRESS_BYTES, 1]); // and the abbreviation's number
        self.field(Reloc::Abs4, LINE_SYMBOL, 0);
        self.field(Reloc::Abs8, TEXT_SYMBOL, 0);
        self.bytes.xword(code.total_size() as u64);
        self.string(&lines.files[0]);
        self.string(&lines.folder);
        self.string(concat!("wargnifla ", env!("CARGO_PKG_VERSION")));
        self.bytes.half(DW_LANG_MIPS_ASSEMBLER);
        self.close_length(unit);
    }

    fn line_table(&mut self, lines: &SourceLines) {
        let unit = self.open_length();
        self.bytes.half(VERSION);
        let header = self.open_length();
        self.bytes.0.extend(LINE_READING);
        self.bytes.0.push(0); // no folders beside the unit's
        for file in &lines.files {
            self.string(file);
            self.bytes.0.extend([0; 3]); // the unit's folder; neither time nor length
        }
        self.bytes.0.push(0);
        self.close_length(header);
        self.rows(&lines.lines);
        self.close_length(unit);
    }

    /// A sequence of rows for each run of lines whose code stands side by side.
    fn rows(&mut self, lines: &[SourceLine]) {
        for run in lines.chunk_by(|line, next| line.code.end == next.code.start) {
            self.bytes
                .0
                .extend([0, 1 + ADDRESS_BYTES, DW_LNE_SET_ADDRESS]);
            self.field(Reloc::Abs8, TEXT_SYMBOL, run[0].code.start);
            let (mut file, mut at) = (0, 1);
            for row in run {
                if row.file != file {
                    file = row.file;
                    self.bytes.0.push(DW_LNS_SET_FILE);
                    self.unsigned(1 + file as u64);
                }
                if row.line != at {
                    self.bytes.0.push(DW_LNS_ADVANCE_LINE);
                    self.signed(i64::from(row.line) - i64::from(at));
                    at = row.line;
                }
                self.bytes.0.extend([DW_LNS_COPY, DW_LNS_ADVANCE_PC]);
                self.unsigned(row.code.len() as u64);
            }
            self.bytes.0.extend([0, 1, DW_LNE_END_SEQUENCE]);
        }
    }

    /// Appends a number as DWARF's unsigned LEB128.
    fn unsigned(&mut self, mut value: u64) {
        while value > 0x7F {
            self.bytes.0.push(value as u8 | 0x80);
            value >>= 7;
        }
        self.bytes.0.push(value as u8);
    }

    /// Appends a number as DWARF's signed LEB128.
    fn signed(&mut self, mut value: i64) {
        while !(-0x40..0x40).contains(&value) {
            self.bytes.0.push(value as u8 | 0x80);
            value >>= 7;
        }
        self.bytes.0.push(value as u8 & 0x7F);
    }
}
