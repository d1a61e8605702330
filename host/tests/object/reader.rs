//! An object read as far as the tests look at it. Fields have the names of the ELF specification.

use std::ops::Range;

#[derive(Debug)]
pub struct Object {
    pub e_machine: u16,
    pub sections: Vec<Section>,
}

#[derive(Debug)]
pub struct Section {
    pub name: String,
    pub sh_type: u32,
    pub sh_flags: u64,
    pub sh_link: u32,
    pub sh_info: u32,
    pub sh_addralign: u64,
    pub sh_entsize: u64,
    pub bytes: Vec<u8>,
}

/// A symbol: name, binding, type, section and value.
pub type Symbol = (String, u8, u8, u16, u64);

impl Object {
    pub fn read(file: &[u8]) -> Self {
        assert_eq!(file[..16], *b"\x7fELF\x02\x01\x01\0\0\0\0\0\0\0\0\0");
        assert_eq!(number(file, 16..18), 1, "e_type is ET_REL");
        assert_eq!(number(file, 20..24), 1, "e_version");
        assert_eq!([52..54, 58..60].map(|at| number(file, at)), [64, 64]);
        let headers = number(file, 40..48) as usize;
        assert!(headers.is_multiple_of(8));
        let headers: Vec<&[u8]> = file[headers..].chunks(64).collect();
        assert_eq!(number(file, 60..62), headers.len() as u64, "e_shnum");
        let names = content(file, headers[number(file, 62..64) as usize]);
        assert_eq!(headers[0], [0; 64]);
        let section = |header: &&[u8]| Section {
            name: string(names, number(header, 0..4) as usize),
            sh_type: number(header, 4..8) as u32,
            sh_flags: number(header, 8..16),
            sh_link: number(header, 40..44) as u32,
            sh_info: number(header, 44..48) as u32,
            sh_addralign: number(header, 48..56),
            sh_entsize: number(header, 56..64),
            bytes: content(file, header).to_vec(),
        };
        Self {
            e_machine: number(file, 18..20) as u16,
            sections: headers[1..].iter().map(section).collect(),
        }
    }

    pub fn section(&self, name: &str) -> &Section {
        let mut sections = self.sections.iter();
        sections.find(|section| section.name == name).unwrap()
    }

    /// The symbols behind the first two.
    pub fn symbols(&self) -> Vec<Symbol> {
        let names = &self.section(".strtab").bytes;
        let table = self.section(".symtab").bytes.chunks_exact(24);
        let symbols = table.map(|entry| {
            assert_eq!(entry[5], 0, "st_other");
            (
                string(names, number(entry, 0..4) as usize),
                entry[4] >> 4,
                entry[4] & 15,
                number(entry, 6..8) as u16,
                number(entry, 8..16),
            )
        });
        let mut symbols: Vec<Symbol> = symbols.collect();
        let own: Vec<Symbol> = symbols.drain(..2).collect();
        let empty = String::new;
        assert_eq!(own, [(empty(), 0, 0, 0, 0), (empty(), 0, 3, 1, 0)]);
        symbols
    }

    /// The sizes of the same.
    pub fn sizes(&self) -> Vec<u64> {
        let table = self.section(".symtab").bytes.chunks_exact(24);
        let mut sizes: Vec<u64> = table.map(|entry| number(entry, 16..24)).collect();
        let own: Vec<u64> = sizes.drain(..2).collect();
        assert_eq!(own, [0, 0]);
        sizes
    }
}

fn number(bytes: &[u8], at: Range<usize>) -> u64 {
    let bytes = bytes[at].iter().rev();
    bytes.fold(0, |number, byte| number << 8 | u64::from(*byte))
}

/// What a section's header says of where it stands in a file.
fn content<'a>(file: &'a [u8], header: &[u8]) -> &'a [u8] {
    let (start, len) = (number(header, 24..32), number(header, 32..40));
    assert!(start.is_multiple_of(number(header, 48..56)));
    &file[start as usize..(start + len) as usize]
}

fn string(table: &[u8], at: usize) -> String {
    let text = table[at..].split(|byte| *byte == 0).next().unwrap();
    String::from_utf8(text.to_vec()).unwrap()
}
