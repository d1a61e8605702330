//! ELF objects: what stands in them, and what GNU's binutils make of them where these are at hand.

mod aarch64;
mod binutils;
#[cfg(all(target_arch = "x86_64", target_os = "linux"))]
mod ceilings;
mod contents;
mod debug;
#[path = "../host/elf_types.rs"]
mod elf_types;
mod joined;
mod mapping;
mod notes;
#[path = "../host/random.rs"]
mod random;
mod reader;
mod shown;
mod types;
#[cfg(all(target_arch = "x86_64", target_os = "linux"))]
mod x64;

use std::process::Command;

use wargnifla::{Arch, CodeBuffer, CodeBufferFinalized, Label, Reloc, RelocTarget, Sym};

/// A rule that is recorded piece by piece, its fields with their relocations.
struct Rule {
    buffer: CodeBuffer,
}

impl Rule {
    /// Starts one whose symbols have names.
    fn new(arch: Arch, symbols: &[&str]) -> Self {
        let mut buffer = CodeBuffer::with_symbols(arch, symbols.len() as u32);
        for (symbol, name) in (0..).zip(symbols) {
            buffer.name_symbol(Sym::from_id(symbol), name);
        }
        Self { buffer }
    }

    /// Makes a label with a name, not yet bound.
    fn label(&mut self, name: &str) -> Label {
        let label = self.buffer.get_label().unwrap();
        self.buffer.name_label(label, name);
        label
    }

    fn bind(&mut self, label: Label) {
        self.buffer.try_bind_label(label).unwrap();
    }

    fn bytes(&mut self, bytes: &[u8]) {
        self.buffer.put_bytes(bytes).unwrap();
    }

    /// Appends a field of zeros for the linker to fill.
    fn field(&mut self, kind: Reloc, target: impl Into<RelocTarget>, addend: i64) {
        self.buffer.add_reloc(kind, target.into(), addend).unwrap();
        self.bytes(&vec![0; kind.field_size() as usize]);
    }

    /// Appends an instruction of AArch64 for the linker to fill.
    fn instruction(&mut self, word: u32, kind: Reloc, target: impl Into<RelocTarget>, addend: i64) {
        self.buffer.add_reloc(kind, target.into(), addend).unwrap();
        self.buffer.put4(word).unwrap();
    }

    fn finish(mut self) -> CodeBufferFinalized {
        self.buffer.finish().unwrap()
    }

    fn object(self) -> Vec<u8> {
        self.finish().object().unwrap()
    }
}

/// The object that the command writes of sheets for users.
fn object_of(sheets: &[&str]) -> Vec<u8> {
    let sheets = sheets
        .iter()
        .map(|sheet| format!("{}/../sheets/{sheet}.txt", env!("CARGO_MANIFEST_DIR")));
    let written = Command::new(env!("CARGO_BIN_EXE_wargnifla"))
        .args(["--object", "-"])
        .args(sheets)
        .output()
        .unwrap();
    assert_eq!(String::from_utf8_lossy(&written.stderr), "");
    written.stdout
}
