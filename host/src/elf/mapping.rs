//! The mapping symbols of AArch64's ELF (AAELF64), which tell a linker and a disassembler where instructions stand and where data. A linker mends
//! the sequences of instructions that a processor gets wrong only where they stand behind `$x`.

use std::iter;
use std::ops::Range;

use crate::{Arch, CodeBufferFinalized, CodeOffset, Reloc};

/// In front of instructions.
const CODE: &str = "$x";

/// In front of data.
const DATA: &str = "$d";

/// The size of every instruction, and what each stands on a multiple of.
const INSTRUCTION: u64 = 4;

/// A mapping symbol: its name, and the offset from which on it holds.
pub(super) type MappingSymbol = (&'static str, CodeOffset);

/// The mapping symbols of finished code, by rising offset; none but on AArch64.
pub(super) fn mapping_symbols(code: &CodeBufferFinalized) -> Vec<MappingSymbol> {
    if code.arch() != Arch::AArch64 {
        return Vec::new();
    }
    let end = code.total_size() as u64;
    let mut symbols = Vec::new();
    let mut mapped_to = 0;
    for instructions in instructions(code) {
        if mapped_to == 0 && instructions.start > 0 {
            symbols.push((DATA, 0));
        }
        mapped_to = instructions.end;
        symbols.push((CODE, instructions.start as CodeOffset));
        if mapped_to < end {
            symbols.push((DATA, mapped_to as CodeOffset));
        }
    }
    if mapped_to == 0 && end > 0 {
        symbols.push((DATA, 0));
    }
    symbols
}

/// Where instructions stand: all code that is not known to be data.
fn instructions(code: &CodeBufferFinalized) -> Vec<Range<u64>> {
    let end = code.total_size() as u64;
    let mut found = Vec::new();
    let mut start = 0u64;
    for data in data(code).into_iter().chain(iter::once(end..end)) {
        if start < data.start {
            found.push(start..data.start);
        }
        start = start.max(data.end.next_multiple_of(INSTRUCTION));
    }
    found
}

/// What is known to be data, by rising offset: the bytes that are no instructions, and the fields of absolute addresses, which no instruction has.
fn data(code: &CodeBufferFinalized) -> Vec<Range<u64>> {
    let known = code.contents.data.iter();
    let known = known.map(|range| u64::from(range.start)..u64::from(range.end));
    let addresses = code.relocs().iter().filter_map(|reloc| {
        let start = u64::from(reloc.offset);
        let is_address = matches!(reloc.kind, Reloc::Abs4 | Reloc::Abs8);
        is_address.then(|| start..start + u64::from(reloc.kind.field_size()))
    });
    let mut data: Vec<Range<u64>> = known.chain(addresses).collect();
    data.retain(|range| !range.is_empty());
    data.sort_unstable_by_key(|range| range.start);
    data
}
