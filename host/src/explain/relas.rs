//! Relocations that can't be written as ELF, and entries that can't be read.

use super::NO_REASON;
use super::finish::Found;
use crate::recording::{AsmReloc, RelocTarget};
use crate::tables::word;
use crate::verified::RELA_BYTES;
use crate::{Arch, CodeBufferFinalized, ElfType, Entry, MOST_ENTRIES};
use sheet_text::counted;

/// Why the relocations of finished code can't be written, and the one that it is for.
pub(crate) fn explain_write_relas(
    finished: &CodeBufferFinalized,
    number: u32,
) -> (String, Option<Entry>) {
    let found = match number {
        3 => past_limit(finished),
        24 => foreign_arch(finished.arch()).or_else(|| first(finished, no_type)),
        25 => first(finished, addend_overflow),
        26 => Some((too_long(finished.relocs().len()), None)),
        _ => None,
    };
    found.unwrap_or_else(|| (NO_REASON.into(), None))
}

/// Joined code alone may have more than finished code can.
fn past_limit(finished: &CodeBufferFinalized) -> Found {
    let counts = [
        (finished.label_offsets().len(), "label"),
        (finished.relocs().len(), "relocation"),
    ];
    let mut passed = counts
        .into_iter()
        .filter(|(count, _)| *count > MOST_ENTRIES);
    let (count, noun) = passed.next()?;
    let count = counted(count, noun);
    Some((
        format!("the code has {count}, and at most 65,536 are written as ELF"),
        None,
    ))
}

fn foreign_arch(arch: Arch) -> Found {
    let sentence =
        format!("relocations are written as ELF for X64 and AArch64, and this code is for {arch}");
    match arch {
        Arch::X64 | Arch::AArch64 => None,
        Arch::X86 => Some((sentence, None)),
    }
}

/// The first relocation that something is wrong with.
fn first(
    finished: &CodeBufferFinalized,
    wrong: impl Fn(&CodeBufferFinalized, &AsmReloc) -> Option<String>,
) -> Found {
    let mut relocs = finished.relocs().iter().enumerate();
    relocs.find_map(|(i, reloc)| {
        let sentence = of_relocation(i, reloc, &wrong(finished, reloc)?);
        Some((sentence, Some(Entry::Reloc(i))))
    })
}

/// What is wrong with a relocation, by its index. A sheet has the recorded offset, so the sentence says that this one is another.
pub(crate) fn of_relocation(i: usize, reloc: &AsmReloc, wrong: &str) -> String {
    format!(
        "relocation {i}, at {} in the finished code, {wrong}",
        reloc.offset
    )
}

fn no_type(finished: &CodeBufferFinalized, reloc: &AsmReloc) -> Option<String> {
    let (arch, kind) = (finished.arch(), reloc.kind);
    match ElfType::of(arch, kind) {
        Some(_) => None,
        None => Some(format!(
            "is of kind {kind}, which has no ELF type on {arch}"
        )),
    }
}

fn addend_overflow(finished: &CodeBufferFinalized, reloc: &AsmReloc) -> Option<String> {
    let RelocTarget::Label(label) = reloc.target else {
        return None;
    };
    let (offset, addend) = (finished.label_offset(label)?, reloc.addend);
    match addend.checked_add(offset.into()) {
        Some(_) => None,
        None => Some(format!(
            "has the addend {addend}, and with {} at {offset} it passes {}",
            finished.names.text(label),
            i64::MAX
        )),
    }
}

fn too_long(relocs: usize) -> String {
    format!(
        "{} need {} bytes of output, {RELA_BYTES} each",
        counted(relocs, "relocation"),
        relocs * RELA_BYTES
    )
}

/// Why entries can't be read.
pub(crate) fn explain_read_relas(relas: &[u8], number: u32) -> String {
    let sentence = match number {
        1 => broken_length(relas).or_else(|| broken_entry(relas)),
        11 => Some(format!(
            "there are {} entries, and a table holds at most 65,536",
            relas.len() / RELA_BYTES
        )),
        _ => None,
    };
    sentence.unwrap_or_else(|| NO_REASON.into())
}

fn broken_length(relas: &[u8]) -> Option<String> {
    let len = relas.len();
    (!len.is_multiple_of(RELA_BYTES)).then(|| {
        format!("the length, {len}, is no multiple of {RELA_BYTES}, the length of an entry")
    })
}

fn broken_entry(relas: &[u8]) -> Option<String> {
    let mut entries = relas.chunks_exact(RELA_BYTES).enumerate();
    entries.find_map(|(i, entry)| {
        let [low, high, number] = [0, 1, 2].map(|index| word(entry, index));
        if high != 0 {
            let offset = u64::from(high) << 32 | u64::from(low);
            return Some(format!("entry {i} has the offset {offset}, past 32 bits"));
        }
        match ElfType::from_number(number) {
            Some(_) => None,
            None => Some(format!(
                "entry {i} has type {number}, which is none of those that relocations are written as"
            )),
        }
    })
}

#[cfg(test)]
mod tests {
    use super::*;
    use crate::{CodeBuffer, Reloc, Sym};

    #[test]
    fn an_output_that_the_host_never_lends_has_its_sentence() {
        let mut buffer = CodeBuffer::with_symbols(Arch::X64, 1);
        let symbol = Sym::from_id(0).into();
        buffer.add_reloc(Reloc::Abs8, symbol, 0).unwrap();
        buffer.add_reloc(Reloc::Abs4, symbol, 0).unwrap();
        let code = buffer.finish().unwrap();
        let sentence = "2 relocations need 48 bytes of output, 24 each";
        assert_eq!(explain_write_relas(&code, 26), (sentence.into(), None));
    }
}
