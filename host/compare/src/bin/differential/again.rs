//! ELF entries that were read, made relocations again.

use compare::model::relas::ELF_TYPES;
use compare::{Lent, Part};

/// What is written by hand: relocations, a record that counts them, and the ELF entries, which are spoilt.
pub const WRITTEN: [Part; 3] = [Part::Record, Part::Relocations, Part::Relas];

/// Makes the entries that were read relocations against symbols, of kinds that have their types, up to the first that is of another architecture or
/// has no room; and spoils the ELF entries that are to be written of them.
pub fn take_back(lent: &mut Lent) {
    let rooms = [Part::Relas, Part::Entries, Part::Relocations].map(|part| lent.room(part));
    let room = rooms.into_iter().min().unwrap_or_default();
    let Some(arch) = (room > 0).then(|| arch_of(lent, 0)) else {
        return;
    };
    let count = (0..room).take_while(|entry| arch_of(lent, *entry) == arch);
    let count = count.count();
    for entry in 0..count {
        let [offset, elf_type, symbol, zero, low, high] = lent.words(Part::Entries, entry);
        let kinds = ELF_TYPES.iter().filter(|row| row.2 == elf_type);
        let kinds: Vec<_> = kinds.map(|row| row.1).collect();
        // Of two kinds that have one type, each is taken now and then.
        let kind = kinds[offset as usize % kinds.len()];
        let words = [offset, kind, symbol, zero, low, high];
        lent.set_words(Part::Relocations, entry, &words);
    }
    if lent.room(Part::Record) > 0 {
        lent.set_words(Part::Record, 0, &[arch, 0, 0, 0, 0, count as u32]);
    }
    for byte in &mut lent[Part::Relas][..count * Part::Relas.entry_bytes()] {
        *byte = !*byte;
    }
}

/// The architecture of the type of an entry that was read.
fn arch_of(lent: &Lent, entry: usize) -> u32 {
    let elf_type = lent.word(Part::Entries, entry, 1);
    let row = ELF_TYPES.iter().find(|row| row.2 == elf_type);
    row.expect("a type in neither list is refused").0
}
