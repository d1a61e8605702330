//! The library against the verified archive.

mod bound;
mod cases;
mod ceilings;
mod differences;
mod elf_types;
mod header;
mod join_boundary;
mod join_refusals;
mod joined_listings;
mod joins;
mod kinds;
mod lent;
mod limits;
mod listings;
mod open;
mod pools;
mod queue;
mod random;
mod refusals;
mod relas;
mod rules;
mod sheets;
mod threads;
mod unpatched;
mod wrapper;

use wargnifla::{Arch, CodeBuffer, CodeBufferFinalized, Error, read_text, symbols_named};

/// A buffer that has recorded a text, or the first refusal.
fn recorded(arch: Arch, text: &str) -> Result<CodeBuffer, Error> {
    let script = read_text(text).expect("a well-formed text");
    let mut buffer =
        CodeBuffer::with_symbols(arch, script.symbols.unwrap_or(symbols_named(&script.calls)));
    for call in &script.calls {
        buffer.call(call)?;
    }
    Ok(buffer)
}

/// What an X64 text finishes to.
fn finished(text: &str) -> CodeBufferFinalized {
    let mut buffer = recorded(Arch::X64, text).expect("an accepted recording");
    buffer.finish().expect("an accepted finish")
}
