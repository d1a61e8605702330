//! Two rules joined, one of which calls what the other defines.

use wargnifla::{Arch, CodeBuffer, CodeBufferFinalized, Error, Reloc, Sym, join};

/// `call sort`, a symbol of another rule.
fn caller() -> Result<CodeBufferFinalized, Error> {
    let sort = Sym::from_id(0);
    let mut buffer = CodeBuffer::with_symbols(Arch::X64, 1);
    buffer.name_symbol(sort, "sort");
    buffer.put1(0xE8)?;
    buffer.add_reloc(Reloc::X86CallPLTRel4, sort.into(), -4)?;
    buffer.put4(0)?;
    buffer.finish()
}

/// `nop`, and behind it the entry that other rules call `sort`.
fn callee() -> Result<CodeBufferFinalized, Error> {
    let mut buffer = CodeBuffer::new(Arch::X64);
    let entry = buffer.get_label()?;
    buffer.bind_symbol("sort", entry);
    buffer.put1(0x90)?;
    buffer.try_bind_label(entry)?;
    buffer.put1(0xC3)?;
    buffer.finish()
}

fn main() -> Result<(), Error> {
    let (caller, callee) = (caller()?, callee()?);
    let whole = join([&caller, &callee])?;
    let (code, bases) = (whole.code(), whole.bases());
    println!(
        "2 rules: {} bytes, at {} and {}",
        code.total_size(),
        bases[0],
        bases[1]
    );
    for field in whole.filled() {
        let place = code.label_offset(field.label).expect("join needs it bound");
        println!(
            "{} at {place}, filled with {} at {}",
            code.names().text(field.symbol),
            field.value,
            field.offset
        );
    }
    if let Err(error) = join([&caller]) {
        println!(
            "{} {}: {}",
            error.number(),
            error.refusal(),
            error.sentence()
        );
    }
    Ok(())
}
