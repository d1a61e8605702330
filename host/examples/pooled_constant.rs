//! A constant that finish pools behind the code, read by an instruction, and a relocation for the linker.

use wargnifla::{Arch, CodeBuffer, Error, LabelUse, Reloc, RelocTarget, Sym};

fn main() -> Result<(), Error> {
    let log = Sym::from_id(0);
    let mut buffer = CodeBuffer::with_symbols(Arch::X64, 1);
    let factor = buffer.add_constant(&2.25f64.to_le_bytes())?;
    let factor = buffer.get_label_for_constant(factor)?;

    // mulsd xmm0, [rip + factor]
    buffer.put_bytes(&[0xF2, 0x0F, 0x59, 0x05])?;
    buffer.use_label_at_offset(buffer.cur_offset(), factor, LabelUse::X86JmpRel32)?;
    buffer.put4(0)?;
    // call log
    buffer.put1(0xE8)?;
    buffer.add_reloc(Reloc::X86CallPLTRel4, RelocTarget::Sym(log), -4)?;
    buffer.put4(0)?;
    // ret
    buffer.put1(0xC3)?;

    let code = buffer.finish()?;
    let place = code.label_offset(factor).expect("finish binds it");
    println!("{} bytes, constant at {place}", code.total_size());
    for reloc in code.relocs() {
        println!("{} at {}: {}", reloc.kind, reloc.offset, reloc.target);
    }
    Ok(())
}
