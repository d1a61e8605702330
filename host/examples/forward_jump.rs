//! A forward jump over a run of bytes: short up to 127 bytes, long beyond.

use wargnifla::{Arch, CodeBuffer, CodeBufferFinalized, Error};

/// `jmp end`, a run of NOPs, and `end`.
fn jump_over(run: usize) -> Result<CodeBufferFinalized, Error> {
    let mut buffer = CodeBuffer::new(Arch::X64);
    let end = buffer.get_label()?;
    // The long form; finish writes the one that is needed.
    buffer.put_jump(end, None)?;
    buffer.put_bytes(&vec![0x90; run])?;
    buffer.try_bind_label(end)?;
    buffer.finish()
}

fn main() -> Result<(), Error> {
    for run in [127, 128] {
        let code = jump_over(run)?;
        println!(
            "a run of {run}: {} bytes, layouts {}, first byte {:02X}",
            code.total_size(),
            code.layouts(),
            code.data()[0]
        );
    }
    Ok(())
}
