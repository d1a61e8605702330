//! Loop heads like a multiple of 32, at the price of at most 10 bytes: what each alignment comes to where it is recorded, and where finish sets it.

use wargnifla::{Arch, CodeBuffer, Condition, Error};

/// A loop of so many bytes, and the jump back to its head.
fn put_loop(buffer: &mut CodeBuffer, bytes: usize) -> Result<(), Error> {
    buffer.try_align_to_within(32, 10)?;
    let head = buffer.get_label()?;
    buffer.try_bind_label(head)?;
    buffer.put_bytes(&vec![0x90; bytes])?;
    buffer.put_jump(head, Some(Condition::Ne))
}

fn main() -> Result<(), Error> {
    let mut buffer = CodeBuffer::new(Arch::X64);
    buffer.put_bytes(&[0x90; 24])?;
    for bytes in [20, 30, 11, 40] {
        put_loop(&mut buffer, bytes)?;
    }
    let recording = buffer.recording();
    let code = buffer.finish()?;
    for (event, settled) in recording.events.iter().zip(code.segments()) {
        if let Some(align) = event.alignment() {
            println!(
                "recorded at {}: {}; finished at {}: {}",
                align.start,
                align.padding_at(align.start),
                settled.new_start,
                align.padding_at(settled.new_start)
            );
        }
    }
    println!("{} bytes", code.total_size());
    Ok(())
}
