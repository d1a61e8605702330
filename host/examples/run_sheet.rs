//! A binary sheet of calls, as the planner hands it over: written, run and listed.

use std::error::Error;

use wargnifla::{Arch, CodeBuffer, Extent, read_text, write_sheet};

const TEXT: &str = "
    label
    zeros 6
    jump 0 6 0 ne
    bytes 48 FF C0
    align 16
    bind 0
    bytes C3
";

fn main() -> Result<(), Box<dyn Error>> {
    let sheet = write_sheet(&read_text(TEXT)?.calls)?;
    println!("a sheet of {} bytes", sheet.len());

    let mut buffer = CodeBuffer::new(Arch::X64);
    buffer.run_sheet(&sheet)?;
    // A listing says what was recorded, too.
    let finished = buffer.finish_with_recording()?;
    print!("{}", finished.listing(Extent::Full));
    Ok(())
}
