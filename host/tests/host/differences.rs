//! What this library answers to the sheets of reference/differences.txt, which keeps what the Rust does.

use wargnifla::{CodeBuffer, Error, read_text};

/// Records a sheet and finishes. `f` in it is a finish whose answer is dropped; one symbol exists.
fn finish(arch: u32, sheet: &str) -> Result<(), Error> {
    let mut buffer = CodeBuffer::start(arch, 1)?;
    for (finishes, part) in sheet.split("; f").enumerate() {
        if finishes > 0 {
            let _ = buffer.finish();
        }
        let calls = part.trim_start_matches(';');
        for call in &read_text(calls).expect("a well-formed text").calls {
            buffer.call(call)?;
        }
    }
    buffer.finish().map(drop)
}

fn arch_number(name: &str) -> u32 {
    match name {
        "X86" => 1,
        "X64" => 2,
        "RISCV64" => 4,
        "AArch64" => 6,
        _ => panic!("no architecture is named {name}"),
    }
}

#[test]
fn refuses_by_the_numbers_that_are_kept() {
    let lines = include_str!("../../../reference/differences.txt").lines();
    let lines = lines.filter(|line| !line.is_empty() && !line.starts_with('#'));
    for line in lines {
        let (left, _) = line.split_once("=>").expect("an answer");
        let parts: Vec<&str> = left.split('|').map(str::trim).collect();
        let [name, number, arch, sheet] = parts[..] else {
            panic!("four parts before the answer: {line}");
        };
        let answered = finish(arch_number(arch), sheet);
        let refusal = answered.err().map_or(0, |error| error.number());
        assert_eq!(refusal.to_string(), number, "{name}");
    }
}
