//! The bound for the output, which `finish` lends: it is enough, and it is reached.

use wargnifla::{Arch, CodeBuffer, Condition, Error, Label, RelaxableJump};

use crate::random::Random;

#[test]
fn a_finished_code_may_be_as_long_as_its_bound() {
    let text = "n; z 5; j 0 5 0 e; z 4091; a 4096; z 1; l 0; 4 ( c 010203040506070809 ); k 3; k 0";
    let code = crate::finished(text);
    assert_eq!(code.total_size(), 8193 + (15 + 9) + (7 + 9));
    let wide = "5A".repeat(64);
    let text = format!("n; z 5; j 0 5 0 e; z 4091; a 4096; z 1; l 0; c {wide}; k 0");
    let code = crate::finished(&text);
    assert_eq!(code.total_size(), 8193 + (63 + 64));
}

fn put_jump(buffer: &mut CodeBuffer, label: Label, random: &mut Random) -> Result<(), Error> {
    let len = 2 + random.below(14) as u8;
    let start = buffer.cur_offset();
    buffer.put_bytes(&vec![0; len.into()])?;
    buffer.record_relaxable_jump(RelaxableJump {
        start,
        len,
        label,
        cc: Condition::from_number(random.below(17)),
    })
}

fn put_constant(buffer: &mut CodeBuffer, random: &mut Random) -> Result<(), Error> {
    let bytes = vec![0; random.below(65) as usize];
    let constant = buffer.add_constant(&bytes)?;
    buffer.get_label_for_constant(constant).map(drop)
}

/// Jumps, alignments, constants and runs of bytes in some order.
fn random_recording(random: &mut Random) -> Result<CodeBuffer, Error> {
    const LABELS: u32 = 6;
    let mut buffer = CodeBuffer::new(Arch::X64);
    let labels: Vec<Label> = (0..LABELS)
        .map(|_| buffer.get_label())
        .collect::<Result<_, _>>()?;
    for _ in 0..random.below(30) {
        let label = labels[random.below(LABELS) as usize];
        match random.below(8) {
            0..=2 => put_jump(&mut buffer, label, random)?,
            3 => buffer.try_align_to(1 << random.below(13))?,
            4 => buffer.try_align_to_within(1 << random.below(13), random.below(64))?,
            5 => put_constant(&mut buffer, random)?,
            6 if !buffer.is_bound(label) => buffer.try_bind_label(label)?,
            _ => buffer.put_bytes(&vec![0x90; random.below(150) as usize])?,
        }
    }
    for label in labels {
        if !buffer.is_bound(label) {
            buffer.try_bind_label(label)?;
        }
    }
    Ok(buffer)
}

#[test]
fn it_is_enough_for_every_recording() {
    let mut random = Random(0x1234_5678_9ABC_DEF1);
    for _ in 0..5000 {
        let mut buffer = random_recording(&mut random).expect("an accepted recording");
        buffer.finish().expect("an accepted finish");
    }
}
