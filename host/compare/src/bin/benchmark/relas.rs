//! Relocations written as ELF entries, and entries read: by the C functions, and by plain loops in the Rust's place, which has nothing of the kind.

use std::hint::black_box;

use compare::{LABEL_TARGET, NONE, Part};

use crate::inputs::Step;
use crate::sides::{Side, Verified, word};

/// What is timed in the place of a finish.
#[derive(Clone, Copy, PartialEq, Eq)]
pub enum Task {
    Write,
    Read,
}

/// The number of the section symbol.
const SECTION: u32 = 1;

/// The C functions. All that comes before the task is done in recording.
pub struct Relas<'a, 'b> {
    pub verified: &'b mut Verified<'a>,
    pub task: Task,
}

impl Side for Relas<'_, '_> {
    fn clear(&mut self) {}

    fn record(&mut self, steps: &[Step]) {
        self.verified.record(steps);
        self.verified.finish();
        if self.task == Task::Read {
            self.verified.write_relas(SECTION);
        }
    }

    fn finish(&mut self) {
        match self.task {
            Task::Write => self.verified.write_relas(SECTION),
            Task::Read => self.verified.read_relas(),
        }
    }

    fn code(&mut self) -> &[u8] {
        self.verified.content(match self.task {
            Task::Write => Part::Relas,
            Task::Read => Part::Entries,
        })
    }
}

/// Loops over copies of the same tables, into a vector that is as long.
pub struct Loop {
    task: Task,
    labels: Vec<u32>,
    /// Relocations, or ELF entries.
    entries: Vec<u8>,
    output: Vec<u8>,
}

impl Loop {
    /// Takes over what the C functions made of some steps.
    pub fn new(relas: &mut Relas<'_, '_>, steps: &[Step]) -> Self {
        relas.record(steps);
        let labels = relas.verified.content(Part::Labels).chunks_exact(4);
        let entries = relas.verified.content(match relas.task {
            Task::Write => Part::Relocations,
            Task::Read => Part::Relas,
        });
        Self {
            task: relas.task,
            labels: labels.map(|label| word(label, 0)).collect(),
            entries: entries.to_vec(),
            output: vec![0; entries.len()],
        }
    }
}

impl Side for Loop {
    fn clear(&mut self) {}

    fn record(&mut self, _: &[Step]) {}

    fn finish(&mut self) {
        let done = match self.task {
            Task::Write => write(black_box(&self.entries), &self.labels, &mut self.output),
            Task::Read => read(black_box(&self.entries), &mut self.output),
        };
        assert!(done.is_some(), "the loop takes every entry");
        black_box(&mut self.output);
    }

    fn code(&mut self) -> &[u8] {
        &self.output
    }
}

fn write(relocations: &[u8], labels: &[u32], output: &mut [u8]) -> Option<()> {
    for (from, to) in relocations
        .chunks_exact(24)
        .zip(output.chunks_exact_mut(24))
    {
        let elf_type = match word(from, 1) {
            0 => 10,
            1 => 1,
            2 => 2,
            3 | 4 => 4,
            5 => 9,
            9 => 19,
            _ => return None,
        };
        let addend = u64::from(word(from, 5)) << 32 | u64::from(word(from, 4));
        let target = word(from, 2);
        let (symbol, addend) = match target.checked_sub(LABEL_TARGET) {
            None => (target, addend.cast_signed()),
            Some(label) => {
                let offset = *labels.get(label as usize)?;
                if offset == NONE {
                    return None;
                }
                (SECTION, addend.cast_signed().checked_add(offset.into())?)
            }
        };
        let info = u64::from(symbol) << 32 | elf_type;
        to[..8].copy_from_slice(&u64::from(word(from, 0)).to_le_bytes());
        to[8..16].copy_from_slice(&info.to_le_bytes());
        to[16..].copy_from_slice(&addend.to_le_bytes());
    }
    Some(())
}

fn read(relas: &[u8], output: &mut [u8]) -> Option<()> {
    for (from, to) in relas.chunks_exact(24).zip(output.chunks_exact_mut(24)) {
        let is_listed = matches!(
            word(from, 2),
            1 | 2 | 4 | 9 | 10 | 19 | 257 | 258 | 275 | 277 | 283
        );
        if word(from, 1) != 0 || !is_listed {
            return None;
        }
        to[..4].copy_from_slice(&from[..4]);
        to[4..12].copy_from_slice(&from[8..16]);
        to[12..16].fill(0);
        to[16..].copy_from_slice(&from[16..]);
    }
    Some(())
}
