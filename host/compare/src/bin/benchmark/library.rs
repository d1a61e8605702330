//! Code that nobody here wrote: the jumps of the machine's own C library.

use std::collections::HashMap;
use std::fs;
use std::process::Command;
use std::sync::OnceLock;

use compare::MOST_ENTRIES;

use crate::inputs::{Draft, Step};

/// A recording of the library's code, each jump in its long form, and what the file itself made of the jumps.
pub struct Library {
    pub steps: Vec<Step>,
    /// Bytes of code in the file.
    pub bytes: usize,
    /// For each recorded jump, whether the file has its long form.
    pub long: Vec<bool>,
}

/// The library, read once, or why it can't be.
pub fn library() -> Result<&'static Library, &'static str> {
    static LIBRARY: OnceLock<Result<Library, String>> = OnceLock::new();
    let library = LIBRARY.get_or_init(|| {
        let listing = disassembly(&library_path()?)?;
        Ok(recorded(&instructions(&listing)?))
    });
    library.as_ref().map_err(String::as_str)
}

/// The C library that this very program runs with.
fn library_path() -> Result<String, String> {
    let maps = fs::read_to_string("/proc/self/maps").unwrap_or_default();
    let mut paths = maps
        .lines()
        .filter_map(|line| line.find('/').map(|at| &line[at..]));
    let is_library = |path: &&str| {
        let name = path.rsplit('/').next().unwrap_or_default();
        name.starts_with("libc.so") || name.starts_with("libc-") || name.starts_with("ld-musl")
    };
    let path = paths.find(is_library);
    path.map(str::to_owned)
        .ok_or_else(|| "this program runs with no C library that is a file of its own".into())
}

fn disassembly(path: &str) -> Result<String, String> {
    let options = ["-d", "-z", "-w", "-j", ".text", path];
    let output = Command::new("objdump").args(options).output();
    let output = output.map_err(|error| format!("objdump can't be run: {error}"))?;
    if !output.status.success() {
        return Err(format!("objdump can't read {path}"));
    }
    let listing = String::from_utf8_lossy(&output.stdout).into_owned();
    if listing.contains("elf64-x86-64") {
        Ok(listing)
    } else {
        Err(format!("{path} is no code for X64"))
    }
}

struct Instruction {
    address: u64,
    bytes: Vec<u8>,
}

/// The lines `  ADDRESS:\tBYTES \tTEXT` of a listing, which leave no byte out.
fn instructions(listing: &str) -> Result<Vec<Instruction>, String> {
    let mut read: Vec<Instruction> = Vec::new();
    for line in listing.lines() {
        let Some((address, rest)) = line.split_once(":\t") else {
            continue;
        };
        let address = u64::from_str_radix(address.trim(), 16);
        let bytes = rest.split('\t').next().unwrap_or_default();
        let bytes = bytes.split_whitespace();
        let bytes = bytes.map(|byte| u8::from_str_radix(byte, 16)).collect();
        let (Ok(address), Ok(bytes)) = (address, bytes) else {
            return Err(format!("objdump's line can't be read: {line}"));
        };
        if read.last().is_some_and(|last| last.end() != address) {
            return Err(format!("objdump leaves out bytes before {address:x}"));
        }
        read.push(Instruction { address, bytes });
    }
    if read.is_empty() {
        return Err("objdump lists no instruction".into());
    }
    Ok(read)
}

/// A direct jump: the address that it goes to, its condition or 16, and whether it has its long form.
struct Jump {
    target: u64,
    condition: u32,
    long: bool,
}

impl Instruction {
    fn end(&self) -> u64 {
        self.address + self.bytes.len() as u64
    }

    /// A `jmp` or `jcc` in one of the two forms that finish writes; one with a prefix is none.
    fn jump(&self) -> Option<Jump> {
        let (condition, distance) = match self.bytes[..] {
            [0xEB, near] => (16, i64::from(near.cast_signed())),
            [opcode @ 0x70..=0x7F, near] => (opcode & 15, i64::from(near.cast_signed())),
            [0xE9, a, b, c, d] => (16, i32::from_le_bytes([a, b, c, d]).into()),
            [0x0F, opcode @ 0x80..=0x8F, a, b, c, d] => {
                (opcode & 15, i32::from_le_bytes([a, b, c, d]).into())
            }
            _ => return None,
        };
        Some(Jump {
            target: self.end().wrapping_add_signed(distance),
            condition: condition.into(),
            long: self.bytes.len() > 2,
        })
    }
}

/// For each instruction, the jump that it is and the instruction that this goes to: none where it goes elsewhere, or past the limit of a table.
fn jumps(instructions: &[Instruction]) -> Vec<Option<(Jump, usize)>> {
    let addresses = instructions.iter().map(|instruction| instruction.address);
    let indices: HashMap<u64, usize> = addresses.zip(0..).collect();
    let mut left = MOST_ENTRIES;
    let found = instructions.iter().map(|instruction| {
        let jump = instruction.jump()?;
        let target = *indices.get(&jump.target)?;
        left = left.checked_sub(1)?;
        Some((jump, target))
    });
    found.collect()
}

/// The jumps recorded in their long form, all else copied.
fn recorded(instructions: &[Instruction]) -> Library {
    let jumps = jumps(instructions);
    let mut is_target = vec![false; instructions.len()];
    for (_, target) in jumps.iter().flatten() {
        is_target[*target] = true;
    }
    let mut draft = Draft::default();
    let mut labels = HashMap::new();
    for (index, instruction) in instructions.iter().enumerate() {
        if is_target[index] {
            let label = *labels.entry(index).or_insert_with(|| draft.label());
            draft.bind(label);
        }
        match &jumps[index] {
            None => draft.copy(&instruction.bytes),
            Some((jump, target)) => {
                let label = *labels.entry(*target).or_insert_with(|| draft.label());
                draft.jump(label, jump.condition);
            }
        }
    }
    Library {
        steps: vec![draft.sheet()],
        bytes: instructions.iter().map(|one| one.bytes.len()).sum(),
        long: jumps.iter().flatten().map(|(jump, _)| jump.long).collect(),
    }
}
