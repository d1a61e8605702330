//! Pieces that are joined, as they are made by hand.

use std::fmt;

use crate::{AARCH64, LABEL_TARGET, NONE, Part, X64, X86};

/// A finished record, its tables, and what it defines.
#[derive(Clone, Debug)]
pub struct Piece {
    pub arch: u32,
    pub alignment: u32,
    pub layouts: u32,
    pub code: Vec<u8>,
    /// The length of code that is vast, and not here.
    pub vast: Option<u32>,
    pub labels: Vec<u32>,
    pub relocations: Vec<[u32; 6]>,
    /// Symbols, and the labels that define them.
    pub definitions: Vec<[u32; 2]>,
}

impl Piece {
    pub fn new(arch: u32, alignment: u32, code: Vec<u8>) -> Self {
        Self {
            arch,
            alignment,
            layouts: 0,
            code,
            vast: None,
            labels: Vec::new(),
            relocations: Vec::new(),
            definitions: Vec::new(),
        }
    }

    pub fn length(&self) -> u32 {
        self.vast.unwrap_or(self.code.len() as u32)
    }

    /// Its entry among the pieces.
    fn words(&self) -> [u32; 7] {
        [
            self.arch,
            self.length(),
            self.alignment,
            self.layouts,
            self.labels.len() as u32,
            self.relocations.len() as u32,
            self.definitions.len() as u32,
        ]
    }
}

/// The parts that pieces are lent in.
pub const LENT_IN: [Part; 5] = [
    Part::Pieces,
    Part::Code,
    Part::Labels,
    Part::Relocations,
    Part::Definitions,
];

/// What pieces are lent in a part: those of all pieces, one after the other.
pub fn content(pieces: &[Piece], part: Part) -> Vec<u8> {
    let words = |of: fn(&Piece) -> Vec<u32>| {
        let words = pieces.iter().flat_map(of);
        words.flat_map(u32::to_le_bytes).collect()
    };
    match part {
        Part::Pieces => words(|piece| piece.words().to_vec()),
        Part::Code => {
            let codes = pieces.iter().flat_map(|piece| &piece.code);
            codes.copied().collect()
        }
        Part::Labels => words(|piece| piece.labels.clone()),
        Part::Relocations => words(|piece| piece.relocations.as_flattened().to_vec()),
        Part::Definitions => words(|piece| piece.definitions.as_flattened().to_vec()),
        _ => unreachable!("pieces are not lent in {part:?}"),
    }
}

/// The words of reference/joins.txt.
impl fmt::Display for Piece {
    fn fmt(&self, f: &mut fmt::Formatter<'_>) -> fmt::Result {
        match self.arch {
            X86 => write!(f, "arch X86")?,
            X64 => write!(f, "arch X64")?,
            AARCH64 => write!(f, "arch AArch64")?,
            other => write!(f, "arch {other}")?,
        }
        write!(f, "; align {}", self.alignment)?;
        match (self.vast, &self.code[..]) {
            (Some(length), _) => write!(f, "; zeros {length}")?,
            (None, []) => {}
            (None, code) => {
                write!(f, "; code")?;
                code.iter().try_for_each(|byte| write!(f, " {byte:02X}"))?;
            }
        }
        for offset in &self.labels {
            match *offset {
                NONE => write!(f, "; label unbound")?,
                offset => write!(f, "; label {offset}")?,
            }
        }
        for [offset, kind, target, _, low, high] in &self.relocations {
            let addend = (u64::from(*high) << 32 | u64::from(*low)).cast_signed();
            let (letter, number) = match target.checked_sub(LABEL_TARGET) {
                Some(label) => ('l', label),
                None => ('s', *target),
            };
            write!(f, "; reloc {offset} {kind} {letter}{number} {addend}")?;
        }
        for [symbol, label] in &self.definitions {
            write!(f, "; define {symbol} {label}")?;
        }
        Ok(())
    }
}
