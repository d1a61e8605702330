//! Pieces as they are lent, and where each comes to stand.

use std::collections::BTreeMap;

use super::{base, is_filled};
use crate::model::Refusal;
use crate::model::counts::is_arch;
use crate::vast::{self, VAST};
use crate::{LABEL_TARGET, Lent, NONE, Part, Vast};

/// A relocation of a piece.
#[derive(Clone, Copy)]
pub struct Relocation {
    pub offset: u32,
    pub kind: u32,
    pub target: u32,
    pub addend: i64,
}

impl Relocation {
    fn new([offset, kind, target, _, low, high]: [u32; 6]) -> Self {
        Self {
            offset,
            kind,
            target,
            addend: (u64::from(high) << 32 | u64::from(low)).cast_signed(),
        }
    }

    /// The label of its piece that it names, or nothing for a symbol.
    pub fn label(&self) -> Option<u32> {
        self.target.checked_sub(LABEL_TARGET)
    }
}

/// The label that defines a symbol.
#[derive(Clone, Copy)]
pub struct Definition {
    pub piece: usize,
    pub label: u32,
}

/// A finished record, and what belongs to it.
pub struct Piece<'a> {
    pub arch: u32,
    pub alignment: u32,
    pub code: &'a [u8],
    pub labels: Vec<u32>,
    pub relocations: Vec<Relocation>,
    /// Symbols, and the labels that define them.
    pub definitions: Vec<(u32, u32)>,
    pub base: u64,
    /// How many labels the pieces before it have.
    pub labels_before: u32,
}

/// All pieces, and how much room there is for the whole.
pub struct Whole<'a> {
    pub pieces: Vec<Piece<'a>>,
    /// Who defines a symbol, in order.
    pub definitions: BTreeMap<u32, Vec<Definition>>,
    /// Where the last piece ends.
    pub end: u64,
    pub output_room: u64,
    pub labels_room: usize,
    pub relocations_room: usize,
}

impl<'a> Whole<'a> {
    /// The pieces that are lent, or 1: too few or many of them, a record that can't occur, or counts that come to more than is lent.
    pub fn read(lent: &Lent, code: &'a [u8], is_vast: Vast) -> Result<Self, Refusal> {
        let code = if is_vast.is_code() {
            vast::code()
        } else {
            code
        };
        let records: Vec<[u32; 7]> = (0..lent.room(Part::Pieces))
            .map(|piece| lent.words(Part::Pieces, piece))
            .collect();
        let occurs = |record: &[u32; 7]| is_arch(record[0]) && [32, 64].contains(&record[2]);
        let sum =
            |word: usize| -> u64 { records.iter().map(|record| u64::from(record[word])).sum() };
        if !(1..=256).contains(&records.len())
            || !records.iter().all(occurs)
            || sum(1) > code.len() as u64
            || sum(4) > lent.room(Part::Labels) as u64
            || sum(5) > lent.room(Part::Relocations) as u64
            || sum(6) > lent.room(Part::Definitions) as u64
        {
            return Err(1);
        }
        let mut whole = Self {
            pieces: Vec::new(),
            definitions: BTreeMap::new(),
            end: 0,
            output_room: match is_vast.output() {
                Some(_) => VAST as u64,
                None => lent[Part::Output].len() as u64,
            },
            labels_room: lent.room(Part::JoinedLabels),
            relocations_room: lent.room(Part::JoinedRelocations),
        };
        let mut counted = [0; 4];
        for record in &records {
            whole.add(lent, code, record, &mut counted);
        }
        Ok(whole)
    }

    /// Adds a piece; `counted` is how much of code, labels, relocations and definitions belongs to those before it.
    fn add(
        &mut self,
        lent: &Lent,
        code: &'a [u8],
        [arch, length, alignment, _, counts @ ..]: &[u32; 7],
        counted: &mut [usize; 4],
    ) {
        let mut next = |table: usize, count: u32| {
            let start = counted[table];
            counted[table] += count as usize;
            start..counted[table]
        };
        let code = &code[next(0, *length)];
        let labels_before = next(1, 0).start as u32;
        let labels = next(1, counts[0]);
        let relocations = next(2, counts[1]);
        let definitions = next(3, counts[2]);
        let piece = Piece {
            arch: *arch,
            alignment: *alignment,
            code,
            labels: labels
                .map(|entry| lent.word(Part::Labels, entry, 0))
                .collect(),
            relocations: relocations
                .map(|entry| Relocation::new(lent.words(Part::Relocations, entry)))
                .collect(),
            definitions: definitions
                .map(|entry| lent.words(Part::Definitions, entry))
                .map(|[symbol, label]| (symbol, label))
                .collect(),
            base: base(self.end, *arch, *alignment),
            labels_before,
        };
        for (symbol, label) in &piece.definitions {
            let definition = Definition {
                piece: self.pieces.len(),
                label: *label,
            };
            self.definitions
                .entry(*symbol)
                .or_default()
                .push(definition);
        }
        self.end = piece.base + u64::from(*length);
        self.pieces.push(piece);
    }

    /// Where a label of a piece stands in the whole, if it is known and bound.
    pub fn address(&self, piece: usize, label: u32) -> Option<u64> {
        let piece = &self.pieces[piece];
        let offset = piece.labels.get(label as usize);
        let offset = offset.filter(|offset| **offset != NONE)?;
        Some(piece.base + u64::from(*offset))
    }

    /// All relocations, with the numbers of their pieces.
    fn relocations(&self) -> impl Iterator<Item = (usize, &Relocation)> {
        let pieces = self.pieces.iter().enumerate();
        pieces.flat_map(|(number, piece)| piece.relocations.iter().map(move |one| (number, one)))
    }

    /// The relocations that are filled, in order of piece and relocation.
    pub fn filled(&self) -> impl Iterator<Item = (usize, &Relocation)> {
        self.relocations()
            .filter(move |(piece, one)| is_filled(&self.pieces[*piece], one))
    }

    /// The relocations that remain.
    pub fn remaining(&self) -> impl Iterator<Item = (usize, &Relocation)> {
        self.relocations()
            .filter(move |(piece, one)| !is_filled(&self.pieces[*piece], one))
    }

    /// Where the label that defines a relocation's symbol stands: "defined nowhere, or by an unknown or unbound label" is nowhere.
    pub fn symbol(&self, relocation: &Relocation) -> Option<u64> {
        let definition = self.definitions.get(&relocation.target)?.first()?;
        self.address(definition.piece, definition.label)
    }

    /// The value of a field, where its symbol is known: "symbol plus addend minus its own place", in 64 bits.
    pub fn value(&self, piece: usize, relocation: &Relocation) -> Option<i64> {
        let symbol = self.symbol(relocation)?.cast_signed();
        let place = self.pieces[piece].base + u64::from(relocation.offset);
        let sum = symbol.wrapping_add(relocation.addend);
        Some(sum.wrapping_sub(place.cast_signed()))
    }

    pub fn labels(&self) -> usize {
        self.pieces.iter().map(|piece| piece.labels.len()).sum()
    }
}
