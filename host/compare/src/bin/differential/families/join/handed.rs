//! Pieces in the making, and what else a join is lent.

use compare::{AARCH64, LABEL_TARGET, Part, Piece, Vast, X64};

use crate::scenario::{Room, Scenario, Step};

/// All that a join is lent: fit, until something is changed.
#[derive(Clone)]
pub struct Handed {
    pub pieces: Vec<Piece>,
    /// Lent memory that is as many bytes longer than is needed, or shorter.
    pub more: Vec<(Part, i64)>,
    /// Words of pieces written by hand: the piece, the word's number, the word.
    pub words: Vec<(usize, usize, u32)>,
    pub is_vast: Vast,
}

impl Handed {
    pub fn new(pieces: Vec<Piece>) -> Self {
        Self {
            pieces,
            more: Vec::new(),
            words: Vec::new(),
            is_vast: Vast::Neither,
        }
    }

    /// Where each piece starts, and where the last ends.
    pub fn bases(&self) -> (Vec<u64>, u64) {
        let mut end: u64 = 0;
        let bases = self.pieces.iter().map(|piece| {
            let multiple = match (piece.arch, piece.alignment) {
                (AARCH64, _) => 4_096,
                (_, alignment @ (32 | 64)) => alignment.into(),
                // Refused, wherever it would stand.
                _ => 1,
            };
            let base = end.next_multiple_of(multiple);
            end = base + u64::from(piece.length());
            base
        });
        (bases.collect(), end)
    }

    fn remaining(&self) -> usize {
        let remaining = self.pieces.iter().map(|piece| {
            let relocations = piece.relocations.iter();
            relocations
                .filter(|words| !is_filled(piece.arch, words))
                .count()
        });
        remaining.sum()
    }

    pub fn into_scenario(self, noise: u64) -> Scenario {
        let mut room = Room::for_pieces(&self.pieces);
        let labels = self.pieces.iter().map(|piece| piece.labels.len()).sum();
        let (_, end) = self.bases();
        if self.is_vast == Vast::Neither {
            room.set(Part::Output, end as usize);
        }
        room.set(Part::JoinedLabels, labels);
        room.set(Part::JoinedRelocations, self.remaining());
        for (part, more) in self.more {
            let bytes = room.bytes(part) as i64 + more;
            room.set_bytes(part, bytes.max(0) as usize);
        }
        let mut steps = vec![Step::Pieces(self.pieces)];
        steps.extend(self.words.into_iter().map(|(piece, number, word)| {
            let at = piece * Part::Pieces.entry_bytes() + number * 4;
            let bytes = word.to_le_bytes().to_vec();
            let part = Part::Pieces;
            Step::Write { part, at, bytes }
        }));
        steps.push(Step::Join(self.is_vast));
        Scenario {
            arch: X64,
            symbols: 0,
            room,
            noise,
            steps,
        }
    }
}

/// The relocation is filled, on the architecture.
pub fn is_filled(arch: u32, [_, kind, target, ..]: &[u32; 6]) -> bool {
    arch == X64 && *target < LABEL_TARGET && [2, 3, 4].contains(kind)
}
