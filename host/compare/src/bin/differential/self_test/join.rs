//! Request Six: the numbers that joins are refused by.

use compare::{Vast, pieces};
use reference::{Piece, read_join_differences};

use super::Findings;
use crate::families::{self, Handed};
use crate::runner::Runner;

/// Longer code than this is lent as vast: pieces that have so much are refused.
const LONG: usize = 1 << 20;

/// Each fault is answered by its number where it is alone, and each line of reference/joins.txt by the number that is kept there.
pub fn numbers_are_answered(findings: &mut Findings) {
    let mut runner = Runner::default();
    let mut answers = |handed: Handed, number: u32| {
        let outcome = runner.run(&handed.into_scenario(number.into()));
        outcome.is_ok_and(|outcome| outcome.refusal == number)
    };
    for (index, (number, handed)) in families::join_faults().enumerate() {
        findings.add(answers(handed, number), || {
            format!("join: fault {index} is not answered by {number}")
        });
    }
    let kept = include_str!("../../../../../../reference/joins.txt");
    let kept = read_join_differences(kept).expect("joins.txt can be read");
    for join in kept {
        findings.add(answers(handed(&join.pieces), join.number), || {
            format!("join: {} is not answered by {}", join.name, join.number)
        });
    }
}

/// Pieces as they were written for the linker.
pub fn handed(pieces: &[Piece]) -> Handed {
    let mut handed = Handed::new(pieces.iter().map(taken).collect());
    if handed.pieces.iter().any(|piece| piece.vast.is_some()) {
        handed.is_vast = Vast::Code;
    }
    handed
}

fn taken(piece: &Piece) -> pieces::Piece {
    let mut code = piece.code.clone();
    let is_long = piece.zeros > LONG;
    if !is_long {
        code.resize(code.len() + piece.zeros, 0);
    }
    let mut taken = pieces::Piece::new(piece.arch, piece.alignment, code);
    taken.vast = is_long.then_some(piece.zeros as u32);
    taken.labels = piece.labels.clone();
    let relocations = piece.relocations.iter().map(|one| {
        let (low, high) = (one.addend as u32, (one.addend >> 32) as u32);
        [one.offset, one.kind, one.target, 0, low, high]
    });
    taken.relocations = relocations.collect();
    let definitions = piece.definitions.iter();
    taken.definitions = definitions
        .map(|(symbol, label)| [*symbol, *label])
        .collect();
    taken
}
