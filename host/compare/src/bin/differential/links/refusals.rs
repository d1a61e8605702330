//! What the linker refuses, and what that says of ours.

use std::collections::HashSet;

use compare::NONE;
use reference::{Error, Piece, Unlinked, field_size, is_filled};

use super::bases;

/// Why the linker refuses a relocation.
const NO_SIZE: &str = "unsupported relocation kind";
const PAST_END: &str = "patch range is outside the section";

/// Why the linker refuses pieces, where their labels are known and their code comes to less than 32 bits.
pub fn why_unlinked(pieces: &[Piece]) -> Option<Unlinked> {
    let too_large = |sum: u64| u32::try_from(sum).is_err().then_some(Error::TooLarge);
    let first = pieces.first()?;
    if pieces.iter().any(|piece| piece.arch != first.arch) {
        return Some(Unlinked::IncompatibleArch);
    }
    let bases = bases(pieces);
    let mut defined = HashSet::new();
    for (piece, base) in pieces.iter().zip(&bases) {
        for (symbol, label) in &piece.definitions {
            let offset = piece.labels.get(*label as usize);
            let Some(offset) = offset.filter(|offset| **offset != NONE) else {
                return Some(Unlinked::UnboundSymbol(*symbol));
            };
            if !defined.insert(*symbol) {
                return Some(Unlinked::DuplicateSymbol(*symbol));
            }
            if let Some(error) = too_large(base + u64::from(*offset)) {
                return Some(Unlinked::Error(error));
            }
        }
    }
    for (piece, base) in pieces.iter().zip(&bases) {
        let bound = piece.labels.iter().filter(|offset| **offset != NONE);
        let mut moved = bound.map(|offset| base + u64::from(*offset));
        if let Some(error) = moved.find_map(too_large) {
            return Some(Unlinked::Error(error));
        }
    }
    pieces.iter().find_map(|piece| {
        piece.relocations.iter().find_map(|one| {
            let Some(size) = field_size(one.kind) else {
                return Some(Unlinked::InvalidRelocation(NO_SIZE));
            };
            let passes = one.offset as usize + size > piece.code.len();
            passes.then_some(Unlinked::InvalidRelocation(PAST_END))
        })
    })
}

/// What the linker refuses ours refuses, or it is a difference that is listed.
pub fn refused_by_both(refusal: u32, pieces: &[Piece], why: Unlinked) -> Result<(), String> {
    let agrees = match why {
        Unlinked::IncompatibleArch => refusal == 27,
        Unlinked::DuplicateSymbol(_) => refusal == 28,
        // A definition that nobody needs may be by any label; 28 comes first.
        Unlinked::UnboundSymbol(_) => refusal != 27,
        // A label past 32 bits is past what 23 allows.
        Unlinked::Error(Error::TooLarge) => ![0, 27].contains(&refusal),
        // Relocations that remain may lie anywhere, and be of any kind.
        Unlinked::InvalidRelocation(_) => {
            ![27, 28].contains(&refusal) && (refusal != 0 || fields_end_within(pieces))
        }
        _ => false,
    };
    match agrees {
        true => Ok(()),
        false => Err(format!("ours answers {refusal}, the linker {why}")),
    }
}

/// No field that is filled passes its piece's end.
fn fields_end_within(pieces: &[Piece]) -> bool {
    let ends_within = |piece: &Piece| {
        let filled = piece.relocations.iter();
        let mut filled = filled.filter(|one| is_filled(piece.arch, one));
        filled.all(|one| one.offset as usize + 4 <= piece.code.len())
    };
    pieces.iter().all(ends_within)
}
