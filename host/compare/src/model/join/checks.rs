//! Why pieces are not joined.

use super::{FIELD, LAST_OFFSET, Piece, Relocation, Whole};
use crate::model::Refusal;
use crate::{MOST_CODE, MOST_ENTRIES, NONE};

/// Why pieces are not joined: the first reason, each looked for over the whole before the next.
pub fn unjoined(whole: &Whole<'_>) -> Option<Refusal> {
    unknown_label(whole)
        .or_else(|| past_limit(whole))
        .or_else(|| archs_differ(whole))
        .or_else(|| defined_twice(whole))
        .or_else(|| undefined(whole))
        .or_else(|| short_tables(whole))
        .or_else(|| past_piece(whole))
        .or_else(|| past_32_bits(whole))
        .or_else(|| past_output(whole))
}

/// "A relocation's unknown label answers 1."
fn unknown_label(whole: &Whole<'_>) -> Option<Refusal> {
    let is_unknown = |piece: &Piece<'_>| {
        let labels = piece.relocations.iter().filter_map(Relocation::label);
        labels
            .into_iter()
            .any(|label| label as usize >= piece.labels.len())
    };
    whole.pieces.iter().any(is_unknown).then_some(1)
}

/// "Number 3 looks at each piece's tables alone."
fn past_limit(whole: &Whole<'_>) -> Option<Refusal> {
    let passes = |piece: &Piece<'_>| {
        piece.code.len() > MOST_CODE
            || piece.labels.len() > MOST_ENTRIES
            || piece.relocations.len() > MOST_ENTRIES
            || piece.definitions.len() > MOST_ENTRIES
    };
    whole.pieces.iter().any(passes).then_some(3)
}

/// "27 architectures differ."
fn archs_differ(whole: &Whole<'_>) -> Option<Refusal> {
    let first = whole.pieces.first().map(|piece| piece.arch);
    let differs = |piece: &Piece<'_>| Some(piece.arch) != first;
    whole.pieces.iter().any(differs).then_some(27)
}

/// "28 a symbol is defined twice."
fn defined_twice(whole: &Whole<'_>) -> Option<Refusal> {
    let mut definitions = whole.definitions.values();
    definitions.any(|one| one.len() > 1).then_some(28)
}

/// "29 such a relocation's symbol is defined nowhere, or by an unknown or unbound label."
fn undefined(whole: &Whole<'_>) -> Option<Refusal> {
    let mut filled = whole.filled();
    filled
        .any(|(_, one)| whole.symbol(one).is_none())
        .then_some(29)
}

/// "11 for a short label or relocation table."
fn short_tables(whole: &Whole<'_>) -> Option<Refusal> {
    let are_short =
        whole.labels_room < whole.labels() || whole.relocations_room < whole.remaining().count();
    are_short.then_some(11)
}

/// "A field that passes its piece's end 17."
fn past_piece(whole: &Whole<'_>) -> Option<Refusal> {
    let passes = |(piece, one): (usize, &Relocation)| {
        u64::from(one.offset) + FIELD > whole.pieces[piece].code.len() as u64
    };
    whole.filled().any(passes).then_some(17)
}

/// "A filled value that doesn't fit answers 18."
fn past_32_bits(whole: &Whole<'_>) -> Option<Refusal> {
    let mut values = whole
        .filled()
        .filter_map(|(piece, one)| whole.value(piece, one));
    values
        .any(|value| i32::try_from(value).is_err())
        .then_some(18)
}

/// "A short output, or a base, end or moved offset past 4,294,967,294, 23."
fn past_output(whole: &Whole<'_>) -> Option<Refusal> {
    let bases = whole.pieces.iter().map(|piece| piece.base);
    let labels = whole.pieces.iter().flat_map(|piece| {
        let bound = piece.labels.iter().filter(|offset| **offset != NONE);
        bound.map(|offset| piece.base + u64::from(*offset))
    });
    let moved = whole
        .remaining()
        .map(|(piece, one)| whole.pieces[piece].base + u64::from(one.offset));
    let mut offsets = bases.chain([whole.end]).chain(labels).chain(moved);
    let passes = whole.output_room < whole.end || offsets.any(|offset| offset > LAST_OFFSET);
    passes.then_some(23)
}
