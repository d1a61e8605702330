//! Pieces that can't be joined.

use super::NO_REASON;
use crate::join::{Defined, LAST_OFFSET, Origin, Piece, Pieces};
use crate::recording::{AsmReloc, Label};
use crate::{Entry, MOST_CODE, MOST_ENTRIES, MOST_PIECES};
use sheet_text::counted;

/// The piece that something is wrong with, and the entry of it, if it is one.
type PlaceInPieces = Option<(usize, Option<Entry>)>;

type Found = Option<(String, PlaceInPieces)>;

/// Why pieces can't be joined, and what it is for.
pub(crate) fn explain_join(pieces: &Pieces<'_>, number: u32) -> (String, PlaceInPieces) {
    let found = match number {
        1 => wrong_count(pieces.all.len()),
        3 => first(pieces, past_limit),
        11 => Some(("the tables of the whole are too short".into(), None)),
        17 => field(pieces, past_end),
        18 => field(pieces, out_of_reach),
        23 => too_long(pieces).or_else(|| moved_too_far(pieces)),
        27 => first(pieces, |piece| other_arch(pieces, piece)),
        28 => defined_twice(pieces),
        29 => field(pieces, undefined),
        _ => None,
    };
    found.unwrap_or_else(|| (NO_REASON.into(), None))
}

fn wrong_count(count: usize) -> Found {
    match count {
        0 => Some(("there is no piece to join".into(), None)),
        1..=MOST_PIECES => None,
        _ => {
            let sentence =
                format!("there are {count} pieces, and at most {MOST_PIECES} are joined");
            Some((sentence, None))
        }
    }
}

/// The first piece that something is wrong with.
fn first(pieces: &Pieces<'_>, wrong: impl Fn(&Piece<'_>) -> Option<String>) -> Found {
    let mut all = pieces.all.iter().enumerate();
    all.find_map(|(index, piece)| {
        let wrong = wrong(piece)?;
        Some((format!("piece {index} {wrong}"), Some((index, None))))
    })
}

fn past_limit(piece: &Piece<'_>) -> Option<String> {
    let code = piece.code;
    let limits = [
        (code.total_size(), "byte", MOST_CODE),
        (code.label_offsets().len(), "label", MOST_ENTRIES),
        (piece.relocs.len(), "relocation", MOST_ENTRIES),
        (piece.definitions.len(), "definition", MOST_ENTRIES),
    ];
    let mut passed = limits.into_iter().filter(|(count, _, most)| count > most);
    let (count, noun, most) = passed.next()?;
    Some(format!("has {}, more than {most}", counted(count, noun)))
}

fn other_arch(pieces: &Pieces<'_>, piece: &Piece<'_>) -> Option<String> {
    let (first, arch) = (pieces.all[0].code.arch(), piece.code.arch());
    (arch != first).then(|| format!("is for {arch}, and piece 0 for {first}"))
}

/// The first definition whose symbol has one before it.
fn defined_twice(pieces: &Pieces<'_>) -> Found {
    let all = pieces.all.iter().enumerate();
    let mut definitions = all.flat_map(|(index, piece)| {
        let definitions = piece.definitions.iter();
        definitions.map(move |definition| (index, piece, definition))
    });
    definitions.find_map(|(index, piece, second)| {
        let (first_index, first_piece, first) = pieces.definition(second.symbol)?;
        if std::ptr::eq(first, second) {
            return None;
        }
        let sentence = format!(
            "{} is defined twice, by {} of piece {first_index} and by {} of piece {index}",
            pieces.symbol_text(second.symbol),
            label_text(first_piece, first.label),
            label_text(piece, second.label),
        );
        Some((sentence, Some((index, second.given.map(Entry::Definition)))))
    })
}

fn label_text(piece: &Piece<'_>, label: Label) -> String {
    piece.code.names.text(label)
}

/// The first field to be filled that something is wrong with.
fn field(
    pieces: &Pieces<'_>,
    wrong: impl Fn(&Pieces<'_>, &Piece<'_>, &AsmReloc) -> Option<String>,
) -> Found {
    let mut fields = pieces.fields();
    fields.find_map(|(origin, piece, reloc, _)| {
        let wrong = wrong(pieces, piece, reloc)?;
        Some(of_relocation(origin, reloc, &wrong))
    })
}

fn of_relocation(origin: Origin, reloc: &AsmReloc, wrong: &str) -> (String, PlaceInPieces) {
    let Origin { piece, relocation } = origin;
    let offset = reloc.offset;
    let sentence = format!("relocation {relocation} of piece {piece}, at {offset} there, {wrong}");
    (sentence, Some((piece, Some(Entry::Reloc(relocation)))))
}

fn undefined(pieces: &Pieces<'_>, _: &Piece<'_>, reloc: &AsmReloc) -> Option<String> {
    let symbol = reloc.target.symbol()?;
    let defined = match pieces.definition(symbol) {
        Some((index, piece, definition)) => {
            let wrong = unfit_definition(piece, definition)?;
            format!("piece {index} defines by {wrong}")
        }
        None => "no piece defines".into(),
    };
    let symbol = pieces.symbol_text(symbol);
    Some(format!("names {symbol}, which {defined}"))
}

fn unfit_definition(piece: &Piece<'_>, definition: &Defined) -> Option<String> {
    let (label, known) = (definition.label, piece.code.label_offsets().len());
    let text = label_text(piece, label);
    if label.id() as usize >= known {
        let known = counted(known, "label");
        return Some(format!("{text}, but has {known}"));
    }
    let is_unbound = piece.code.label_offset(label).is_none();
    is_unbound.then(|| format!("{text}, which is not bound"))
}

fn past_end(_: &Pieces<'_>, piece: &Piece<'_>, reloc: &AsmReloc) -> Option<String> {
    let (size, len) = (reloc.kind.field_size(), piece.code.total_size());
    let end = u64::from(reloc.offset) + u64::from(size);
    let passes = end > len as u64;
    passes.then(|| format!("has a field of {size} bytes, which passes the end of the piece, {len}"))
}

fn out_of_reach(pieces: &Pieces<'_>, piece: &Piece<'_>, reloc: &AsmReloc) -> Option<String> {
    let symbol = reloc.target.symbol()?;
    let value = pieces.value(piece, reloc, symbol)?;
    i32::try_from(value).is_err().then(|| {
        format!(
            "can't reach {} at {} plus {}: the distance is {value}, and {} holds {}..{}",
            pieces.symbol_text(symbol),
            pieces.place_of(symbol).unwrap_or_default(),
            reloc.addend,
            reloc.kind,
            i32::MIN,
            i32::MAX
        )
    })
}

fn too_long(pieces: &Pieces<'_>) -> Found {
    let end = pieces.end();
    let sentence = format!("the whole has {end} bytes, more than {LAST_OFFSET}");
    (end > LAST_OFFSET).then_some((sentence, None))
}

/// The first relocation that remains and comes to stand past the last offset. Labels are within their pieces, and so within the whole.
fn moved_too_far(pieces: &Pieces<'_>) -> Found {
    pieces.remaining().find_map(|(origin, piece, reloc)| {
        let place = piece.base + u64::from(reloc.offset);
        let wrong = format!("comes to stand at {place}, past {LAST_OFFSET}");
        (place > LAST_OFFSET).then(|| of_relocation(origin, reloc, &wrong))
    })
}

#[cfg(test)]
mod tests {
    use super::*;
    use crate::{Arch, CodeBuffer, CodeBufferFinalized, Reloc, Sym};

    /// Finished code of some bytes, with a relocation at an offset.
    fn finished(len: usize, offset: u32) -> CodeBufferFinalized {
        let mut buffer = CodeBuffer::with_symbols(Arch::X64, 1);
        let symbol = Sym::from_id(0).into();
        let added = buffer.add_reloc_at_offset(offset, Reloc::Abs8, symbol, 0);
        added.unwrap();
        buffer.put_bytes(&vec![0; len]).unwrap();
        buffer.finish().unwrap()
    }

    #[test]
    fn a_whole_past_32_bits_has_its_sentence() {
        let (long, empty) = (finished(MOST_CODE, 0), finished(0, 16_777_215));
        let pieces = Pieces::new(vec![&long; 256]);
        assert_eq!(pieces.room(), 0);
        let sentence = "the whole has 4294967296 bytes, more than 4294967294";
        assert_eq!(explain_join(&pieces, 23), (sentence.into(), None));
        let mut codes = vec![&long; 255];
        codes.push(&empty);
        let pieces = Pieces::new(codes);
        assert_eq!(pieces.room() as u64, pieces.end());
        let sentence = "relocation 0 of piece 255, at 16777215 there, comes to stand at 4294967295, past 4294967294";
        let place = Some((255, Some(Entry::Reloc(0))));
        assert_eq!(explain_join(&pieces, 23), (sentence.into(), place));
    }

    #[test]
    fn tables_that_the_host_never_lends_have_their_sentence() {
        let code = finished(0, 0);
        let sentence = "the tables of the whole are too short";
        let explained = explain_join(&Pieces::new(vec![&code]), 11);
        assert_eq!(explained, (sentence.into(), None));
    }
}
