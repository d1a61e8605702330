//! What the linker and the loader make of pieces, against what ours left.

use std::collections::HashMap;

use compare::{LABEL_TARGET, Lent, Part};
use reference::{Error, Image, Piece, Relocation};

use super::{bases, relocation};

fn same<T: PartialEq + std::fmt::Debug>(what: &str, ours: T, rust: T) -> Result<(), String> {
    match ours == rust {
        true => Ok(()),
        false => Err(format!("{what}: ours {ours:?}, the linker {rust:?}")),
    }
}

/// The image against what ours left: all but the code.
pub fn compare_tables(
    pieces: &[Piece],
    filled: &[bool],
    image: &Image,
    lent: &Lent,
) -> Result<(), String> {
    let [arch, length, alignment, layouts, labels, remaining] = lent.words(Part::Record, 0);
    let greatest = pieces.iter().map(|piece| piece.alignment).max();
    let multiple = pieces.iter().map(|piece| piece.multiple).max();
    same("architecture", arch, pieces[0].arch)?;
    same("layouts", layouts, 0)?;
    same("length", length as usize, image.code().len())?;
    // The image has the greatest of both, which on AArch64 is the page.
    same("alignment", Some(alignment), greatest)?;
    same("multiple", greatest.max(multiple), Some(image.alignment()))?;
    let starts = bases(pieces).into_iter();
    let starts: Vec<_> = starts.map(|base| base as u32).collect();
    same("bases", &starts[..], image.bases())?;

    let count: usize = pieces.iter().map(|piece| piece.labels.len()).sum();
    same("labels", labels as usize, count)?;
    let (moved, defining) = image.labels().split_at(count);
    for (label, offset) in moved.iter().enumerate() {
        let ours = lent.word(Part::JoinedLabels, label, 0);
        same(&format!("label {label}"), ours, *offset)?;
    }
    let definitions = definitions(pieces);
    let expected: Vec<_> = definitions.iter().map(|(_, offset)| *offset).collect();
    same("labels for definitions", &expected[..], defining)?;

    let numbers = definitions.iter().map(|(symbol, _)| *symbol).zip(labels..);
    let numbers: HashMap<u32, u32> = numbers.collect();
    let mut entry = 0;
    for (one, is_filled) in image.relocations().zip(filled) {
        if *is_filled {
            continue;
        }
        same("relocations, at least", entry < remaining, true)?;
        let ours = lent.words(Part::JoinedRelocations, entry as usize);
        let ours = relocation(ours);
        // A symbol that is defined became a label of its own.
        let symbol = Some(ours.target).filter(|target| *target < LABEL_TARGET);
        let bound = symbol.and_then(|symbol| numbers.get(&symbol));
        let bound = bound.map(|label| label + LABEL_TARGET);
        let target = bound.unwrap_or(ours.target);
        let expected = Relocation { target, ..ours };
        same(&format!("relocation {entry}"), expected, one)?;
        entry += 1;
    }
    same("relocations", remaining, entry)
}

/// Symbols that are defined and where they stand, in order.
fn definitions(pieces: &[Piece]) -> Vec<(u32, u32)> {
    let pieces = pieces.iter().zip(bases(pieces));
    let definitions = pieces.flat_map(|(piece, base)| {
        let definitions = piece.definitions.iter();
        definitions.map(move |(symbol, label)| {
            let offset = base + u64::from(piece.labels[*label as usize]);
            (*symbol, offset as u32)
        })
    });
    definitions.collect()
}

/// The code against the image's, fields filled: by the image's labels and offsets, and by the loader.
pub fn compare_code(
    filled: &[bool],
    image: &Image,
    loaded: Option<Result<Vec<u8>, Error>>,
    lent: &Lent,
) -> Result<(), String> {
    let ours = &lent[Part::Output][..image.code().len()];
    let mut code = image.code().to_vec();
    let mut names_past_end = false;
    for (one, is_filled) in image.relocations().zip(filled) {
        if !is_filled {
            continue;
        }
        let label = one.target.checked_sub(LABEL_TARGET);
        let label = label.ok_or("a field of ours is filled that the image leaves to a symbol")?;
        let symbol = image.labels()[label as usize];
        names_past_end |= symbol as usize > code.len();
        let apart = i64::from(symbol) - i64::from(one.offset);
        let value = one.addend.wrapping_add(apart);
        code[one.offset as usize..][..4].copy_from_slice(&(value as u32).to_le_bytes());
    }
    same_code("image", ours, &code)?;
    match loaded {
        None => Ok(()),
        // It takes a label past the image's end for an unbound one.
        Some(Err(Error::UnboundLabel)) if names_past_end => Ok(()),
        Some(Err(error)) => Err(format!("the loader answers {error}")),
        Some(Ok(code)) => same_code("loader", ours, &code),
    }
}

fn same_code(whose: &str, ours: &[u8], theirs: &[u8]) -> Result<(), String> {
    match ours.iter().zip(theirs).position(|(a, b)| a != b) {
        None => Ok(()),
        Some(at) => Err(format!("code differs from the {whose}'s at byte {at}")),
    }
}
