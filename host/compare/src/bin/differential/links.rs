//! Joins beside the Rust's linker and loader.
//!
//! The linker lays pieces out, moves labels and relocations, and fills nothing: layout, bytes outside fields, labels, the relocations that remain and
//! the alignment are compared with its image; filled fields with what the image's labels and offsets come to, and with what the loader makes of it.
//! What the linker refuses otherwise docs/DIFFERENCES.md lists, and [`why_unlinked`] says of any pieces: that is compared, too.

mod image;
mod refusals;

use compare::{AARCH64, LABEL_TARGET, Lent, Part};
use reference::{Error, Image, Link, Piece, Relocation, is_filled, quietly};

use refusals::{refused_by_both, why_unlinked};

/// The linker looks through all definitions for each relocation, definition and symbol: no more than this are put to it.
const MOST_LOOKS: usize = 400_000;

/// What pieces on AArch64 start on; the linker takes it for a section.
const PAGE: u32 = 4_096;

/// What a join was held against.
#[derive(Clone, Copy, Debug, PartialEq, Eq)]
pub enum Beside {
    Nothing,
    Refusal,
    Image,
}

/// Holds what ours, and the model, answered and left against the Rust.
pub fn compare(refusal: u32, lent: &Lent) -> Result<Beside, String> {
    // 1 and 3 are added, and the linker can't be handed all that they refuse.
    if [1, 3].contains(&refusal) {
        return Ok(Beside::Nothing);
    }
    let pieces = read(lent);
    if looks(&pieces) > MOST_LOOKS {
        return Ok(Beside::Nothing);
    }
    let linked = quietly(|| Link::new(pieces.clone()).map(Link::link));
    let linked = match linked.map_err(|_| "the linker panics")? {
        // A kind that is no kind of the Rust's.
        None => return Ok(Beside::Nothing),
        Some(linked) => linked,
    };
    let expected = why_unlinked(&pieces);
    if linked.as_ref().err() != expected.as_ref() {
        let answered = linked.err();
        return Err(format!("the linker answers {answered:?}, not {expected:?}"));
    }
    match linked {
        Err(why) => refused_by_both(refusal, &pieces, why).map(|()| Beside::Refusal),
        Ok(image) => linked_beside(refusal, &pieces, image, lent).map(|()| Beside::Image),
    }
}

/// How many names the linker looks at, at most.
fn looks(pieces: &[Piece]) -> usize {
    let sum = |of: fn(&Piece) -> usize| pieces.iter().map(of).sum::<usize>();
    let definitions = sum(|piece| piece.definitions.len());
    let relocations = sum(|piece| piece.relocations.len());
    (definitions + relocations) * (definitions + relocations)
}

/// The pieces that are lent, where their counts are fit.
fn read(lent: &Lent) -> Vec<Piece> {
    let mut counted = [0; 4];
    let mut next = |table: usize, count: u32| {
        let start = counted[table];
        counted[table] += count as usize;
        start..counted[table]
    };
    let pieces = (0..lent.room(Part::Pieces)).map(|piece| {
        let [arch, length, alignment, _, labels, relocations, definitions] =
            lent.words(Part::Pieces, piece);
        let labels = next(1, labels).map(|entry| lent.word(Part::Labels, entry, 0));
        Piece {
            arch,
            alignment,
            multiple: if arch == AARCH64 { PAGE } else { alignment },
            labels: labels.collect(),
            code: lent[Part::Code][next(0, length)].to_vec(),
            relocations: next(2, relocations)
                .map(|entry| relocation(lent.words(Part::Relocations, entry)))
                .collect(),
            definitions: next(3, definitions)
                .map(|entry| lent.words(Part::Definitions, entry))
                .map(|[symbol, label]| (symbol, label))
                .collect(),
            ..Piece::default()
        }
    });
    pieces.collect()
}

fn relocation([offset, kind, target, _, low, high]: [u32; 6]) -> Relocation {
    Relocation {
        offset,
        kind,
        target,
        addend: (u64::from(high) << 32 | u64::from(low)).cast_signed(),
    }
}

/// Where each piece starts.
fn bases(pieces: &[Piece]) -> Vec<u64> {
    let mut end: u64 = 0;
    let bases = pieces.iter().map(|piece| {
        let base = end.next_multiple_of(piece.multiple.into());
        end = base + piece.code.len() as u64;
        base
    });
    bases.collect()
}

/// What the linker takes: ours takes it, or refuses it by what is added.
fn linked_beside(
    refusal: u32,
    pieces: &[Piece],
    mut image: Image,
    lent: &Lent,
) -> Result<(), String> {
    let all = pieces.iter().flat_map(|piece| {
        let relocations = piece.relocations.iter();
        relocations.map(|one| is_filled(piece.arch, one))
    });
    let filled: Vec<bool> = all.collect();
    let loaded = filled
        .contains(&true)
        .then(|| image.load(|number| filled[number]));
    match refusal {
        0 => {
            image::compare_tables(pieces, &filled, &image, lent)?;
            image::compare_code(&filled, &image, loaded, lent)
        }
        // It leaves symbols external that no piece defines.
        29 if external(&filled, &image) => Ok(()),
        18 => match loaded {
            Some(Err(Error::TooLarge | Error::UnboundLabel)) => Ok(()),
            loaded => Err(format!("ours answers 18, the loader {loaded:?}")),
        },
        // By what is lent alone, or by an offset of 4,294,967,295.
        11 | 23 => Ok(()),
        _ => Err(format!("the linker takes what {refusal} refuses")),
    }
}

/// A field that is to be filled names a symbol that no piece defines.
fn external(filled: &[bool], image: &Image) -> bool {
    let mut relocations = image.relocations().zip(filled);
    relocations.any(|(one, is_filled)| *is_filled && one.target < LABEL_TARGET)
}
