//! Request Six: finished records joined to one.

mod checks;
mod pieces;

use std::ops::Range;

use super::Refusal;
use crate::{AARCH64, Lent, NONE, Part, Vast, X64};
use checks::unjoined;
use pieces::{Piece, Relocation, Whole};

/// The greatest offset that there is.
const LAST_OFFSET: u64 = 4_294_967_294;
/// What a base is a multiple of on AArch64.
const PAGE: u32 = 4_096;
/// The bytes of a field that is filled.
const FIELD: u64 = 4;

/// "Each starts at the next multiple of its alignment (of 4,096 on AArch64, or pages would shift)."
fn base(end: u64, arch: u32, alignment: u32) -> u64 {
    let multiple = if arch == AARCH64 { PAGE } else { alignment };
    end.next_multiple_of(multiple.into())
}

/// "A relocation to a symbol of kind X86PCRel4 or a call kind on X64."
fn is_filled(piece: &Piece<'_>, relocation: &Relocation) -> bool {
    let is_symbol = relocation.label().is_none();
    piece.arch == X64 && is_symbol && [2, 3, 4].contains(&relocation.kind)
}

/// What is written where a join is accepted.
struct Joined {
    /// The bytes between pieces.
    gaps: Vec<Range<u64>>,
    /// Fields in the order in which they are filled.
    fields: Vec<(u64, i64)>,
    labels: Vec<u32>,
    relocations: Vec<[u32; 6]>,
    record: [u32; 6],
}

/// Joins the pieces that are lent: the refusal, or 0.
pub fn join(lent: &mut Lent, is_vast: Vast) -> Refusal {
    if lent.room(Part::Record) == 0 {
        return 1;
    }
    // What is read stays as it is, while the rest of what is lent is written.
    let code = std::mem::take(&mut lent[Part::Code]);
    let joined = Whole::read(lent, &code, is_vast).and_then(|whole| match unjoined(&whole) {
        Some(refusal) => Err(refusal),
        None => Ok((joined(&whole), places(&whole))),
    });
    let refusal = match joined {
        Ok((joined, places)) => {
            if is_vast == Vast::Neither {
                write_code(&mut lent[Part::Output], &joined, &places);
            }
            write_tables(lent, &joined);
            0
        }
        Err(refusal) => {
            lent.set_words(Part::Record, 0, &[0; 6]);
            refusal
        }
    };
    lent[Part::Code] = code;
    refusal
}

/// Where the code of each piece goes.
fn places<'a>(whole: &Whole<'a>) -> Vec<(u64, &'a [u8])> {
    let pieces = whole.pieces.iter();
    pieces.map(|piece| (piece.base, piece.code)).collect()
}

fn write_code(output: &mut [u8], joined: &Joined, places: &[(u64, &[u8])]) {
    for gap in &joined.gaps {
        let zeros = vec![0; (gap.end - gap.start) as usize];
        write(output, gap.start, &zeros);
    }
    for (base, code) in places {
        write(output, *base, code);
    }
    for (place, value) in &joined.fields {
        write(output, *place, &(*value as u32).to_le_bytes());
    }
}

/// Writes bytes as far as there is room.
fn write(output: &mut [u8], at: u64, bytes: &[u8]) {
    for (lent, byte) in output.iter_mut().skip(at as usize).zip(bytes) {
        *lent = *byte;
    }
}

fn write_tables(lent: &mut Lent, joined: &Joined) {
    let room = lent.room(Part::JoinedLabels);
    for (label, offset) in joined.labels.iter().enumerate().take(room) {
        lent.set_word(Part::JoinedLabels, label, 0, *offset);
    }
    let room = lent.room(Part::JoinedRelocations);
    for (entry, words) in joined.relocations.iter().enumerate().take(room) {
        lent.set_words(Part::JoinedRelocations, entry, words);
    }
    lent.set_words(Part::Record, 0, &joined.record);
}

/// What the whole comes to, where nothing is refused.
fn joined(whole: &Whole<'_>) -> Joined {
    let mut end = 0;
    let mut gaps = Vec::new();
    for piece in &whole.pieces {
        gaps.push(end..piece.base);
        end = piece.base + piece.code.len() as u64;
    }
    let fields = whole.filled().filter_map(|(piece, one)| {
        let place = whole.pieces[piece].base + u64::from(one.offset);
        Some((place, whole.value(piece, one)?))
    });
    let labels = whole.pieces.iter().flat_map(|piece| {
        let offsets = piece.labels.iter();
        offsets.map(|offset| moved_label(piece.base, *offset))
    });
    let remaining = whole.remaining();
    let relocations = remaining.map(|(piece, one)| moved(&whole.pieces[piece], one));
    let relocations: Vec<_> = relocations.collect();
    let greatest = whole.pieces.iter().map(|piece| piece.alignment).max();
    let record = [
        whole.pieces.first().map_or(0, |piece| piece.arch),
        whole.end as u32,
        greatest.unwrap_or_default(),
        0,
        whole.labels() as u32,
        relocations.len() as u32,
    ];
    Joined {
        gaps,
        fields: fields.collect(),
        labels: labels.collect(),
        relocations,
        record,
    }
}

/// "Bound labels .. move by the piece's base."
fn moved_label(base: u64, offset: u32) -> u32 {
    match offset {
        NONE => NONE,
        _ => (base + u64::from(offset)) as u32,
    }
}

/// "Label numbers run on, and .. relocations move by the piece's base."
fn moved(piece: &Piece<'_>, relocation: &Relocation) -> [u32; 6] {
    let before = match relocation.label() {
        Some(_) => piece.labels_before,
        None => 0,
    };
    [
        (piece.base + u64::from(relocation.offset)) as u32,
        relocation.kind,
        relocation.target.wrapping_add(before),
        0,
        relocation.addend as u32,
        (relocation.addend >> 32) as u32,
    ]
}
