//! Finished buffers joined into one, and their calls of one another filled. After asmkit's core/linker.rs (see NOTICE).

mod pieces;
mod symbols;

pub(crate) use pieces::{Defined, LAST_OFFSET, Piece, Pieces};

use crate::contents::Contents;
use crate::explain::explain_join;
use crate::recording::{Label, Sym};
use crate::tables::{offsets_of, relocs_of};
use crate::verified::{self, Whole};
use crate::{CodeBufferFinalized, CodeOffset, Error, Place};

/// Finished buffers as one: what [`join`] makes.
#[derive(Clone, Debug, PartialEq, Eq)]
pub struct Joined {
    code: CodeBufferFinalized,
    bases: Vec<CodeOffset>,
    /// The number of each piece's first label, and behind the last that of all.
    first_labels: Vec<u32>,
    filled: Vec<Filled>,
    remaining: Vec<Origin>,
}

/// Where a relocation comes from.
#[derive(Clone, Copy, Debug, PartialEq, Eq, Hash)]
pub struct Origin {
    /// The piece, by its index.
    pub piece: usize,
    /// The relocation, by its index in the piece.
    pub relocation: usize,
}

/// A relocation that [`join`] filled.
#[derive(Clone, Copy, Debug, PartialEq, Eq)]
pub struct Filled {
    /// Where the relocation comes from.
    pub origin: Origin,
    /// Where its field stands in the whole.
    pub offset: CodeOffset,
    /// The symbol, by its number in the whole.
    pub symbol: Sym,
    /// The label that defines the symbol, by its number in the whole.
    pub label: Label,
    /// What its field was filled with: the label's offset plus addend, less the field's own offset. A field that is filled later may cover it.
    pub value: i32,
}

impl Joined {
    /// The joined code. It is finished code like any other: to be loaded, written as an object or joined again.
    #[must_use]
    pub fn code(&self) -> &CodeBufferFinalized {
        &self.code
    }

    /// The joined code alone.
    #[must_use]
    pub fn into_code(self) -> CodeBufferFinalized {
        self.code
    }

    /// Where each piece starts.
    #[must_use]
    pub fn bases(&self) -> &[CodeOffset] {
        &self.bases
    }

    /// The number in the whole of a label of a piece, which is given by its index; nothing if there is no such piece, or it has no such label.
    #[must_use]
    pub fn label(&self, piece: usize, label: Label) -> Option<Label> {
        let (first, next) = match *self.first_labels.get(piece..)? {
            [first, next, ..] => (first, next),
            _ => return None,
        };
        let number = first.checked_add(label.id())?;
        (number < next).then_some(Label::from_id(number))
    }

    /// The number that the first label of a piece has, if it has any.
    pub(crate) fn first_label(&self, piece: usize) -> u32 {
        self.first_labels[piece]
    }

    /// The relocations that were filled, in the order of filling.
    #[must_use]
    pub fn filled(&self) -> &[Filled] {
        &self.filled
    }

    /// Where each relocation of the joined code comes from: those that remain.
    #[must_use]
    pub fn remaining(&self) -> &[Origin] {
        &self.remaining
    }
}

/// Joins finished buffers, the pieces: 1 to 256 of one architecture.
///
/// Each piece starts on the next multiple of its [`alignment`](CodeBufferFinalized::alignment), on AArch64 of 4,096, and the bytes between are zero.
/// Labels are numbered on from piece to piece. On X64 a relocation to a symbol of kind [`X86PCRel4`](crate::Reloc::X86PCRel4),
/// [`X86CallPCRel4`](crate::Reloc::X86CallPCRel4) or [`X86CallPLTRel4`](crate::Reloc::X86CallPLTRel4) is filled, in the order of pieces and
/// relocations. Every other one remains, with its new offset; so do all on X86 and AArch64.
///
/// Pieces share a symbol by its name, whatever its number is in each, and by its number where it has no name; a name and a number are never one symbol.
/// A label defines it by [`bind_symbol`](crate::CodeBuffer::bind_symbol). Where no piece does that for a symbol with a name, a bound label of that name
/// defines it, unless the name starts with `.`: so the system's linker finds it, too, in the objects of the pieces. In the whole a symbol without a
/// name has its number, and names have the lowest that are left.
///
#[doc = concat!(
    "The verified function takes up to ", join_stack!(), " bytes of the thread's stack ([`JOIN_STACK`](crate::JOIN_STACK)), whatever is joined."
)]
///
/// ```
/// use wargnifla::{Arch, CodeBuffer, Reloc, Sym, join};
///
/// # fn main() -> Result<(), wargnifla::Error> {
/// let mut caller = CodeBuffer::with_symbols(Arch::X64, 1);
/// let sort = Sym::from_id(0);
/// caller.name_symbol(sort, "sort");
/// caller.put1(0xE8)?; // call sort
/// caller.add_reloc(Reloc::X86CallPLTRel4, sort.into(), -4)?;
/// caller.put4(0)?;
///
/// let mut callee = CodeBuffer::new(Arch::X64);
/// let entry = callee.get_label()?;
/// callee.bind_symbol("sort", entry);
/// callee.try_bind_label(entry)?;
/// callee.put1(0xC3)?; // ret
///
/// let whole = join([&caller.finish()?, &callee.finish()?])?;
/// assert_eq!(whole.bases(), [0, 32]);
/// assert_eq!(whole.code().data()[..5], [0xE8, 27, 0, 0, 0]);
/// let entry = whole.label(1, entry).unwrap();
/// assert_eq!(whole.code().label_offset(entry), Some(32));
/// # Ok(())
/// # }
/// ```
///
/// # Errors
///
/// Number 1, where there is no piece or more than [`MOST_PIECES`](crate::MOST_PIECES); 3, where a piece, joined before, exceeds a limit; 27, 28 or 29;
/// 17 or 18, where a field passes its piece's end or can't reach its symbol; 23, where the whole passes 32 bits.
pub fn join<'a>(
    pieces: impl IntoIterator<Item = &'a CodeBufferFinalized>,
) -> Result<Joined, Error> {
    let pieces = Pieces::new(pieces.into_iter().collect());
    match verified::join(&pieces.lent(), pieces.room()) {
        Ok(whole) => Ok(joined(&pieces, whole)),
        Err(number) => Err(refused(&pieces, number)),
    }
}

fn refused(pieces: &Pieces<'_>, number: u32) -> Error {
    let (sentence, place) = explain_join(pieces, number);
    let (piece, entry) = place.map_or((None, None), |(piece, entry)| (Some(piece), entry));
    let error = Error::new(number, Place::Join, sentence);
    error.at_piece(piece).at_entry(entry)
}

fn joined(pieces: &Pieces<'_>, whole: Whole) -> Joined {
    let relocs = relocs_of(&whole.relocs);
    let remaining: Vec<Origin> = pieces.remaining().map(|(origin, ..)| origin).collect();
    assert_eq!(remaining.len(), relocs.len(), "the relocations that remain");
    Joined {
        bases: pieces.all.iter().map(|piece| offset(piece.base)).collect(),
        first_labels: first_labels(pieces),
        filled: filled(pieces),
        remaining,
        code: CodeBufferFinalized {
            arch: pieces.all[0].code.arch,
            data: whole.code,
            label_offsets: offsets_of(&whole.labels),
            relocs,
            record: whole.record,
            segments: Vec::new(),
            unpatched: Vec::new(),
            unasked_constants: Vec::new(),
            names: pieces.names(),
            definitions: pieces.definitions(),
            has_page_fields: pieces.all.iter().any(|piece| piece.code.has_page_fields),
            contents: Contents::joined(pieces),
        },
    }
}

fn first_labels(pieces: &Pieces<'_>) -> Vec<u32> {
    let counts = pieces
        .all
        .iter()
        .map(|piece| piece.code.label_offsets.len());
    let mut first = vec![0];
    first.extend(counts.scan(0, |sum, count| {
        *sum += count as u32;
        Some(*sum)
    }));
    first
}

fn filled(pieces: &Pieces<'_>) -> Vec<Filled> {
    let fields = pieces.fields().map(|(origin, piece, reloc, symbol)| {
        let (_, definer, defined) = pieces
            .definition(symbol)
            .expect("what is filled is defined");
        Filled {
            origin,
            offset: offset(piece.base + u64::from(reloc.offset)),
            symbol,
            label: definer
                .label_in_whole(defined.label)
                .expect("what is filled is defined by a known label"),
            value: pieces
                .value(piece, reloc, symbol)
                .and_then(|value| i32::try_from(value).ok())
                .expect("what is filled fits its field"),
        }
    });
    fields.collect()
}

/// An offset of a whole that was accepted.
fn offset(offset: u64) -> CodeOffset {
    CodeOffset::try_from(offset).expect("a whole is below 2^32 bytes")
}
