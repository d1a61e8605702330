//! The listing of joined code: piece after piece, and the gaps between them.

use std::collections::HashSet;

use super::{
    COVERED, HEAD, LINE, Row, SourceText, Style, Texts, Writer, addend_text, mark_covered,
    unpatched_rows, written_rows,
};
use crate::join::Filled;
use crate::{Error, FinishedRecording, Joined, join};
use sheet_text::counted;

/// A piece that is to be joined and listed.
#[derive(Clone, Copy, Debug)]
pub struct ListedPiece<'a> {
    /// What it is called, such as the name of its file.
    pub title: &'a str,
    /// Its code and its recording.
    pub finished: &'a FinishedRecording,
}

/// Finished buffers as one, with the recordings of the pieces, to be listed.
///
/// ```
/// use wargnifla::{Arch, CodeBuffer, Extent, JoinedRecordings, ListedPiece};
///
/// # fn main() -> Result<(), wargnifla::Error> {
/// let mut buffer = CodeBuffer::new(Arch::X64);
/// buffer.put1(0xC3)?;
/// let finished = &buffer.finish_with_recording()?;
/// let pieces = ["first", "second"].map(|title| ListedPiece { title, finished });
/// let joined = JoinedRecordings::new(pieces)?;
/// assert_eq!(joined.whole().bases(), [0, 32]);
/// let listing = joined.listing(Extent::Brief);
/// assert!(listing.ends_with("\n      32                              piece 1: second\n      32  C3                          1 byte\n"));
/// # Ok(())
/// # }
/// ```
#[derive(Clone, Debug)]
pub struct JoinedRecordings<'a> {
    pieces: Vec<ListedPiece<'a>>,
    whole: Joined,
}

impl<'a> JoinedRecordings<'a> {
    /// Joins pieces as [`join`](crate::join()) does.
    ///
    /// # Errors
    ///
    /// As [`join`](crate::join()).
    pub fn new(pieces: impl IntoIterator<Item = ListedPiece<'a>>) -> Result<Self, Error> {
        let pieces: Vec<ListedPiece<'a>> = pieces.into_iter().collect();
        let whole = join(pieces.iter().map(|piece| piece.finished.code()))?;
        Ok(Self { pieces, whole })
    }

    /// The pieces, in the order of joining.
    #[must_use]
    pub fn pieces(&self) -> &[ListedPiece<'a>] {
        &self.pieces
    }

    /// What the pieces were joined to.
    #[must_use]
    pub fn whole(&self) -> &Joined {
        &self.whole
    }

    /// The joined code as a listing: the pieces in order, with the offsets and the numbers of labels and symbols that they have in the whole.
    #[must_use]
    pub fn listing(&self, style: impl Into<Style>) -> String {
        self.listing_with_sources(&[], style)
    }

    /// The same with the lines of the texts that the pieces come from above what they made; a piece without a text has none.
    #[must_use]
    pub fn listing_with_sources(
        &self,
        sources: &[SourceText<'_>],
        style: impl Into<Style>,
    ) -> String {
        listing(&self.pieces, sources, &self.whole, style.into())
    }
}

impl Joined {
    /// What join reports, in one line.
    #[must_use]
    pub fn record(&self) -> String {
        let code = self.code();
        format!(
            "joined for {}: {}, alignment {}, pieces {}, relocations filled {}, remaining {}",
            code.arch(),
            counted(code.total_size(), "byte"),
            code.alignment(),
            self.bases().len(),
            self.filled().len(),
            code.relocs().len()
        )
    }
}

/// Lists pieces and the whole that they were joined to.
fn listing(
    pieces: &[ListedPiece<'_>],
    sources: &[SourceText<'_>],
    whole: &Joined,
    style: Style,
) -> String {
    let code = whole.code();
    let mut out = String::from(HEAD);
    for (index, piece) in pieces.iter().enumerate() {
        let texts = Texts {
            base: whole.bases()[index],
            first_label: whole.first_label(index),
            names: &code.names,
            ..Texts::new(
                piece.finished.recording(),
                piece.finished.code(),
                style.offsets,
            )
        };
        let source = sources.get(index);
        let mut writer = Writer::new(&texts, source, code.data(), style, &mut out);
        writer.line(
            Some(texts.base as usize),
            "",
            &format!("piece {index}: {}", piece.title),
        );
        writer.rows(rows(&texts, index, whole));
        let end = whole.bases().get(index + 1);
        let end = end.map_or(code.total_size(), |next| *next as usize);
        writer.gap(end);
    }
    out
}

/// What finish wrote of a piece, what join filled of it, and what neither did.
fn rows(texts: &Texts<'_>, piece: usize, whole: &Joined) -> Vec<Row> {
    let fields = whole.filled().iter();
    let fields = fields.filter(|filled| filled.origin.piece == piece);
    let mut filled: Vec<Row> = fields
        .map(|field| filled_row(texts, field, whole))
        .collect();
    mark_covered(&mut filled, &[]);
    let later: HashSet<usize> = filled.iter().flat_map(|row| row.bytes.clone()).collect();
    let mut rows = written_rows(texts);
    for row in &mut rows {
        let is_covered = row.bytes.clone().any(|byte| later.contains(&byte));
        if is_covered && !row.what.ends_with(COVERED) {
            row.what.push_str(COVERED);
        }
    }
    rows.extend(filled);
    let remaining = whole.remaining().iter().zip(whole.code().relocs());
    let remaining = remaining.filter(|(origin, _)| origin.piece == piece);
    rows.extend(remaining.map(|(_, reloc)| {
        let (offset, size) = (reloc.offset - texts.base, reloc.kind.field_size());
        texts.row_within(offset, size, texts.relocation(reloc))
    }));
    rows.extend(unpatched_rows(texts));
    rows
}

/// `relocation X86PCRel4: symbol sort at 64, addend -4, filled with 55`.
fn filled_row(texts: &Texts<'_>, field: &Filled, whole: &Joined) -> Row {
    let reloc = &texts.finished.relocs()[field.origin.relocation];
    let offset = whole.code().bound_offset(field.label);
    let what = format!(
        "relocation {}: {} at {}{}, filled with {}",
        reloc.kind,
        texts.names.text(field.symbol),
        texts.offsets.text(offset),
        addend_text(reloc),
        field.value
    );
    let start = field.offset - texts.base;
    Row::new(start, start + reloc.kind.field_size(), what)
}

impl Writer<'_> {
    /// The zeros between a piece and the next.
    fn gap(&mut self, end: usize) {
        if self.cursor < end {
            let len = counted(end - self.cursor, "byte");
            self.run(
                self.cursor..end,
                LINE,
                &format!("{len} up to the next piece"),
            );
        }
    }
}
