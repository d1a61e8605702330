//! A page of joined code: the pieces where they come to stand, and the calls that join filled.

use super::data::{event, events_text, label, object, what};
use super::fields::{self, Field, Kind, PlacedField};
use super::markup::{array, escaped, string};
use super::table::MOST_ROWS;
use super::{Page, Placed, notes};
use crate::listing::Extent;
use crate::relax::{events_before, map};
use crate::{CodeOffset, Joined, JoinedRecordings, Label, ListedPiece, Style, UNBOUND};
use sheet_text::counted;

/// What a page of joined code is made of.
///
/// ```
/// use wargnifla::{Arch, CodeBuffer, JoinedPicture, JoinedRecordings, ListedPiece};
///
/// # fn main() -> Result<(), wargnifla::Error> {
/// let mut buffer = CodeBuffer::new(Arch::X64);
/// buffer.put1(0xC3)?;
/// let finished = &buffer.finish_with_recording()?;
/// let pieces = ["first", "second"].map(|title| ListedPiece { title, finished });
/// let joined = JoinedRecordings::new(pieces)?;
/// let page = JoinedPicture::new("twice ret", &joined).page();
/// assert!(page.starts_with("<!DOCTYPE html>"));
/// # Ok(())
/// # }
/// ```
#[derive(Clone, Copy, Debug)]
pub struct JoinedPicture<'a> {
    title: &'a str,
    joined: &'a JoinedRecordings<'a>,
    pieces: &'a [ListedPiece<'a>],
    whole: &'a Joined,
    places: &'a [Vec<String>],
    style: Style,
}

impl<'a> JoinedPicture<'a> {
    /// A picture of joined code, and what the page is called.
    #[must_use]
    pub fn new(title: &'a str, joined: &'a JoinedRecordings<'a>) -> Self {
        Self {
            title,
            joined,
            pieces: joined.pieces(),
            whole: joined.whole(),
            places: &[],
            style: Style::default(),
        }
    }

    /// Says of each piece where its events come from, such as `line 6`.
    #[must_use]
    pub fn places(self, places: &'a [Vec<String>]) -> Self {
        Self { places, ..self }
    }

    /// Says how offsets are written, and whether the listing is cut.
    #[must_use]
    pub fn style(self, style: impl Into<Style>) -> Self {
        Self {
            style: style.into(),
            ..self
        }
    }

    /// The page, as the text of an HTML file.
    #[must_use]
    pub fn page(&self) -> String {
        let mut placed = PlacedPieces::default();
        for index in 0..self.pieces.len() {
            placed.add(self, index);
        }
        let fields = placed.fields(self);
        let not_drawn = self.whole.remaining().len() - fields::left(&fields);
        let page = Page {
            title: self.title,
            subject: "joined code",
            record: &self.whole.record(),
            notes: notes::not_in_code(self.pieces.iter().map(|piece| piece.finished.code()))
                .chain(notes::not_drawn(not_drawn))
                .collect(),
            below: self.listing(),
            data: self.data(&placed, &fields),
        };
        page.html()
    }

    /// The listing, cut where it is long.
    fn listing(&self) -> String {
        let text = self.joined.listing(self.style);
        let lines: Vec<&str> = text.lines().collect();
        let shown = match self.style.extent {
            Extent::Brief => lines.len().min(MOST_ROWS),
            Extent::Full => lines.len(),
        };
        let mut text = lines[..shown].join("\n");
        if shown < lines.len() {
            let left = counted(lines.len() - shown, "more line");
            text += &format!("\n… {left}");
        }
        format!(
            "<section id=\"compare\">\n<h2>Listing</h2>\n<pre tabindex=\"0\">{}</pre>\n</section>\n",
            escaped(&text)
        )
    }

    /// An object for the scripts.
    fn data(&self, placed: &PlacedPieces, fields: &[PlacedField]) -> String {
        let len = self.whole.code().total_size();
        let sentence = format!(
            "as joined: {}, {}, {}",
            counted(len, "byte"),
            counted(self.pieces.len(), "piece"),
            events_text(self.pieces.iter().map(|piece| piece.finished.recording()))
        );
        let [kinds, fields] = fields::entries(fields);
        object([
            ("hex", self.style.is_hex().to_string()),
            ("recorded", string(&sentence)),
            ("finished", string("")),
            ("len", len.to_string()),
            ("events", array(&placed.events)),
            ("labels", array(&placed.labels)),
            ("constants", array(&placed.constants)),
            kinds,
            fields,
            ("first", array([0; 0])),
            ("rounds", array([0; 0])),
            ("of", "0".into()),
            ("pieces", array(&placed.pieces)),
        ])
    }
}

/// The entries of all pieces, where they stand in the whole.
#[derive(Default)]
struct PlacedPieces {
    events: Vec<String>,
    /// Where each event ends.
    ends: Vec<CodeOffset>,
    labels: Vec<String>,
    constants: Vec<String>,
    pieces: Vec<String>,
    /// The fields that finish filled.
    filled: Vec<Field>,
}

impl PlacedPieces {
    fn add(&mut self, picture: &JoinedPicture<'_>, index: usize) {
        let piece = &picture.pieces[index];
        let piece_at = PieceAt {
            base: picture.whole.bases()[index],
            first_event: self.events.len(),
            first_label: picture.whole.first_label(index),
            placed: Placed::new(piece.finished.recording(), piece.finished.code()),
        };
        let end = piece_at.base + piece.finished.code().total_size() as CodeOffset;
        self.pieces.push(array([
            piece_at.base.to_string(),
            end.to_string(),
            piece_at.first_event.to_string(),
            string(piece.title),
            string(&piece.finished.record()),
        ]));
        let places = picture.places.get(index).map_or(&[][..], Vec::as_slice);
        self.add_events(&piece_at, places);
        self.add_labels(picture, &piece_at);
        self.add_constants(&piece_at);
        self.filled.extend(filled(piece, &piece_at));
    }

    fn add_events(&mut self, piece: &PieceAt, places: &[String]) {
        let pooled = &piece.placed.pooled;
        let segments = pooled.events.iter().zip(&piece.placed.segments);
        for (i, (entry, segment)) in segments.enumerate() {
            let len = segment.new_end - segment.new_start;
            let place = places.get(i).map_or("", String::as_str);
            let goes_to = entry.label().map(|label| piece.label(label));
            let what = what(pooled, i);
            let start = piece.base + segment.new_start;
            self.events
                .push(event(entry, &what, start, len, goes_to, place));
            self.ends.push(start + len);
        }
    }

    fn add_labels(&mut self, picture: &JoinedPicture<'_>, piece: &PieceAt) {
        let names = picture.whole.code().names();
        for (number, offset) in (0..).zip(&piece.placed.pooled.labels) {
            let place = (*offset != UNBOUND).then(|| {
                let before = piece.first_event + events_before(&piece.placed.segments, *offset);
                let at = piece.base + map(&piece.placed.segments, *offset);
                (before, at - self.end_of(before))
            });
            let number = piece.label(Label::from_id(number));
            self.labels.push(label(place, names, number));
        }
    }

    fn add_constants(&mut self, piece: &PieceAt) {
        let pooled = &piece.placed.pooled;
        let first = self.ends.len() - pooled.constants.len() + 1;
        for (before, entry) in (first..).zip(&pooled.constants) {
            let (constant, label) = (entry.constant.id(), piece.label(entry.label).id());
            let entries = [before as u32, constant, label, entry.size];
            self.constants.push(array(entries));
        }
    }

    /// Where the last of so many events ends.
    fn end_of(&self, before: usize) -> CodeOffset {
        before.checked_sub(1).map_or(0, |last| self.ends[last])
    }

    /// Every field: those that finish filled, that join filled, and that remain. Those past their piece's end are left out.
    fn fields(&self, picture: &JoinedPicture<'_>) -> Vec<PlacedField> {
        let JoinedPicture { pieces, whole, .. } = picture;
        let names = whole.code().names();
        let joined = whole.filled().iter().map(|filled| {
            let origin = filled.origin;
            let reloc = &pieces[origin.piece].finished.code().relocs()[origin.relocation];
            Field {
                offset: filled.offset,
                kind: Kind::Join(reloc.kind),
                label: Some(filled.label),
                addend: reloc.addend,
                symbol: Some(names.text(filled.symbol)),
            }
        });
        let remaining = whole.remaining().iter().zip(whole.code().relocs());
        let left = remaining.filter_map(|(origin, reloc)| {
            let len = pieces[origin.piece].finished.code().total_size() as u32;
            let field = Field::left(reloc, names);
            field
                .is_within(whole.bases()[origin.piece] + len)
                .then_some(field)
        });
        let fields = self.filled.iter().cloned().chain(joined).chain(left);
        let place = |field: Field| {
            let before = self.ends.partition_point(|end| *end <= field.offset);
            (before, field.offset - self.end_of(before), field)
        };
        fields.map(place).collect()
    }
}

/// Where a piece stands in the whole.
struct PieceAt {
    base: CodeOffset,
    /// The numbers of its first event and label.
    first_event: usize,
    first_label: u32,
    placed: Placed,
}

impl PieceAt {
    /// The number of a label in the whole.
    fn label(&self, label: Label) -> Label {
        Label::from_id(self.first_label + label.id())
    }
}

/// The fields of a piece that finish filled.
fn filled<'a>(piece: &ListedPiece<'_>, at: &'a PieceAt) -> impl Iterator<Item = Field> + 'a {
    let fields = fields::filled(piece.finished.recording()).into_iter();
    fields.map(|field| Field {
        offset: at.base + map(&at.placed.segments, field.offset),
        label: field.label.map(|label| at.label(label)),
        ..field
    })
}
