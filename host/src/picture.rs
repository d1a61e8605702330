//! A page that shows how finish relaxed the jumps of a recording, round by round, or how pieces were joined: one HTML file that takes nothing from
//! elsewhere. The numbers are those of [`Rounds`] and [`Joined`](crate::Joined); the scripts beside this file only draw and word them.

mod data;
mod fields;
mod joined;
mod markup;
mod notes;
mod parts;
mod still;
mod table;

use crate::event::LayoutEvent;
use crate::ffi::Segment;
use crate::listing::record;
use crate::recording::{Pooled, Recording};
use crate::{CodeBufferFinalized, FinishedRecording, Rounds, Style};
use fields::PlacedField;
pub use joined::JoinedPicture;
use markup::escaped;

const STYLE: &str = include_str!("picture/page.css");

/// The scripts, in the order of the page.
const SCRIPTS: [&str; 4] = [
    include_str!("picture/layout.js"),
    include_str!("picture/draw.js"),
    include_str!("picture/say.js"),
    include_str!("picture/page.js"),
];

/// What a page is made of.
///
/// ```
/// use wargnifla::{Arch, CodeBuffer, Picture};
///
/// # fn main() -> Result<(), wargnifla::Error> {
/// let mut buffer = CodeBuffer::new(Arch::X64);
/// let end = buffer.get_label()?;
/// buffer.put_jump(end, None)?;
/// buffer.put_bytes(&[0x90; 128])?;
/// buffer.try_bind_label(end)?;
/// let finished = buffer.finish_with_recording()?;
/// let page = Picture::new("a jump over 128 bytes", &finished).page();
/// assert!(page.starts_with("<!DOCTYPE html>"));
/// # Ok(())
/// # }
/// ```
#[derive(Clone, Copy, Debug)]
pub struct Picture<'a> {
    title: &'a str,
    /// The recording as it was before finish.
    recording: &'a Recording,
    /// The bytes that were recorded.
    recorded: &'a [u8],
    /// The rounds of the recording.
    rounds: &'a Rounds,
    /// What finish made of it.
    finished: &'a CodeBufferFinalized,
    places: &'a [String],
    style: Style,
}

impl<'a> Picture<'a> {
    /// A picture of finished code, and what the page is called.
    #[must_use]
    pub fn new(title: &'a str, finished: &'a FinishedRecording) -> Self {
        Self {
            title,
            recording: finished.recording(),
            recorded: finished.recorded(),
            rounds: finished.rounds(),
            finished: finished.code(),
            places: &[],
            style: Style::default(),
        }
    }

    /// Says where each event of the recording comes from, such as `line 6`.
    #[must_use]
    pub fn places(self, places: &'a [String]) -> Self {
        Self { places, ..self }
    }

    /// Says how offsets are written, and whether the table of bytes is cut.
    #[must_use]
    pub fn style(self, style: impl Into<Style>) -> Self {
        Self {
            style: style.into(),
            ..self
        }
    }

    /// The page, as the text of an HTML file.
    #[must_use]
    pub fn page(&self) -> String {
        let placed = Placed::new(self.recording, self.finished);
        let fields = data::fields(self, &placed);
        let page = Page {
            title: self.title,
            subject: "rounds of relaxation",
            record: &record(self.recording, self.finished),
            notes: self.notes(&fields),
            below: format!(
                include_str!("picture/below.html"),
                still = still::still(&placed),
                table = table::table(self, &placed),
            ),
            data: data::data(self, &placed, &fields),
        };
        page.html()
    }

    fn notes(&self, fields: &[PlacedField]) -> Vec<String> {
        let relaxed = match self.recording.has_jump() {
            true => None,
            false => Some("Nothing was relaxed: there is no jump to relax.".into()),
        };
        let relaxed = relaxed.into_iter();
        relaxed
            .chain(notes::not_in_code([self.finished]))
            .chain(notes::not_drawn(
                self.recording.relocs.len() - fields::left(fields),
            ))
            .collect()
    }
}

/// The parts of a page.
struct Page<'a> {
    title: &'a str,
    /// What it is about.
    subject: &'a str,
    /// What finish or join reports.
    record: &'a str,
    /// What a reader should know before the first look.
    notes: Vec<String>,
    /// What stands below the drawing and needs no script.
    below: String,
    /// What the scripts draw from.
    data: String,
}

impl Page<'_> {
    fn html(&self) -> String {
        let paragraph = |note: &String| format!("<p class=\"note\">{}</p>\n", escaped(note));
        format!(
            include_str!("picture/page.html"),
            title = escaped(self.title),
            subject = self.subject,
            style = STYLE,
            record = escaped(self.record),
            notes = self.notes.iter().map(paragraph).collect::<String>(),
            below = self.below,
            data = self.data,
            scripts = SCRIPTS.concat(),
        )
    }
}

/// A recording with its pool, and where each event comes to stand.
struct Placed {
    pooled: Pooled,
    segments: Vec<Segment>,
    /// Bytes of finished code.
    len: u32,
}

impl Placed {
    fn new(recording: &Recording, finished: &CodeBufferFinalized) -> Self {
        let pooled = recording.pooled();
        let segments = match finished.segments() {
            [] => pooled.events.iter().map(as_recorded).collect(),
            settled => settled.to_vec(),
        };
        Self {
            pooled,
            segments,
            len: finished.total_size() as u32,
        }
    }
}

/// Where an event stands if nothing moves.
fn as_recorded(event: &LayoutEvent) -> Segment {
    Segment {
        old_start: event.start(),
        old_end: event.end(),
        new_start: event.start(),
        new_end: event.end(),
    }
}
