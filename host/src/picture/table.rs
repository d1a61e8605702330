//! Recorded and finished bytes next to each other, part by part.

use std::ops::Range;

use super::markup::escaped;
use super::parts::{Part, What, parts};
use super::{Picture, Placed};
use crate::listing::{Extent, Texts};
use crate::{CodeOffset, UNBOUND};
use sheet_text::counted;

/// Rows that the table may have before it is cut, and bytes of a row.
pub const MOST_ROWS: usize = 200;
const MOST_BYTES: usize = 16;

/// The rows of the table, and how many are left out.
pub fn table(picture: &Picture<'_>, placed: &Placed) -> String {
    let rows = Rows {
        picture,
        placed,
        texts: Texts::new(picture.recording, picture.finished, picture.style.offsets),
    };
    let parts = parts(placed);
    let shown = match picture.style.extent {
        Extent::Brief => parts.len().min(MOST_ROWS),
        Extent::Full => parts.len(),
    };
    let mut out: String = parts[..shown].iter().map(|part| rows.row(part)).collect();
    if shown < parts.len() {
        let left = counted(parts.len() - shown, "more row");
        out += &format!("<tr><td colspan=\"5\">… {left}</td></tr>\n");
    }
    out
}

struct Rows<'a> {
    picture: &'a Picture<'a>,
    placed: &'a Placed,
    texts: Texts<'a>,
}

impl Rows<'_> {
    fn row(&self, part: &Part) -> String {
        let (class, pick, what) = self.what(part);
        let offset = |at: CodeOffset| self.picture.style.offsets.text(at);
        let (recorded_at, recorded) = match self.is_pooled(part.what) {
            true => (String::new(), String::from("pooled")),
            false => {
                let bytes = bytes(self.picture.recorded, &part.old);
                (offset(part.old.start), self.hex(bytes, |_| false))
            }
        };
        let finished = bytes(self.picture.finished.data(), &part.new);
        let finished = match part.what {
            What::Run => {
                let recorded = bytes(self.picture.recorded, &part.old);
                self.hex(finished, |i| recorded[i] != finished[i])
            }
            _ => self.hex(finished, |_| false),
        };
        format!(
            "<tr class=\"{class}\"{pick}><td>{recorded_at}</td><td>{recorded}</td><td>{}</td><td>{}</td><td>{}</td></tr>\n",
            offset(part.new.start),
            finished,
            escaped(&what)
        )
    }

    /// Whether finish sets it behind the code: nothing of it was recorded there.
    fn is_pooled(&self, what: What) -> bool {
        let recording = self.picture.recording;
        match what {
            What::Label(label) => recording.labels[label.id() as usize] == UNBOUND,
            What::Run => false,
            What::Event(event) => event >= recording.events.len(),
            What::Constant(_) => true,
        }
    }

    /// The class of a row, what choosing it chooses in the strip, and what it says.
    fn what(&self, part: &Part) -> (&'static str, String, String) {
        let pick = |name: &str, number: usize| format!(" data-pick=\"{name}{number}\"");
        let Placed { pooled, .. } = self.placed;
        match part.what {
            What::Label(label) => {
                let name = self.picture.recording.names.text(label);
                ("label", pick("label", label.id() as usize), name)
            }
            What::Run => ("run", String::new(), counted(part.new.len(), "byte")),
            What::Constant(index) => {
                let constant = pooled.constants[index].constant.id();
                ("constant", String::new(), format!("constant {constant}"))
            }
            What::Event(event) => {
                let class = match pooled.events[event].label() {
                    Some(_) => "jump",
                    None => "padding",
                };
                let what = self
                    .texts
                    .event(pooled, event, part.new.start, part.new.end);
                (class, pick("event", event), what)
            }
        }
    }

    /// Bytes in hexadecimal, as many as a row has, and some of them marked.
    fn hex(&self, bytes: &[u8], is_marked: impl Fn(usize) -> bool) -> String {
        let shown = match self.picture.style.extent {
            Extent::Brief if bytes.len() > MOST_BYTES => MOST_BYTES / 2,
            _ => bytes.len(),
        };
        let byte = |(i, byte): (usize, &u8)| match is_marked(i) {
            true => format!("<b>{byte:02X}</b>"),
            false => format!("{byte:02X}"),
        };
        let shown_bytes: Vec<String> = bytes[..shown].iter().enumerate().map(byte).collect();
        let mut text = shown_bytes.join(" ");
        if shown < bytes.len() {
            text += &format!(" … {} more", bytes.len() - shown);
        }
        text
    }
}

fn bytes<'a>(data: &'a [u8], range: &Range<CodeOffset>) -> &'a [u8] {
    &data[range.start as usize..range.end as usize]
}
