//! The finished code as a listing: what every byte is there for.

mod joined;
mod source;

pub use joined::{JoinedRecordings, ListedPiece};
pub use source::SourceText;

use std::collections::HashSet;
use std::fmt::Write;
use std::ops::Range;

use crate::event::{Alignment, Form, LayoutEvent, RelaxableJump};
use crate::recording::{AsmReloc, Constant, Label, Names, Pooled, Recording};
use crate::relax::map;
use crate::{
    Arch, Call, CodeBufferFinalized, CodeOffset, DEFAULT_MOST, LabelUse, Padding, UNBOUND,
    Unpatched, WhyUnpatched,
};
use sheet_text::counted;
use source::SourceLines;

/// Bytes in a line; x86 padding has lines of 9, the longest NOP.
const LINE: usize = 8;
const NOP_LINE: usize = 9;

/// Lines that a run of bytes may have before it is cut, and what is then shown of it.
const MOST_LINES: usize = 4;
const LINES_OF_A_CUT_RUN: usize = 2;

/// The bit of `add` that shifts its immediate by 12 bits. A use of the immediate leaves it as it is.
const ADD_SHIFT: u32 = 1 << 22;

/// How much of long runs a listing shows.
#[derive(Clone, Copy, Debug, Default, PartialEq, Eq)]
pub enum Extent {
    /// The first lines of each, and how many bytes follow.
    #[default]
    Brief,
    /// Every byte.
    Full,
}

/// How offsets are written.
#[derive(Clone, Copy, Debug, Default, PartialEq, Eq)]
pub enum Radix {
    /// `26`
    #[default]
    Decimal,
    /// `0x1A`
    Hexadecimal,
}

impl Radix {
    /// An offset in writing.
    #[must_use]
    pub fn text(self, offset: CodeOffset) -> String {
        match self {
            Self::Decimal => offset.to_string(),
            Self::Hexadecimal => format!("{offset:#X}"),
        }
    }
}

/// How a listing is written.
#[derive(Clone, Copy, Debug, Default, PartialEq, Eq)]
pub struct Style {
    /// How much of long runs is shown.
    pub extent: Extent,
    /// How offsets are written.
    pub offsets: Radix,
}

impl Style {
    /// Whether offsets are hexadecimal.
    pub(crate) fn is_hex(self) -> bool {
        self.offsets == Radix::Hexadecimal
    }
}

impl From<Extent> for Style {
    fn from(extent: Extent) -> Self {
        Self {
            extent,
            ..Self::default()
        }
    }
}

/// Lists finished code: offset, bytes, and what they are. `recording` is the recording as it was before finish.
pub(crate) fn listing(
    recording: &Recording,
    finished: &CodeBufferFinalized,
    style: impl Into<Style>,
) -> String {
    listed(recording, finished, None, style.into())
}

/// Lists finished code, with the lines of the text that it comes from above what they made.
pub(crate) fn listing_with_source(
    recording: &Recording,
    finished: &CodeBufferFinalized,
    source: &SourceText<'_>,
    style: impl Into<Style>,
) -> String {
    listed(recording, finished, Some(source), style.into())
}

fn listed(
    recording: &Recording,
    finished: &CodeBufferFinalized,
    source: Option<&SourceText<'_>>,
    style: Style,
) -> String {
    let texts = Texts::new(recording, finished, style.offsets);
    let mut rows = written_rows(&texts);
    rows.extend(finished.relocs().iter().map(|reloc| {
        let size = reloc.kind.field_size();
        texts.row_within(reloc.offset, size, texts.relocation(reloc))
    }));
    rows.extend(unpatched_rows(&texts));
    let mut out = String::from(HEAD);
    let mut writer = Writer::new(&texts, source, finished.data(), style, &mut out);
    writer.rows(rows);
    out
}

/// What stands above the rows.
const HEAD: &str = "  offset  bytes                       what\n";

/// What finish reports, in one line.
pub(crate) fn record(recording: &Recording, finished: &CodeBufferFinalized) -> String {
    let long = finished
        .segments()
        .iter()
        .zip(&recording.events)
        .filter(|(segment, event)| event.form(segment.new_end - segment.new_start) == Form::Long)
        .count();
    // Finish leaves nothing open: what was is settled by the labels of pooled constants.
    let open = match recording.open {
        0 => String::new(),
        open => format!(", open until pooled {open}"),
    };
    format!(
        "finished for {}: {}, alignment {}, layouts {}, long jumps {long} of {}{open}",
        finished.arch(),
        counted(finished.total_size(), "byte"),
        finished.alignment(),
        finished.layouts(),
        recording.jumps().count()
    )
}

/// Some bytes of the finished code that were made for one purpose.
struct Row {
    bytes: Range<usize>,
    line: usize,
    what: String,
    /// The event that it shows, by its index.
    event: Option<usize>,
}

impl Row {
    fn new(start: CodeOffset, end: CodeOffset, what: String) -> Self {
        Self {
            bytes: start as usize..end as usize,
            line: LINE,
            what,
            event: None,
        }
    }
}

/// Every jump, padding, field and constant: what finish wrote.
fn written_rows(texts: &Texts<'_>) -> Vec<Row> {
    let Texts {
        recording,
        finished,
        ..
    } = texts;
    let pooled = recording.pooled();
    let constants = pooled.constants.iter().map(|placed| {
        let start = finished.bound_offset(placed.label);
        let label = texts.label(placed.label);
        let what = format!("constant {}, {label}", placed.constant.id());
        Row::new(start, start + placed.size, what)
    });
    let constants: Vec<Row> = constants.collect();
    let mut fields = field_rows(texts);
    mark_covered(&mut fields, &constants);
    let mut rows = event_rows(texts, &pooled);
    rows.extend(fields);
    rows.extend(constants);
    rows
}

/// What was recorded and finish did not write.
fn unpatched_rows(texts: &Texts<'_>) -> impl Iterator<Item = Row> {
    let unpatched = texts.finished.unpatched().iter();
    unpatched.filter_map(|entry| unpatched_row(texts, entry))
}

fn event_rows(texts: &Texts<'_>, pooled: &Pooled) -> Vec<Row> {
    let finished = texts.finished;
    let row = |(i, event): (usize, &LayoutEvent)| {
        let Range { start, end } = finished.event_range(i, event);
        let line = match event.form(end - start) {
            Form::Padding => padding_line(finished.arch()),
            Form::Short | Form::Long => LINE,
        };
        Row {
            line,
            event: Some(i),
            ..Row::new(start, end, texts.event(pooled, i, start, end))
        }
    };
    pooled.events.iter().enumerate().map(row).collect()
}

fn padding_line(arch: Arch) -> usize {
    match arch {
        Arch::X86 | Arch::X64 => NOP_LINE,
        Arch::AArch64 => LINE,
    }
}

/// `align 16: 14 bytes of padding, 11 recorded`, or `align 8 skipped: 7 needed, at most 3`, of an alignment that comes to stand at an offset; `owner`
/// is the pooled constant that it is for.
fn padding_text(alignment: &Alignment, owner: Option<Constant>, at: CodeOffset) -> String {
    let Alignment { align, most, .. } = *alignment;
    let recorded = alignment.padding_at(alignment.start);
    let now = alignment.padding_at(at);
    let before = match recorded {
        _ if recorded == now || recorded.is_skipped() && now.is_skipped() => String::new(),
        Padding::Skipped(_) => ", skipped when recorded".into(),
        Padding::Spent(len) => format!(", {len} recorded"),
    };
    if let Padding::Skipped(needed) = now {
        return format!("align {align} skipped: {needed} needed, at most {most}{before}");
    }
    let most = match most {
        DEFAULT_MOST => String::new(),
        _ => format!(", at most {most}"),
    };
    let owner = owner.map_or(String::new(), |constant| {
        format!(" for constant {}", constant.id())
    });
    format!("align {align}{most}{owner}: {now}{before}")
}

/// Says of a field that something is written over it: it need not mean its label then. Fields are written in order, the constants, which rise, after
/// them.
fn mark_covered(fields: &mut [Row], constants: &[Row]) {
    let is_constant = |byte: &usize| {
        let next = constants.partition_point(|constant| constant.bytes.end <= *byte);
        let next = constants.get(next);
        next.is_some_and(|constant| constant.bytes.contains(byte))
    };
    let mut later = HashSet::new();
    for field in fields.iter_mut().rev() {
        let mut bytes = field.bytes.clone();
        if bytes.any(|byte| later.contains(&byte) || is_constant(&byte)) {
            field.what.push_str(COVERED);
        }
        later.extend(field.bytes.clone());
    }
}

/// What is said of a row whose bytes are not all its own.
const COVERED: &str = "; what is written later covers it";

/// The fields that finish filled, in the order of writing: refs with a jump, uses without.
fn field_rows(texts: &Texts<'_>) -> Vec<Row> {
    let Texts {
        recording,
        finished,
        ..
    } = texts;
    let row = |offset: CodeOffset, kind: LabelUse, label: Label, addend: i32| {
        let what = texts.field(offset, kind, label, addend);
        Row::new(offset, offset + kind.patch_size(), what)
    };
    if recording.has_jump() {
        let refs = recording.refs.iter();
        refs.map(|field| {
            let offset = map(finished.segments(), field.offset);
            row(offset, field.kind, field.label, field.addend)
        })
        .collect()
    } else {
        let uses = recording.uses.iter();
        uses.map(|field| row(field.offset, field.kind, field.label, 0))
            .collect()
    }
}

/// A row where something was recorded that finish did not write.
fn unpatched_row(texts: &Texts<'_>, entry: &Unpatched) -> Option<Row> {
    let (offset, size, what) = match entry.call {
        Call::Jump {
            start,
            length,
            label,
            ..
        } => {
            let label = texts.label(Label::from_id(label));
            (start, length, format!("jump to {label}"))
        }
        Call::Ref {
            offset,
            label,
            code,
            ..
        } => {
            let kind = LabelUse::from_code(code)?;
            let what = format!("ref {kind} to {}", texts.label(Label::from_id(label)));
            (offset, kind.patch_size(), what)
        }
        Call::Use {
            offset,
            label,
            code,
        } => {
            let kind = LabelUse::from_code(code)?;
            let what = format!("use {kind} of {}", texts.label(Label::from_id(label)));
            (offset, kind.patch_size(), what)
        }
        _ => return None,
    };
    let size = if entry.filled { 0 } else { size };
    let offset = map(texts.finished.segments(), offset);
    let what = format!("{what}: {}", unpatched_text(entry, texts.finished.arch()));
    Some(texts.row_within(offset, size, what))
}

fn unpatched_text(entry: &Unpatched, arch: Arch) -> String {
    let why = entry.why.text(arch);
    match (entry.filled, entry.why) {
        (true, WhyUnpatched::BesideJump) => format!("{why}; a ref or jump fills the field"),
        (true, _) => format!("{why}; a use fills the field"),
        (false, _) => format!("{why}; the bytes stay as recorded"),
    }
}

/// What rows say.
pub(crate) struct Texts<'a> {
    recording: &'a Recording,
    finished: &'a CodeBufferFinalized,
    offsets: Radix,
    /// Where the code starts, and the number of its first label: not 0 where it is a piece of joined code.
    base: CodeOffset,
    first_label: u32,
    /// The names of labels and symbols, by the numbers that they have there.
    names: &'a Names,
}

impl<'a> Texts<'a> {
    pub fn new(
        recording: &'a Recording,
        finished: &'a CodeBufferFinalized,
        offsets: Radix,
    ) -> Self {
        Self {
            recording,
            finished,
            offsets,
            base: 0,
            first_label: 0,
            names: &recording.names,
        }
    }

    /// An offset of the code, where it comes to stand.
    fn offset(&self, offset: CodeOffset) -> String {
        self.offsets.text(self.base + offset)
    }

    /// A row of some bytes, or of none where they pass the code's end.
    fn row_within(&self, offset: CodeOffset, size: u32, what: String) -> Row {
        let len = self.finished.total_size() as CodeOffset;
        match offset.checked_add(size) {
            Some(end) if end <= len => Row::new(offset, end, what),
            _ if offset <= len => Row::new(offset, offset, what),
            _ => {
                let at = self.offset(offset);
                Row::new(len, len, format!("at {at}, past the end: {what}"))
            }
        }
    }

    fn label(&self, label: Label) -> String {
        self.names.text(self.placed_label(label))
    }

    /// A label of the code, by the number that it has where the code comes to stand.
    fn placed_label(&self, label: Label) -> Label {
        Label::from_id(self.first_label + label.id())
    }

    /// `label end at 16`.
    fn target(&self, label: Label) -> String {
        let offset = self.offset(self.finished.bound_offset(label));
        format!("{} at {offset}", self.label(label))
    }

    /// An event, by its index, that comes to stand from an offset to another.
    pub fn event(
        &self,
        pooled: &Pooled,
        index: usize,
        start: CodeOffset,
        end: CodeOffset,
    ) -> String {
        let event = &pooled.events[index];
        match event {
            LayoutEvent::Jump(jump) => self.jump(jump, event.form(end - start), end),
            LayoutEvent::Align(alignment) => padding_text(alignment, pooled.owner(index), start),
        }
    }

    /// `jmp short to label end at 16, distance 14`.
    fn jump(&self, jump: &RelaxableJump, form: Form, end: CodeOffset) -> String {
        let form = match form {
            Form::Short => "short",
            _ => "near",
        };
        let target = self.finished.bound_offset(jump.label);
        let distance = i64::from(target) - i64::from(end);
        format!(
            "{} {form} to {}, distance {distance}",
            jump.mnemonic(),
            self.target(jump.label)
        )
    }

    fn field(&self, offset: CodeOffset, kind: LabelUse, label: Label, addend: i32) -> String {
        let mut text = kind.to_string();
        let bytes = offset as usize..(offset + kind.patch_size()) as usize;
        let word = self.finished.data()[bytes].try_into().ok();
        let is_a64 = self.finished.arch() == Arch::AArch64;
        let word = word.filter(|_| is_a64).map(u32::from_le_bytes);
        if let Some(word) = word {
            let _ = write!(text, " in {word:08X}");
        }
        let _ = write!(text, ": {}", self.target(label));
        if addend != 0 {
            let _ = write!(text, ", addend {addend}");
        }
        let target = i64::from(self.finished.bound_offset(label)) + i64::from(addend);
        let _ = write!(text, ", {}", self.distance(offset.into(), kind, target));
        let is_shifted = |word| word & ADD_SHIFT != 0;
        if kind == LabelUse::A64AddAbsLo12 && word.is_some_and(is_shifted) {
            text.push_str("; bit 22 is set: 4,096 times that is added");
        }
        text
    }

    /// What a field holds of its target.
    fn distance(&self, offset: i64, kind: LabelUse, target: i64) -> String {
        const PAGE: i64 = 4096;
        if let Some(reach) = kind.reach() {
            return format!("distance {}", reach.distance(target - offset));
        }
        match kind {
            LabelUse::A64Adrp21 => match target.div_euclid(PAGE) - offset.div_euclid(PAGE) {
                1 => "distance 1 page".into(),
                pages => format!("distance {pages} pages"),
            },
            _ => {
                let low = target.rem_euclid(PAGE) as u32;
                format!("low 12 bits {}", self.offsets.text(low))
            }
        }
    }

    fn relocation(&self, reloc: &AsmReloc) -> String {
        let target = self.names.text(reloc.target);
        format!("relocation {}: {target}{}", reloc.kind, addend_text(reloc))
    }

    /// The bound labels by rising offset, both as they come to stand.
    fn bound_labels(&self) -> Vec<(usize, Label)> {
        let labels = (0..).zip(self.finished.label_offsets());
        let mut bound: Vec<(usize, Label)> = labels
            .filter(|(_, offset)| **offset != UNBOUND)
            .map(|(label, offset)| {
                let place = (self.base + offset) as usize;
                (place, self.placed_label(Label::from_id(label)))
            })
            .collect();
        bound.sort_unstable();
        bound
    }
}

fn addend_text(reloc: &AsmReloc) -> String {
    match reloc.addend {
        0 => String::new(),
        addend => format!(", addend {addend}"),
    }
}

struct Writer<'a> {
    /// The code that the listing is of.
    data: &'a [u8],
    /// What of it is written here.
    bytes: Range<usize>,
    names: &'a Names,
    labels: Vec<(usize, Label)>,
    next_label: usize,
    source: SourceLines,
    /// All bytes before it are listed.
    cursor: usize,
    style: Style,
    out: &'a mut String,
}

impl<'a> Writer<'a> {
    fn new(
        texts: &Texts<'a>,
        source: Option<&SourceText<'_>>,
        data: &'a [u8],
        style: Style,
        out: &'a mut String,
    ) -> Self {
        let source = source.map(|source| SourceLines::new(texts, source, style.extent));
        let start = texts.base as usize;
        Self {
            data,
            bytes: start..start + texts.finished.total_size(),
            names: texts.names,
            labels: texts.bound_labels(),
            next_label: 0,
            source: source.unwrap_or_default(),
            cursor: start,
            style,
            out,
        }
    }

    /// Writes rows by rising offset, what is empty first at its offset, and what stands between them.
    fn rows(&mut self, mut rows: Vec<Row>) {
        rows.sort_by_key(|row| (row.bytes.start, row.bytes.end));
        let base = self.bytes.start;
        for row in rows {
            self.row(&Row {
                bytes: base + row.bytes.start..base + row.bytes.end,
                ..row
            });
        }
        self.rest();
    }

    fn row(&mut self, row: &Row) {
        self.plain(row.bytes.start);
        // A label at an alignment that came to nothing stands behind it.
        if !row.bytes.is_empty() {
            self.labels_up_to(row.bytes.start);
            self.source_up_to(row.bytes.start);
        } else if let Some(event) = row.event {
            while let Some(line) = self.source.take_for_event(event) {
                push_line(self.out, line);
            }
        }
        let overlap = if row.bytes.start < self.cursor {
            " (overlaps the row above)"
        } else {
            ""
        };
        self.run(
            row.bytes.clone(),
            row.line,
            &format!("{}{overlap}", row.what),
        );
        self.cursor = self.cursor.max(row.bytes.end);
    }

    fn rest(&mut self) {
        self.plain(self.bytes.end);
        self.labels_up_to(self.bytes.end);
        self.source_up_to(usize::MAX);
    }

    /// The bytes from the cursor to `end`, in runs between labels.
    fn plain(&mut self, end: usize) {
        while self.cursor < end {
            self.labels_up_to(self.cursor);
            self.source_up_to(self.cursor);
            let label = self.labels.get(self.next_label);
            let stop = label.map_or(end, |(offset, _)| end.min(*offset));
            let stop = self.source.next_start().map_or(stop, |next| stop.min(next));
            self.run(
                self.cursor..stop,
                LINE,
                &counted(stop - self.cursor, "byte"),
            );
            self.cursor = stop;
        }
    }

    fn labels_up_to(&mut self, offset: usize) {
        while let Some(&(at, label)) = self.labels.get(self.next_label)
            && at <= offset
        {
            while let Some(line) = self.source.take_for_label(label.id()) {
                push_line(self.out, line);
            }
            let label = self.names.text(label);
            self.line(Some(at), "", &label);
            self.next_label += 1;
        }
    }

    /// The lines of the text whose code starts at an offset or before.
    fn source_up_to(&mut self, offset: usize) {
        while let Some(line) = self.source.take_up_to(offset) {
            push_line(self.out, line);
        }
    }

    fn run(&mut self, range: Range<usize>, line: usize, what: &str) {
        let bytes = &self.data[range.clone()];
        if bytes.is_empty() {
            self.line(Some(range.start), "", what);
            return;
        }
        let lines = bytes.len().div_ceil(line);
        let shown = match self.style.extent {
            Extent::Brief if lines > MOST_LINES => LINES_OF_A_CUT_RUN,
            _ => lines,
        };
        for (i, part) in bytes.chunks(line).take(shown).enumerate() {
            let what = if i == 0 { what } else { "" };
            self.line(Some(range.start + i * line), &hex(part), what);
        }
        if shown < lines {
            let left = bytes.len() - shown * line;
            self.line(None, &format!("... {}", counted(left, "more byte")), "");
        }
    }

    fn line(&mut self, offset: Option<usize>, bytes: &str, what: &str) {
        let offset = offset.map_or(String::new(), |at| {
            self.style.offsets.text(at as CodeOffset)
        });
        let line = format!("{offset:>8}  {bytes:<26}  {what}");
        push_line(self.out, &line);
    }
}

fn push_line(out: &mut String, line: &str) {
    out.push_str(line.trim_end());
    out.push('\n');
}

fn hex(bytes: &[u8]) -> String {
    let bytes: Vec<String> = bytes.iter().map(|byte| format!("{byte:02X}")).collect();
    bytes.join(" ")
}
