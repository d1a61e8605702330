//! Which lines of which files finished code comes from.

use std::ops::Range;

use crate::call::appended;
use crate::relax::{deciding, moved};
use crate::{Call, CodeBufferFinalized, CodeOffset, LayoutEvent, Segment};

/// Where finished code comes from, for debuggers: what [`CodeBufferFinalized::object_with_lines`] is handed.
#[derive(Clone, Debug, Default, PartialEq, Eq)]
pub struct SourceLines {
    /// The folder that the files' names start from, where they are no whole paths.
    pub folder: String,
    /// The names of the files: one at least.
    pub files: Vec<String>,
    /// The lines, by rising offset of their code. Code between them comes from no line.
    pub lines: Vec<SourceLine>,
}

/// A line, and the finished code that comes from it.
#[derive(Clone, Debug, PartialEq, Eq)]
pub struct SourceLine {
    /// Where the code stands: one byte at least.
    pub code: Range<CodeOffset>,
    /// The file, by its index among the names.
    pub file: usize,
    /// The line, from 1.
    pub line: u32,
}

impl SourceLines {
    /// What is wrong with them beside code of a length, if anything is.
    pub(super) fn wrong(&self, code_len: usize) -> Option<String> {
        if self.files.is_empty() {
            return Some("the lines are of no file".into());
        }
        if let Some(file) = self.files.iter().position(|name| is_unfit(name)) {
            let name = "is empty or has a zero byte, and stands in no object";
            return Some(format!("the name of file {file} of the lines {name}"));
        }
        if self.folder.contains('\0') {
            return Some("the folder of the lines has a zero byte, and stands in no object".into());
        }
        let mut end = 0;
        for (index, SourceLine { code, file, .. }) in self.lines.iter().enumerate() {
            let is_placed = end <= code.start && code.start < code.end;
            if !is_placed || code.end as usize > code_len || *file >= self.files.len() {
                return Some(format!(
                    "entry {index} of the lines is unfit: {}..{} of file {file}, behind {end} in code of {code_len} bytes from {} files",
                    code.start,
                    code.end,
                    self.files.len()
                ));
            }
            end = code.end;
        }
        None
    }
}

fn is_unfit(name: &str) -> bool {
    name.is_empty() || name.contains('\0')
}

impl CodeBufferFinalized {
    /// Where the bytes came to stand that each call appended, of the calls that recorded this code: of padding what it spends in the end, of a jump's
    /// bytes the jump. The range is empty where a call appended nothing. Of joined code its pieces know.
    ///
    /// ```
    /// use wargnifla::{Arch, CodeBuffer, read_text};
    ///
    /// # fn main() -> Result<(), wargnifla::Error> {
    /// let calls = read_text("bytes 90; jmp end; align 4; end: bytes C3").unwrap().calls;
    /// let mut buffer = CodeBuffer::new(Arch::X64);
    /// for call in &calls {
    ///     buffer.call(call)?;
    /// }
    /// let ranges = buffer.finish()?.call_ranges(&calls);
    /// let appending: Vec<_> = ranges.into_iter().filter(|range| !range.is_empty()).collect();
    /// assert_eq!(appending, [0..1, 1..3, 3..4, 4..5]);
    /// # Ok(())
    /// # }
    /// ```
    #[must_use]
    pub fn call_ranges(&self, calls: &[Call]) -> Vec<Range<CodeOffset>> {
        let mut segments = self.segments.iter();
        let mut start: CodeOffset = 0;
        let ranges = calls.iter().map(|call| {
            let end = start.saturating_add(appended(call, start));
            let is_event = LayoutEvent::is_made_by(call, self.arch);
            let segment = is_event.then(|| segments.next()).flatten();
            let range = match (call, segment) {
                (Call::Align { .. }, Some(segment)) => segment.new_start..segment.new_end,
                _ if start == end => 0..0,
                _ => self.placed(start, start)..self.placed(end - 1, end),
            };
            start = end;
            range
        });
        ranges.collect()
    }

    /// A recorded offset, moved by the segment that decides where another goes. Inside of an event it goes no further than the event's end.
    fn placed(&self, decided_by: CodeOffset, offset: CodeOffset) -> CodeOffset {
        let within = |segment: &Segment| match moved(segment, offset) {
            at if offset < segment.old_end => at.min(segment.new_end),
            at => at,
        };
        deciding(&self.segments, decided_by).map_or(offset, |i| within(&self.segments[i]))
    }
}
