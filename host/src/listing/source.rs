//! The lines of a text, shown above what they made.

use std::collections::HashMap;

use super::{Extent, Texts};
use crate::event::LayoutEvent;
use crate::ffi::Segment;
use crate::recording::Pooled;
use crate::{Call, CodeOffset};
use sheet_text::escaped;

/// Characters that are shown of a line, unless it is shown whole.
const MOST_CHARACTERS: usize = 100;

/// The text that a recording comes from. With other calls than those that made the recording, lines stand at wrong places.
#[derive(Clone, Debug)]
pub struct SourceText<'a> {
    /// The calls that made the recording.
    pub calls: &'a [Call],
    /// The line that each call stands in: its number from 1, and its text.
    pub lines: Vec<(usize, &'a str)>,
}

/// Lines in the order of the text, and what each made first.
#[derive(Default)]
pub(super) struct SourceLines {
    /// Where each line's code starts, and what is shown of the line.
    lines: Vec<(usize, String)>,
    of_label: HashMap<u32, usize>,
    of_event: Vec<usize>,
    next: usize,
}

impl SourceLines {
    pub fn new(texts: &Texts<'_>, source: &SourceText<'_>, extent: Extent) -> Self {
        let pooled = texts.recording.pooled();
        let mut walk = Walk {
            segments: texts.finished.segments(),
            pooled: &pooled,
            event: 0,
            offset: 0,
        };
        let mut lines = Self::default();
        let mut last = None;
        for (call, (number, text)) in source.calls.iter().zip(&source.lines) {
            // Many a label is made where it is first named, in front of the call that names it.
            if *call != Call::NewLabel && last.replace(number) != Some(number) {
                let at = walk.start(texts, call);
                let text = shown(text, extent);
                lines.push(texts.base as usize + at as usize, *number, &text);
            }
            let line = lines.lines.len().saturating_sub(1);
            if let Call::Bind(label) = call {
                let label = texts.first_label.saturating_add(*label);
                lines.of_label.insert(label, line);
            }
            if walk.pass(texts, call) {
                lines.of_event.push(line);
            }
        }
        lines
    }

    fn push(&mut self, at: usize, number: usize, text: &str) {
        let at = self.lines.last().map_or(at, |(before, _)| at.max(*before));
        let line = format!("{:>8}  {}", format!("line {number}"), text);
        self.lines.push((at, line));
    }

    /// Where the next line's code starts.
    pub fn next_start(&self) -> Option<usize> {
        self.lines.get(self.next).map(|(at, _)| *at)
    }

    /// The next line, if its code starts at an offset or before.
    pub fn take_up_to(&mut self, offset: usize) -> Option<&str> {
        let is_due = self.next_start()? <= offset;
        self.take_if(is_due)
    }

    /// The next line, if it is the one that binds a label, by its number in the whole, or stands before that.
    pub fn take_for_label(&mut self, label: u32) -> Option<&str> {
        let line = *self.of_label.get(&label)?;
        self.take_if(self.next <= line)
    }

    /// The next line, if it is the one that made an event or stands before that.
    pub fn take_for_event(&mut self, event: usize) -> Option<&str> {
        let line = *self.of_event.get(event)?;
        self.take_if(self.next <= line)
    }

    fn take_if(&mut self, is_due: bool) -> Option<&str> {
        let (_, line) = self.lines.get(self.next).filter(|_| is_due)?;
        self.next += 1;
        Some(line)
    }
}

/// Where the calls of a recording stand in the finished code.
struct Walk<'a> {
    segments: &'a [Segment],
    pooled: &'a Pooled,
    /// The events that the calls before made.
    event: usize,
    /// Bytes that they recorded.
    offset: CodeOffset,
}

impl Walk<'_> {
    fn next_event(&self) -> Option<&LayoutEvent> {
        self.pooled.events.get(self.event)
    }

    /// Where a call's code starts in the finished code. What stands between the bytes of a jump and the call that records it starts with the jump.
    fn start(&self, texts: &Texts<'_>, call: &Call) -> CodeOffset {
        let next = self.next_event();
        let made = |_: &&LayoutEvent| LayoutEvent::is_made_by(call, texts.finished.arch());
        let behind_start = |event: &&LayoutEvent| event.start() < self.offset;
        if let Some(event) = next.filter(|event| made(event) || behind_start(event)) {
            return texts.finished.event_range(self.event, event).start;
        }
        let last = self.event.checked_sub(1);
        let last = last.and_then(|last| self.segments.get(last));
        last.map_or(self.offset, |last| {
            last.new_end
                .saturating_add(self.offset.saturating_sub(last.old_end))
        })
    }

    /// Passes a call; whether it made an event.
    fn pass(&mut self, texts: &Texts<'_>, call: &Call) -> bool {
        if let Call::Bytes(bytes) = call {
            self.offset = self.offset.saturating_add(bytes.len() as CodeOffset);
        }
        let is_event = LayoutEvent::is_made_by(call, texts.finished.arch());
        if is_event {
            self.offset = self.next_event().map_or(self.offset, LayoutEvent::end);
            self.event += 1;
        }
        is_event
    }
}

/// A line without the blanks around it, its blanks as spaces, and cut where it is long.
fn shown(line: &str, extent: Extent) -> String {
    let line = line.trim();
    let most = match extent {
        Extent::Brief => MOST_CHARACTERS,
        Extent::Full => usize::MAX,
    };
    let shown = line.chars().take(most).map(|c| match c {
        _ if c.is_whitespace() => " ".into(),
        _ => escaped(c),
    });
    let more = match line.chars().nth(most) {
        Some(_) => "..",
        None => "",
    };
    shown.chain([more.into()]).collect()
}

#[cfg(test)]
mod tests {
    use super::*;

    #[test]
    fn long_lines_are_cut_and_what_a_terminal_would_obey_is_escaped() {
        let brief = |line: &str| shown(line, Extent::Brief);
        assert_eq!(brief("\tb 90\t# \u{1b}x \n"), "b 90 # \\u{1b}x");
        let long = "x".repeat(100);
        assert_eq!(brief(&long), long);
        let longer = format!("{long}y");
        assert_eq!(brief(&longer), format!("{long}.."));
        assert_eq!(shown(&longer, Extent::Full), longer);
    }
}
