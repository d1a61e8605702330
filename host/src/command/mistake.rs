//! What a program with a classic mistake writes for a sheet, beside what finish writes: for the class. No file is ever written of it.

mod model;

use std::fmt::Write;

use sheet_text::counted;
use wargnifla::{Alignment, CodeOffset, Extent, Label, LayoutEvent, Pooled, Segment, Style};

use super::diagnostic::{Diagnostic, Place};
use super::options::Options;
use super::report::{MOST_LINES, table};
use super::rounds::RoundsReport;
use super::rule::Rule;
use super::{Failure, diagnostic, print_text, unpatched};
use model::{Assembly, Model};

/// A mistake that `--mistake` makes on purpose.
#[derive(Clone, Copy, Debug, PartialEq, Eq)]
pub enum Mistake {
    /// Distances are measured from a jump's start, both to see what a short jump reaches and to write.
    FromStart,
    /// Jumps are made long once, and those that cross them are not looked at again.
    OneRound,
    /// An alignment has the padding that it had when it was recorded.
    OldPadding,
}

impl Mistake {
    const ALL: [Self; 3] = [Self::FromStart, Self::OneRound, Self::OldPadding];

    pub fn from_name(name: &str) -> Option<Self> {
        Self::ALL.into_iter().find(|mistake| mistake.name() == name)
    }

    const fn name(self) -> &'static str {
        match self {
            Self::FromStart => "from-start",
            Self::OneRound => "one-round",
            Self::OldPadding => "old-padding",
        }
    }

    /// What is wrong, and what would be right.
    const fn sentence(self) -> &'static str {
        match self {
            Self::FromStart => {
                "distances are measured from a jump's start; the processor counts from its end"
            }
            Self::OneRound => {
                "jumps become long in round 1 alone; each round has to look at every short jump again"
            }
            Self::OldPadding => {
                "padding keeps its recorded length; it has to be made anew where the alignment comes to stand"
            }
        }
    }
}

/// Prints the wrong code beside the right one.
pub fn show(mistake: Mistake, rule: &Rule, options: &Options) -> Result<(), Failure> {
    print_text(&text(mistake, rule, options.style())?)?;
    diagnostic::print_all(&unpatched::notes(options, &rule.input, rule.code()));
    Ok(())
}

fn text(mistake: Mistake, rule: &Rule, style: Style) -> Result<String, Failure> {
    check_sheet(rule)?;
    let pooled = rule.recording().pooled();
    let recorded = rule.buffer.data();
    let assembled = |mistake| Model::new(rule.recording(), &pooled, recorded, mistake).assembled();
    let right = Assembly::finished(rule.code());
    if assembled(None) != right {
        let sentence = "without a mistake, the model of mistakes and finish differ";
        return Err(Failure::internal(sentence));
    }
    let report = Report {
        rule,
        pooled: &pooled,
        right,
        wrong: assembled(Some(mistake)),
        style,
    };
    Ok(report.text(mistake))
}

/// Only finish for X64 resizes jumps, and only where there are some.
fn check_sheet(rule: &Rule) -> Result<(), Failure> {
    let arch = rule.recording().arch;
    let why = match rule.recording().has_jump() {
        true => return Ok(()),
        false if arch.tracks_layout() => "this sheet has no jump".into(),
        false => format!("this sheet is for {arch}"),
    };
    let sentence = format!("--mistake is about jumps that are resized, on X64, and {why}");
    let place = Place::file(&rule.input.file);
    Err(Failure::unusable(Diagnostic::error(sentence).at(place)))
}

/// Right and wrong, event by event and byte by byte.
struct Report<'a> {
    rule: &'a Rule,
    pooled: &'a Pooled,
    right: Assembly,
    wrong: Assembly,
    style: Style,
}

impl Report<'_> {
    fn text(&self, mistake: Mistake) -> String {
        let name = mistake.name();
        let mut out = format!(
            "wrong on purpose, --mistake {name}: {}\n",
            mistake.sentence()
        );
        self.events(&mut out);
        out += &self.bytes();
        let _ = writeln!(out, "\nright: {}", self.rule.finished.record());
        let _ = writeln!(out, "wrong on purpose: {}", self.summary());
        out
    }

    /// Each jump and each alignment, in the right code and in the wrong one.
    fn events(&self, out: &mut String) {
        out.push_str("\njumps and alignments, right and wrong on purpose\n");
        let names = RoundsReport::new(&self.rule.input, self.rule.recording(), self.style);
        let events = self.pooled.events.len();
        let shown = match self.style.extent {
            Extent::Brief if events > MOST_LINES => MOST_LINES / 2,
            _ => events,
        };
        for event in 0..shown {
            let [right, wrong] = [&self.right, &self.wrong].map(|code| self.event(code, event));
            let _ = writeln!(out, "  {}", names.event(event));
            if right == wrong {
                let _ = writeln!(out, "    right and wrong alike: {right}");
            } else {
                let _ = writeln!(out, "    right: {right}");
                let _ = writeln!(out, "    wrong: {wrong}");
            }
        }
        if shown < events {
            let _ = writeln!(out, "  ... {} more", events - shown);
        }
    }

    /// Where an event stands in the right or the wrong code, and what it does there.
    fn event(&self, assembly: &Assembly, event: usize) -> String {
        let start = self.offset(assembly.segments[event].new_start);
        let what = match &self.pooled.events[event] {
            LayoutEvent::Jump(jump) => self.jump(assembly, event, jump.label),
            LayoutEvent::Align(alignment) => self.alignment(assembly, event, alignment),
            _ => String::new(),
        };
        format!("at {start}, {what}")
    }

    /// `75 03 lands at 9; label packed is at 7`.
    fn jump(&self, assembly: &Assembly, event: usize, label: Label) -> String {
        let bytes = hex(assembly.bytes(event));
        let landing = assembly.landing(event);
        let target = assembly.labels[label.id() as usize];
        let name = self.rule.recording().names.text(label);
        if landing == i64::from(target) {
            return format!("{bytes} lands at {}, on {name}", self.offset(target));
        }
        let end = assembly.code.len();
        let outside = match usize::try_from(landing) {
            Err(_) => ", before the code".into(),
            Ok(landing) if landing >= end => {
                format!(", past the code, which has {}", counted(end, "byte"))
            }
            Ok(_) => String::new(),
        };
        let landing = match CodeOffset::try_from(landing) {
            Ok(offset) => self.offset(offset),
            Err(_) => landing.to_string(),
        };
        format!(
            "{bytes} lands at {landing}{outside}; {name} is at {}",
            self.offset(target)
        )
    }

    /// `11 bytes of padding up to 13, no multiple of 16`.
    fn alignment(&self, assembly: &Assembly, event: usize, alignment: &Alignment) -> String {
        let segment = &assembly.segments[event];
        let spent = counted((segment.new_end - segment.new_start) as usize, "byte");
        let end = self.offset(segment.new_end);
        let multiple = alignment.align;
        if !segment.new_end.is_multiple_of(multiple) && is_as_asked(alignment, segment) {
            let skipped = alignment.padding_at(segment.new_start);
            return format!("{skipped}, at most {}", alignment.most);
        }
        let article = match segment.new_end.is_multiple_of(multiple) {
            true => "a",
            false => "no",
        };
        format!("{spent} of padding up to {end}, {article} multiple of {multiple}")
    }

    /// The lines of eight bytes that differ, or all of them.
    fn bytes(&self) -> String {
        if self.right.code == self.wrong.code {
            return "\nbytes, right and wrong on purpose: the same; this sheet does not show the mistake\n".into();
        }
        let lines: Vec<String> = self.lines().collect();
        let head = "  offset  right                    wrong on purpose";
        table(
            "bytes, right and wrong on purpose",
            head,
            &lines,
            self.style.extent,
        )
    }

    fn lines(&self) -> impl Iterator<Item = String> {
        let len = self.right.code.len().max(self.wrong.code.len());
        (0..len).step_by(LINE).filter_map(|start| {
            let [right, wrong] =
                [&self.right, &self.wrong].map(|assembly| line(&assembly.code, start));
            let mark = match right == wrong {
                true if self.style.extent == Extent::Brief => return None,
                true => "",
                false => "  differs",
            };
            let line = format!(
                "{:>8}  {:23}  {:23}{mark}",
                self.offset(start as CodeOffset),
                hex(right),
                hex(wrong)
            );
            Some(line.trim_end().into())
        })
    }

    fn summary(&self) -> String {
        let wrong = &self.wrong;
        let (mut jumps, mut missed, mut alignments, mut unfit) = (0, 0, 0, 0);
        for (event, segment) in wrong.segments.iter().enumerate() {
            if let Some(label) = self.pooled.events[event].label() {
                jumps += 1;
                let target = wrong.labels[label.id() as usize];
                missed += usize::from(wrong.landing(event) != i64::from(target));
            }
            if let Some(alignment) = self.pooled.events[event].alignment() {
                alignments += 1;
                unfit += usize::from(!is_as_asked(alignment, segment));
            }
        }
        format!(
            "{}, jumps that miss their labels {missed} of {jumps}, alignments with wrong padding {unfit} of {alignments}",
            counted(wrong.code.len(), "byte")
        )
    }

    fn offset(&self, offset: CodeOffset) -> String {
        self.style.offsets.text(offset)
    }
}

/// Bytes in a line.
const LINE: usize = 8;

/// Some bytes of the code, fewer or none where it ends.
fn line(code: &[u8], start: usize) -> &[u8] {
    let end = code.len().min(start + LINE);
    code.get(start..end).unwrap_or_default()
}

fn hex(bytes: &[u8]) -> String {
    let bytes: Vec<String> = bytes.iter().map(|byte| format!("{byte:02X}")).collect();
    bytes.join(" ")
}

/// Whether an alignment has the padding that it needs where it stands.
fn is_as_asked(alignment: &Alignment, segment: &Segment) -> bool {
    let spent = alignment.padding_at(segment.new_start).spent();
    segment.new_end - segment.new_start == spent
}
