//! A drawing of recorded and finished code, one above the other at one scale, that needs no script.

use std::collections::HashSet;
use std::fmt::Write;
use std::ops::Range;

use super::Placed;
use super::parts::{Part, What, parts};
use crate::CodeOffset;
use crate::event::Form;
use sheet_text::counted;

/// The drawing's width in its own units, the step that offsets are rounded to, and how far lines of a class are kept apart.
const WIDTH: f64 = 1000.0;
const STEP: f64 = 0.25;
const LINES_APART: f64 = 5.0;

/// What is left free behind a block that is wide enough.
const GAP: f64 = 0.75;

/// Where the two strips stand, and their height.
const RECORDED_TOP: f64 = 0.0;
const FINISHED_TOP: f64 = 60.0;
const HEIGHT: f64 = 24.0;
const BOTTOM: f64 = FINISHED_TOP + HEIGHT;

/// What shapes stand for; what comes later lies over what comes before.
#[derive(Clone, Copy, PartialEq, Eq, Hash)]
enum Class {
    Run,
    Link,
    Tick,
    Padding,
    Constant,
    Recorded,
    Short,
    Long,
}

/// The classes of the style sheet, in the order of [`Class`].
const CLASSES: [&str; 8] = [
    "run", "link", "tick", "padding", "constant", "recorded", "short", "long",
];

/// The drawing, as inline SVG.
pub fn still(placed: &Placed) -> String {
    let mut drawing = Drawing {
        scale: WIDTH / f64::from(placed.len.max(placed.pooled.len).max(1)),
        paths: CLASSES.map(|_| String::new()),
        drawn: HashSet::new(),
    };
    let (recorded, finished) = (placed.pooled.len, placed.len);
    drawing.block(Class::Run, RECORDED_TOP, &(0..recorded));
    drawing.block(Class::Run, FINISHED_TOP, &(0..finished));
    for part in parts(placed) {
        drawing.part(placed, &part);
    }
    let recorded = counted(recorded as usize, "byte");
    let finished = counted(finished as usize, "byte");
    let mut out = format!(
        "<p>recorded, {recorded}</p>\n<svg class=\"still\" viewBox=\"0 0 {WIDTH} {BOTTOM}\" preserveAspectRatio=\"none\" role=\"img\" \
         aria-label=\"Recorded code, {recorded}, above finished code, {finished}, at one scale\">\n"
    );
    for (class, path) in CLASSES.iter().zip(drawing.paths) {
        if !path.is_empty() {
            let _ = writeln!(out, "<path class=\"{class}\" d=\"{path}\"/>");
        }
    }
    out + &format!("</svg>\n<p>finished, {finished}</p>\n")
}

struct Drawing {
    scale: f64,
    /// The shapes of each class.
    paths: [String; CLASSES.len()],
    /// The blocks that are drawn and where lines are, so that none is drawn twice.
    drawn: HashSet<(Class, String)>,
}

impl Drawing {
    fn x(&self, offset: CodeOffset) -> f64 {
        (f64::from(offset) * self.scale / STEP).round() * STEP
    }

    fn part(&mut self, placed: &Placed, part: &Part) {
        let (old, new) = match part.what {
            What::Run => return,
            What::Label(_) => {
                self.line(Class::Tick, part.old.start, part.new.start);
                return;
            }
            What::Constant(_) => (Class::Constant, Class::Constant),
            What::Event(event) => match placed.pooled.events[event].form(part.new.len() as u32) {
                Form::Padding => (Class::Padding, Class::Padding),
                Form::Short => (Class::Recorded, Class::Short),
                Form::Long => (Class::Recorded, Class::Long),
            },
        };
        self.block(old, RECORDED_TOP, &part.old);
        self.block(new, FINISHED_TOP, &part.new);
        self.line(Class::Link, part.old.end, part.new.end);
    }

    fn block(&mut self, class: Class, top: f64, bytes: &Range<CodeOffset>) {
        if bytes.is_empty() {
            return;
        }
        let (left, right) = (self.x(bytes.start), self.x(bytes.end));
        let width = match right - left {
            wide if wide > 4.0 * GAP => wide - GAP,
            narrow => narrow.max(STEP),
        };
        let shape = format!("M{left} {top}h{width}v{HEIGHT}h-{width}z");
        if self.drawn.insert((class, shape.clone())) {
            self.paths[class as usize] += &shape;
        }
    }

    /// A line from the one strip to the other, unless one of its class is near.
    fn line(&mut self, class: Class, old: CodeOffset, new: CodeOffset) {
        let (from, to) = (self.x(old), self.x(new));
        let top = RECORDED_TOP + HEIGHT;
        let near = format!("{}", (from / LINES_APART).floor());
        if self.drawn.insert((class, near)) {
            self.paths[class as usize] += &format!("M{from} {top}L{to} {FINISHED_TOP}");
        }
    }
}
