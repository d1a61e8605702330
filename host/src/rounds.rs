//! The rounds of document 01, reckoned again from what was recorded, so that they can be shown. The verified library reports only how many there
//! were and where they settled; [`Rounds::check`] compares.

use std::fmt;
use std::ops::Range;

use crate::event::{Alignment, LayoutEvent};
use crate::ffi::Segment;
use crate::recording::{Label, Pooled, Recording};
use crate::relax::{deciding, events_before, layout, map, moved};
use crate::{CodeBufferFinalized, CodeOffset, Padding, Reach};
use sheet_text::counted;

/// A jump that a round made long, and why.
#[derive(Clone, Debug, PartialEq, Eq)]
pub struct Lengthened {
    /// The jump's index among the events.
    pub event: usize,
    /// Where it goes.
    pub label: Label,
    /// What it reaches while it is short.
    pub reach: Reach,
    /// The label's offset in this round.
    pub target: CodeOffset,
    /// Where the distance counts from in this round: the end of the jump, still short.
    pub from: CodeOffset,
    /// What the distance was in the first round.
    pub first_distance: i64,
    /// What changed since then between the jump and its label, by events and, of each, by rounds.
    pub crossed: Vec<Change>,
}

/// An event that has another length in a round than in the one before.
#[derive(Clone, Copy, Debug, PartialEq, Eq)]
pub struct Change {
    /// The event's index, those of the pool last.
    pub event: usize,
    /// The round, from 1, in whose layout it first has the new length.
    pub round: u32,
    /// How much longer it is, or shorter.
    pub by: i32,
}

/// An alignment with a ceiling that a round skips and the round before did not, or the reverse; of round 1, one that is skipped.
#[derive(Clone, Copy, Debug, PartialEq, Eq)]
pub struct Turn {
    /// The alignment's index among the events.
    pub event: usize,
    /// What it comes to in this round.
    pub padding: Padding,
    /// What it came to in the round before; nothing in round 1.
    pub before: Option<Padding>,
}

impl Lengthened {
    /// What the short form could not hold: the label's offset less where the distance counts from.
    pub fn distance(&self) -> i64 {
        distance(self.target, self.from)
    }

    /// What the changes that are kept leave unexplained of the distance's growth since the first round: 0, unless there were too many to keep.
    pub fn unexplained(&self) -> i64 {
        let grown = self.distance().abs() - self.first_distance.abs();
        let explained: i64 = self.crossed.iter().map(|change| i64::from(change.by)).sum();
        grown - explained
    }
}

/// One round: a layout, and the jumps that are long from the next one on.
#[derive(Clone, Debug, PartialEq, Eq)]
pub struct Round {
    /// The jumps that this round makes long.
    pub lengthened: Vec<Lengthened>,
    /// The alignments that it skips and the round before did not, and the reverse. Of more than 4,194,304 in all those of the earliest rounds are kept.
    pub turns: Vec<Turn>,
    /// Bytes of code and pool in this layout.
    pub len: u32,
}

/// `132 bytes; 1 jump becomes long`.
impl fmt::Display for Round {
    fn fmt(&self, f: &mut fmt::Formatter<'_>) -> fmt::Result {
        write!(f, "{}; ", counted(self.len as usize, "byte"))?;
        match self.lengthened.len() {
            0 => f.write_str("every short jump reaches: settled"),
            1 => f.write_str("1 jump becomes long"),
            many => write!(f, "{many} jumps become long"),
        }
    }
}

/// The rounds of a recording, where they begin and where they settle.
#[derive(Clone, Debug, Default, PartialEq, Eq)]
pub struct Rounds {
    rounds: Vec<Round>,
    first: Vec<Segment>,
    settled: Vec<Segment>,
    /// The changes of each event.
    changes: Vec<Vec<Change>>,
    /// How many rounds, from the first on, have all their changes there.
    whole: u32,
}

impl Rounds {
    /// Reckons the rounds of a recording that finish accepts; there are none without a jump.
    pub(crate) fn new(recording: &Recording) -> Self {
        if !recording.has_jump() {
            return Self::default();
        }
        let pooled = recording.pooled();
        let mut long = vec![false; pooled.events.len()];
        let first = layout(&pooled.events, &long);
        let mut short = short_jumps(&pooled, &first);
        let mut rounds = Vec::new();
        let mut changes = Changes::new(pooled.events.len());
        let mut ceilings = Ceilings::new(&pooled);
        let settled = loop {
            let segments = layout(&pooled.events, &long);
            changes.note(&segments);
            let lengthened = take_out_of_reach(&mut short, &segments, &changes);
            for step in &lengthened {
                long[step.event] = true;
            }
            let settles = lengthened.is_empty();
            rounds.push(Round {
                lengthened,
                turns: ceilings.note(&segments),
                len: map(&segments, pooled.len),
            });
            if settles {
                break segments;
            }
        };
        Self {
            rounds,
            first,
            settled,
            changes: changes.of_event,
            whole: changes.whole,
        }
    }

    /// The rounds in order; the last lengthens nothing.
    pub fn rounds(&self) -> &[Round] {
        &self.rounds
    }

    /// Where the first round places each event, those of the pool last: every jump short.
    pub fn first(&self) -> &[Segment] {
        &self.first
    }

    /// Where the last round places each event.
    pub fn settled(&self) -> &[Segment] {
        &self.settled
    }

    /// What has another length in a round than in the one before, by events and, of each, by rounds. Of more than 4,194,304 changes those of the
    /// earliest rounds are kept.
    pub fn changes(&self) -> impl Iterator<Item = &Change> {
        self.changes.iter().flatten()
    }

    /// What each round changed, in order: from the round before, in round 1 from what was recorded. Nothing is said of rounds whose changes are not all
    /// kept.
    pub fn by_round(&self) -> Vec<RoundChanges> {
        let mut rounds = vec![RoundChanges::default(); self.rounds.len()];
        for (event, segment) in self.first.iter().enumerate() {
            let (old, new) = (segment.old_end - segment.old_start, length(segment));
            if old != new {
                let by = new.cast_signed() - old.cast_signed();
                rounds[0].push(Change {
                    event,
                    round: 1,
                    by,
                });
            }
        }
        for change in self.changes().filter(|change| change.round <= self.whole) {
            rounds[change.round as usize - 1].push(*change);
        }
        rounds
    }

    /// Compares with what finish reported: the number of rounds, where every event settled, and the code's length.
    ///
    /// # Errors
    ///
    /// Says where the two part.
    pub fn check(&self, finished: &CodeBufferFinalized) -> Result<(), Mismatch> {
        if self.rounds.len() != finished.layouts() as usize {
            let is = if self.rounds.len() == 1 { "is" } else { "are" };
            return Err(Mismatch(format!(
                "finish reports {}, and {} {is} reckoned",
                counted(finished.layouts() as usize, "layout"),
                counted(self.rounds.len(), "round")
            )));
        }
        if self.settled != finished.segments() {
            return Err(Mismatch(self.first_difference(finished.segments())));
        }
        match self.rounds.last() {
            Some(last) if last.len as usize != finished.total_size() => Err(Mismatch(format!(
                "finish makes {} bytes, and {} are reckoned",
                finished.total_size(),
                last.len
            ))),
            _ => Ok(()),
        }
    }

    fn first_difference(&self, reported: &[Segment]) -> String {
        let mut pairs = self.settled.iter().zip(reported).enumerate();
        match pairs.find(|(_, (reckoned, reported))| reckoned != reported) {
            Some((event, (reckoned, reported))) => {
                format!("finish places event {event} as {reported:?}, and {reckoned:?} is reckoned")
            }
            None => format!(
                "finish places {}, and {} reckoned",
                counted(reported.len(), "event"),
                match self.settled.len() {
                    1 => "1 is".into(),
                    many => format!("{many} are"),
                }
            ),
        }
    }
}

/// What one round changed, by rising events.
#[derive(Clone, Debug, Default)]
pub struct RoundChanges {
    changes: Vec<Change>,
    /// Of each change the index from which on changes have moved its end: those before it cancel out.
    since: Vec<usize>,
    /// By how much the end of each changed event moved.
    moved: Vec<i64>,
}

impl RoundChanges {
    fn push(&mut self, change: Change) {
        let before = self.moved.last().copied().unwrap_or(0);
        let moved = before + i64::from(change.by);
        let since = match (before, moved) {
            (_, 0) => self.changes.len() + 1,
            (0, _) => self.changes.len(),
            _ => self.since[self.changes.len() - 1],
        };
        self.changes.push(change);
        self.since.push(since);
        self.moved.push(moved);
    }

    /// The last change in front of an event, by its index.
    fn last_in_front(&self, event: usize) -> Option<usize> {
        let end = self.changes.partition_point(|change| change.event < event);
        end.checked_sub(1)
    }

    /// How much later an event starts, or earlier.
    #[must_use]
    pub fn moved(&self, event: usize) -> i64 {
        self.last_in_front(event).map_or(0, |last| self.moved[last])
    }

    /// Why it does: the changes in front of it, of which this is the sum. Those in front of a place that did not move have no part in it, and are left
    /// out.
    #[must_use]
    pub fn in_front_of(&self, event: usize) -> &[Change] {
        self.last_in_front(event)
            .map_or(&[], |last| &self.changes[self.since[last]..=last])
    }
}

/// How the lengths of events changed from round to round.
struct Changes {
    round: u32,
    lengths: Vec<u32>,
    of_event: Vec<Vec<Change>>,
    kept: usize,
    /// How many rounds were kept whole.
    whole: u32,
}

impl Changes {
    /// Beyond so many, changes are no longer kept: padding may change in every one of many rounds.
    const MOST_KEPT: usize = 1 << 22;

    fn new(events: usize) -> Self {
        Self {
            round: 0,
            lengths: Vec::new(),
            of_event: vec![Vec::new(); events],
            kept: 0,
            whole: 0,
        }
    }

    /// Compares a round's layout with that of the round before.
    fn note(&mut self, segments: &[Segment]) {
        self.round += 1;
        let lengths: Vec<u32> = segments.iter().map(length).collect();
        for (event, (old, new)) in self.lengths.iter().zip(&lengths).enumerate() {
            if old != new && self.kept < Self::MOST_KEPT {
                self.kept += 1;
                self.of_event[event].push(Change {
                    event,
                    round: self.round,
                    by: new.cast_signed() - old.cast_signed(),
                });
            }
        }
        self.lengths = lengths;
        if self.kept < Self::MOST_KEPT {
            self.whole = self.round;
        }
    }
}

/// The alignments that may be skipped, and what each came to in the last round.
struct Ceilings {
    alignments: Vec<(usize, Alignment, Option<Padding>)>,
    kept: usize,
}

impl Ceilings {
    fn new(pooled: &Pooled) -> Self {
        let events = pooled.events.iter().enumerate();
        let alignments = events.filter_map(|(event, entry)| {
            let align = entry.alignment().filter(|align| align.has_ceiling())?;
            Some((event, *align, None))
        });
        Self {
            alignments: alignments.collect(),
            kept: 0,
        }
    }

    /// Compares a round's layout with that of the round before.
    fn note(&mut self, segments: &[Segment]) -> Vec<Turn> {
        let mut turns = Vec::new();
        for (event, align, last) in &mut self.alignments {
            let padding = align.padding_at(segments[*event].new_start);
            let before = last.replace(padding);
            let was_skipped = before.is_some_and(Padding::is_skipped);
            if padding.is_skipped() != was_skipped && self.kept < Changes::MOST_KEPT {
                self.kept += 1;
                turns.push(Turn {
                    event: *event,
                    padding,
                    before,
                });
            }
        }
        turns
    }
}

/// A jump that is still short, its label's recorded offset, and the event that decides where that goes.
struct ShortJump {
    event: usize,
    label: Label,
    reach: Reach,
    recorded_target: CodeOffset,
    decided_by: Option<usize>,
    first_distance: i64,
    /// The events between the jump and its label.
    crossed: Range<usize>,
}

impl ShortJump {
    /// The jump that an event is; padding is none.
    fn new(event: usize, entry: &LayoutEvent, pooled: &Pooled, first: &[Segment]) -> Option<Self> {
        let (label, reach) = (entry.label()?, entry.reach()?);
        let recorded_target = pooled.labels[label.id() as usize];
        let decided_by = deciding(first, recorded_target);
        let mut short = Self {
            event,
            label,
            reach,
            recorded_target,
            decided_by,
            first_distance: 0,
            crossed: crossed(event, events_before(first, recorded_target)),
        };
        let (target, from) = short.placed(first);
        short.first_distance = distance(target, from);
        Some(short)
    }

    /// Where its label stands in a layout, and where the distance to it counts from.
    fn placed(&self, segments: &[Segment]) -> (CodeOffset, CodeOffset) {
        let target = self.recorded_target;
        let target = self
            .decided_by
            .map_or(target, |i| moved(&segments[i], target));
        let start = segments[self.event].new_start;
        (target, start + self.reach.bias as CodeOffset)
    }

    /// What making it long rests on.
    fn lengthened(&self, target: CodeOffset, from: CodeOffset, changes: &Changes) -> Lengthened {
        let crossed = changes.of_event[self.crossed.clone()].iter();
        Lengthened {
            event: self.event,
            label: self.label,
            reach: self.reach,
            target,
            from,
            first_distance: self.first_distance,
            crossed: crossed.flatten().copied().collect(),
        }
    }
}

/// The events between a jump and its label.
fn crossed(jump: usize, first_behind_label: usize) -> Range<usize> {
    if first_behind_label > jump {
        jump + 1..first_behind_label
    } else {
        first_behind_label..jump
    }
}

pub(crate) fn length(segment: &Segment) -> u32 {
    segment.new_end - segment.new_start
}

fn distance(target: CodeOffset, from: CodeOffset) -> i64 {
    i64::from(target) - i64::from(from)
}

/// Every jump. Which event decides on a label's offset depends on recorded offsets alone, so it is looked for once.
fn short_jumps(pooled: &Pooled, first: &[Segment]) -> Vec<ShortJump> {
    let events = pooled.events.iter().enumerate();
    events
        .filter_map(|(event, entry)| ShortJump::new(event, entry, pooled, first))
        .collect()
}

/// Takes out the short jumps that do not reach in a layout.
fn take_out_of_reach(
    short: &mut Vec<ShortJump>,
    segments: &[Segment],
    changes: &Changes,
) -> Vec<Lengthened> {
    let mut out_of_reach = Vec::new();
    short.retain(|jump| {
        let (target, from) = jump.placed(segments);
        let reaches = jump.reach.spans(distance(target, from));
        if !reaches {
            out_of_reach.push(jump.lengthened(target, from, changes));
        }
        reaches
    });
    out_of_reach
}

/// The host's rounds and the verified finish disagree: an error in one of the two.
#[derive(Clone, Debug, PartialEq, Eq)]
pub struct Mismatch(String);

impl fmt::Display for Mismatch {
    fn fmt(&self, f: &mut fmt::Formatter<'_>) -> fmt::Result {
        f.write_str(&self.0)
    }
}

impl std::error::Error for Mismatch {}

#[cfg(test)]
mod tests {
    use super::*;
    use crate::{Arch, CodeBuffer, read_text};

    fn rounds(text: &str) -> Rounds {
        let mut buffer = CodeBuffer::new(Arch::X64);
        for call in &read_text(text).unwrap().calls {
            buffer.call(call).unwrap();
        }
        Rounds::new(&buffer.recording())
    }

    fn steps(text: &str) -> Vec<Vec<Lengthened>> {
        let rounds = rounds(text);
        let steps = rounds.rounds().iter();
        steps.map(|round| round.lengthened.clone()).collect()
    }

    fn change(event: usize, round: u32, by: i32) -> Change {
        Change { event, round, by }
    }

    #[test]
    fn what_grew_between_a_jump_and_its_label_is_named() {
        let text = "jmp a; jmp b; zeros 125; a: zeros 3; b:";
        let steps = steps(text);
        assert_eq!(steps[0][0].crossed, []);
        assert_eq!(steps[0][0].first_distance, 128);
        assert_eq!(steps[1][0].crossed, [change(1, 2, 3)]);
        assert_eq!(
            (steps[1][0].first_distance, steps[1][0].distance()),
            (127, 130)
        );
        assert_eq!(steps[1][0].unexplained(), 0);
    }

    #[test]
    fn padding_that_changes_is_named_too() {
        // The first jump grows by 4. Padding takes that up in the one, and gains 4 as well in the other.
        let text = "start: jne far; align 8; zeros 118; jmp start; zeros 130; far:";
        assert_eq!(steps(text).len(), 2);
        let text = "zeros 4; start: jne far; align 8; zeros 120; jmp start; zeros 130; far:";
        let steps = steps(text);
        assert_eq!(steps[1][0].crossed, [change(0, 2, 4), change(1, 2, 4)]);
        assert_eq!(
            (steps[1][0].first_distance, steps[1][0].distance()),
            (-126, -134)
        );
        assert_eq!(steps[1][0].unexplained(), 0);
    }

    #[test]
    fn alignments_that_are_skipped_or_no_longer_are_named() {
        // The jump grows by 3 after round 1. The first alignment stands at 13 and then at 16. Where it is skipped in round 1 all behind it is pushed by
        // 3, the second from 31 to 34; where it is padded there nothing behind it moves.
        let turns = |text: &str| {
            let rounds = rounds(text);
            let turns = rounds.rounds().iter().map(|round| round.turns.clone());
            turns.collect::<Vec<_>>()
        };
        let heads = |most| {
            let heads = format!("align 16 {most}; zeros 18; align 32 1; zeros 1; align 32 9");
            turns(&format!("jmp far; zeros 11; {heads}; zeros 120; far:"))
        };
        let turn = |event, padding, before| Turn {
            event,
            padding,
            before,
        };
        use Padding::{Skipped, Spent};
        let skipped = [
            vec![turn(1, Skipped(3), None), turn(3, Skipped(31), None)],
            vec![
                turn(1, Spent(0), Some(Skipped(3))),
                turn(2, Skipped(30), Some(Spent(1))),
            ],
        ];
        assert_eq!(heads(2), skipped);
        let padded = [
            vec![turn(2, Skipped(30), None), turn(3, Skipped(29), None)],
            vec![],
        ];
        assert_eq!(heads(3), padded);
        let one_too_many = turns("jmp end; zeros 15; align 16 14; end:");
        assert_eq!(one_too_many, [[turn(1, Skipped(15), None)]]);
    }

    #[test]
    fn what_moves_an_event_is_in_front_of_it_and_behind_what_stays() {
        let rounds =
            rounds("jmp far; zeros 3; align 16; jne far; zeros 5; align 8; zeros 128; far:");
        let by_round = rounds.by_round();
        let in_front_of = |event, round: usize| by_round[round - 1].in_front_of(event);
        assert_eq!(by_round.len(), 2);
        assert_eq!(in_front_of(0, 1), []);
        assert_eq!(in_front_of(1, 1), [change(0, 1, -3)]);
        // The first alignment takes up what the jump in front of it loses.
        assert_eq!(in_front_of(2, 1), []);
        assert_eq!(in_front_of(3, 1), [change(2, 1, -4)]);
        assert_eq!(in_front_of(1, 2), [change(0, 2, 3)]);
        assert_eq!(in_front_of(3, 2), [change(2, 2, 4)]);
        let moved = |event| by_round[0].moved(event);
        assert_eq!([0, 1, 2, 3].map(moved), [0, -3, 0, -4]);
        let none = Rounds::default().by_round();
        assert!(none.is_empty());
    }

    #[test]
    fn changes_of_several_rounds_add_up() {
        let jumps: String = (0..6).map(|i| format!("jmp t{i}; ")).collect();
        let labels: String = (0..6).map(|i| format!("t{i}: zeros 5; ")).collect();
        let steps = steps(&format!("{jumps} zeros 103; {labels}"));
        assert_eq!(steps.len(), 7);
        let last = &steps[5][0];
        let expected: Vec<Change> = (1..6).map(|i| change(i, 7 - i as u32, 3)).collect();
        assert_eq!(last.crossed, expected);
        assert_eq!((last.first_distance, last.distance()), (113, 128));
    }
}
