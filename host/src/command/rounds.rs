//! The rounds of relaxation: what each lengthened, and why.

use std::fmt::Write;

use sheet_text::counted;
use wargnifla::{
    Change, Extent, Lengthened, Pooled, Recording, Round, RoundChanges, Rounds, Style, Turn,
};

use super::input::Input;
use super::report::MOST_LINES;

/// Changes in front of an alignment that are named, the nearest ones; all of them could be as many as there are events, for each alignment.
const MOST_IN_FRONT: usize = 8;

/// Rounds, told with the lines that their jumps and alignments come from.
pub struct RoundsReport<'a> {
    input: &'a Input,
    recording: &'a Recording,
    pooled: Pooled,
    /// The call that made each event of the recording.
    calls: Vec<usize>,
    style: Style,
}

impl<'a> RoundsReport<'a> {
    pub fn new(input: &'a Input, recording: &'a Recording, style: Style) -> Self {
        Self {
            input,
            recording,
            pooled: recording.pooled(),
            calls: input.event_calls(),
            style,
        }
    }

    pub fn text(&self, title: &str, rounds: &Rounds) -> String {
        let changes = rounds.by_round();
        let rounds = rounds.rounds();
        let Some((last, others)) = rounds.split_last() else {
            return format!("\n{title}\n          none: there is no jump to relax\n");
        };
        let mut out = format!("\n{title}\n");
        let shown = self.shown(others.len());
        for (number, round) in (1..).zip(&others[..shown]) {
            self.round(&mut out, number, round, &changes[number - 1]);
        }
        if shown < others.len() {
            let left = counted(others.len() - shown, "more round");
            let _ = writeln!(out, "          ... {left}");
        }
        self.round(&mut out, rounds.len(), last, &changes[rounds.len() - 1]);
        out
    }

    /// How many of some lines are shown.
    fn shown(&self, lines: usize) -> usize {
        match self.style.extent {
            Extent::Brief if lines > MOST_LINES => MOST_LINES / 2,
            _ => lines,
        }
    }

    fn round(&self, out: &mut String, number: usize, round: &Round, changes: &RoundChanges) {
        let _ = writeln!(out, "{number:>8}  {round}");
        let shown = self.shown(round.turns.len());
        for turn in &round.turns[..shown] {
            let _ = writeln!(out, "          {}", self.turn(number, turn));
            self.moved(out, number, turn.event, changes);
        }
        if shown < round.turns.len() {
            let left = counted(round.turns.len() - shown, "more alignment");
            let _ = writeln!(out, "          ... {left}");
        }
        let shown = self.shown(round.lengthened.len());
        for step in &round.lengthened[..shown] {
            self.step(out, step);
        }
        if shown < round.lengthened.len() {
            let left = counted(round.lengthened.len() - shown, "more jump");
            let _ = writeln!(out, "          ... {left}");
        }
    }

    /// `align 8 3 recorded at 9 (line 6): 2 bytes of padding; in round 1: skipped, 5 needed`.
    fn turn(&self, number: usize, turn: &Turn) -> String {
        let before = turn.before.map_or(String::new(), |before| {
            format!("; in round {}: {before}", number - 1)
        });
        format!("{}: {}{before}", self.event(turn.event), turn.padding)
    }

    /// `starts 4 later than in round 1, since in front of it`, and what changed there.
    fn moved(&self, out: &mut String, number: usize, event: usize, changes: &RoundChanges) {
        let (by, way) = match changes.moved(event) {
            0 => return,
            by @ ..0 => (-by, "earlier"),
            by => (by, "later"),
        };
        let before = match number {
            1 => "recorded".into(),
            _ => format!("in round {}", number - 1),
        };
        let _ = writeln!(
            out,
            "            starts {by} {way} than {before}, since in front of it"
        );
        let in_front = changes.in_front_of(event);
        let left = in_front.len().saturating_sub(MOST_IN_FRONT);
        if left > 0 {
            let left = counted(left, "more change");
            let _ = writeln!(out, "              ... {left}");
        }
        for change in &in_front[left..] {
            let _ = writeln!(out, "              {}", self.cause(change));
        }
    }

    fn step(&self, out: &mut String, step: &Lengthened) {
        let offset = |at| self.style.offsets.text(at);
        let _ = writeln!(
            out,
            "          {}: {} at {} less its own end at {} is {}, outside {}",
            self.event(step.event),
            self.recording.names.text(step.label),
            offset(step.target),
            offset(step.from),
            step.distance(),
            step.reach
        );
        if step.crossed.is_empty() {
            return;
        }
        let _ = writeln!(
            out,
            "            {} in round 1; since then, between the jump and its label,",
            step.first_distance
        );
        let shown = self.shown(step.crossed.len());
        for change in &step.crossed[..shown] {
            let _ = writeln!(out, "              {}", self.change(change));
        }
        if shown < step.crossed.len() {
            let left = counted(step.crossed.len() - shown, "more change");
            let _ = writeln!(out, "              ... {left}");
        }
        if step.unexplained() != 0 {
            let _ = writeln!(
                out,
                "              and padding by {} in all, in too many rounds to tell",
                step.unexplained()
            );
        }
    }

    /// `jmp recorded at 5 (line 6) grew by 3 after round 1`: the round that made it long, or moved what it pads.
    fn change(&self, change: &Change) -> String {
        format!("{} after round {}", self.cause(change), change.round - 1)
    }

    /// `jmp recorded at 5 (line 6) grew by 3`.
    fn cause(&self, change: &Change) -> String {
        let verb = if change.by < 0 { "shrank" } else { "grew" };
        let by = change.by.unsigned_abs();
        format!("{} {verb} by {by}", self.event(change.event))
    }

    /// An event with where it was recorded and the line that it comes from.
    pub fn event(&self, index: usize) -> String {
        let event = &self.pooled.events[index];
        let start = self.style.offsets.text(event.start());
        let what = event.mnemonic();
        match self.pooled.owner(index) {
            Some(constant) => format!("{what} for constant {}", constant.id()),
            None => {
                let place = self.input.where_is(self.calls[index]);
                format!("{what} recorded at {start} ({place})")
            }
        }
    }
}
