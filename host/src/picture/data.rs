//! What the scripts draw from, as JSON: events and labels as recorded, then of each round what it changed.

use super::fields::{self, Field, PlacedField};
use super::markup::{array, string};
use super::parts::place;
use super::{Picture, Placed};
use crate::event::LayoutEvent;
use crate::recording::{Names, Pooled, Recording};
use crate::rounds::{Change, Round, Rounds, length};
use crate::{CodeOffset, Label, UNBOUND};
use sheet_text::{counted, shown};

/// Rounds and changes that a page may have before the rounds between are left out.
const MOST_ROUNDS: usize = 4_096;
const MOST_CHANGES: usize = 131_072;

/// An object for the scripts; layout.js says what its entries are.
pub fn data(picture: &Picture<'_>, placed: &Placed, fields: &[PlacedField]) -> String {
    let kept = kept_rounds(picture.rounds);
    let first = picture.rounds.first().iter().map(length);
    let [kinds, fields] = fields::entries(fields);
    object([
        ("hex", picture.style.is_hex().to_string()),
        ("recorded", string(&recorded_text(picture, placed))),
        ("finished", string(&finished_text(placed))),
        ("len", placed.pooled.len.to_string()),
        ("events", events(picture, placed)),
        ("labels", labels(picture, placed)),
        ("constants", constants(placed)),
        kinds,
        fields,
        ("first", array(first)),
        ("rounds", rounds(picture.rounds, kept)),
        ("of", picture.rounds.rounds().len().to_string()),
        ("pieces", array([0; 0])),
    ])
}

/// An object of JSON.
pub fn object<const ENTRIES: usize>(entries: [(&str, String); ENTRIES]) -> String {
    let entries = entries.map(|(name, value)| format!("\"{name}\":{value}"));
    format!("{{{}}}", entries.join(","))
}

fn recorded_text(picture: &Picture<'_>, placed: &Placed) -> String {
    let code = picture.recording.code_len;
    let pool = match placed.pooled.len - code {
        0 => String::new(),
        pool => format!(", and {} of pool behind", counted(pool as usize, "byte")),
    };
    format!(
        "as recorded: {}, {}{pool}",
        counted(code as usize, "byte"),
        events_text([picture.recording])
    )
}

/// `2 jumps, 1 alignment`, of some recordings together.
pub fn events_text<'a>(recordings: impl IntoIterator<Item = &'a Recording>) -> String {
    let (mut jumps, mut alignments) = (0, 0);
    for recording in recordings {
        jumps += recording.jumps().count();
        let events = recording.events.iter();
        alignments += events.filter_map(LayoutEvent::alignment).count();
    }
    let (jumps, alignments) = (counted(jumps, "jump"), counted(alignments, "alignment"));
    format!("{jumps}, {alignments}")
}

fn finished_text(placed: &Placed) -> String {
    format!("finished: {}", counted(placed.len as usize, "byte"))
}

fn events(picture: &Picture<'_>, placed: &Placed) -> String {
    let pooled = &placed.pooled;
    array(pooled.events.iter().enumerate().map(|(i, entry)| {
        let place = picture.places.get(i).map_or("", String::as_str);
        let (start, len) = (entry.start(), entry.recorded_len());
        event(entry, &what(pooled, i), start, len, entry.label(), place)
    }))
}

/// What an event is, by its index: `jmp`, `align 64 for constant 0`.
pub fn what(pooled: &Pooled, event: usize) -> String {
    let what = pooled.events[event].mnemonic();
    match pooled.owner(event) {
        Some(constant) => format!("{what} for constant {}", constant.id()),
        None => what,
    }
}

/// `["jmp", start, length, label, "line 6"]`, or `["align 8 3", start, length, -1, "line 6", multiple, most]`.
pub fn event(
    event: &LayoutEvent,
    what: &str,
    start: CodeOffset,
    len: u32,
    label: Option<Label>,
    place: &str,
) -> String {
    let label = label.map(|label| label.id().to_string());
    let ceiling = event.alignment().map(|align| [align.align, align.most]);
    let entries = [
        string(what),
        start.to_string(),
        len.to_string(),
        label.unwrap_or("-1".into()),
        string(place),
    ];
    let ceiling = ceiling.into_iter().flatten().map(|word| word.to_string());
    array(entries.into_iter().chain(ceiling))
}

fn labels(picture: &Picture<'_>, placed: &Placed) -> String {
    let labels = (0..).zip(&placed.pooled.labels);
    array(labels.map(|(number, offset)| {
        let place = (*offset != UNBOUND).then(|| place(&placed.segments, *offset));
        label(place, &picture.recording.names, Label::from_id(number))
    }))
}

/// `[events before, bytes behind them, name]`, without a name if it has none; 0 if it has no place.
pub fn label(place: Option<(usize, u32)>, names: &Names, label: Label) -> String {
    let Some((before, past)) = place else {
        return "0".into();
    };
    let mut entries = vec![before.to_string(), past.to_string()];
    entries.extend(names.get(label).map(|name| string(&shown(name))));
    array(entries)
}

/// `[events before, constant, label, size]`, each behind an alignment of its own.
fn constants(placed: &Placed) -> String {
    let Pooled {
        events, constants, ..
    } = &placed.pooled;
    let first = events.len() - constants.len() + 1;
    array((first..).zip(constants).map(|(before, entry)| {
        let (constant, label) = (entry.constant.id(), entry.label.id());
        array([before as u32, constant, label, entry.size])
    }))
}

/// The fields, those past the end left out.
pub fn fields(picture: &Picture<'_>, placed: &Placed) -> Vec<PlacedField> {
    let recording = picture.recording;
    let relocs = recording.relocs.iter();
    let relocs = relocs.map(|reloc| Field::left(reloc, &recording.names));
    let fields = fields::filled(recording).into_iter().chain(relocs);
    fields
        .filter(|field| field.is_within(placed.pooled.len))
        .map(|field| {
            let (before, past) = place(&placed.segments, field.offset);
            (before, past, field)
        })
        .collect()
}

/// How many rounds are kept from the first on, beside the last.
fn kept_rounds(rounds: &Rounds) -> usize {
    let count = rounds.rounds().len();
    let mut changes = vec![0; count + 1];
    for change in rounds.changes() {
        changes[change.round as usize] += 1;
    }
    let mut sum = 0;
    let kept = (1..=count).take_while(|round| {
        sum += changes[*round];
        sum <= MOST_CHANGES && *round <= MOST_ROUNDS
    });
    kept.count()
}

/// `[number, sentence, [event, by, ..], [event, ..]]`: what has another length than in the entry before, and what becomes long.
fn rounds(rounds: &Rounds, kept: usize) -> String {
    let all = rounds.rounds();
    let mut changes: Vec<Vec<Change>> = vec![Vec::new(); kept + 1];
    for change in rounds.changes() {
        if let Some(of_round) = changes.get_mut(change.round as usize) {
            of_round.push(*change);
        }
    }
    let mut entries: Vec<String> = (1..=kept)
        .map(|number| entry(number, &all[number - 1], &changes[number]))
        .collect();
    if kept < all.len() {
        let last = changes_up_to_the_end(rounds, kept);
        entries.push(entry(all.len(), &all[all.len() - 1], &last));
    }
    array(entries)
}

fn entry(number: usize, round: &Round, changes: &[Change]) -> String {
    let changes = changes
        .iter()
        .flat_map(|change| [change.event.to_string(), change.by.to_string()]);
    array([
        number.to_string(),
        string(&round.to_string()),
        array(changes),
        array(round.lengthened.iter().map(|step| step.event)),
    ])
}

/// What the last round has otherwise than one before it, as if the rounds between were one.
fn changes_up_to_the_end(rounds: &Rounds, from: usize) -> Vec<Change> {
    let mut lengths: Vec<i64> = rounds.first().iter().map(|s| length(s).into()).collect();
    for change in rounds
        .changes()
        .filter(|change| change.round as usize <= from)
    {
        lengths[change.event] += i64::from(change.by);
    }
    let settled = rounds.settled().iter().zip(lengths).enumerate();
    settled
        .map(|(event, (segment, before))| Change {
            event,
            round: rounds.rounds().len() as u32,
            by: (i64::from(length(segment)) - before) as i32,
        })
        .filter(|change| change.by != 0)
        .collect()
}
