//! Refused finishes.

use super::{NO_REASON, with_offsets};
use crate::ffi::Segment;
use crate::recording::{AsmFixup, Label, LabelRef, Names, Pooled, Recording, RelocTarget};
use crate::relax::map;
use crate::{CodeOffset, Entry, LabelUse, Reach, UNBOUND};
use sheet_text::counted;

/// Why finish was turned down, and the entry that it was turned down for. `segments` is what finish left there.
pub(crate) fn explain_finish(
    recording: &Recording,
    segments: &[Segment],
    number: u32,
) -> (String, Option<Entry>) {
    let pooled = recording.pooled();
    let found = match number {
        13 => bound_constant(recording),
        14 => Some((too_large_pool(&pooled), None)),
        15 => unbound_label(recording, &pooled),
        16 => Some((too_many_segments(recording), None)),
        17 => unfit_ref(recording, &pooled),
        18 => far_ref(recording, &pooled, segments),
        19..=22 => unfit_use(recording, &pooled),
        23 => Some((too_long(recording, &pooled, segments), None)),
        _ => None,
    };
    found.unwrap_or_else(|| (NO_REASON.into(), None))
}

pub(super) type Found = Option<(String, Option<Entry>)>;

fn bound_constant(recording: &Recording) -> Found {
    recording.asked.iter().enumerate().find_map(|(i, number)| {
        let label = recording.constants[number.id() as usize].label?;
        let offset = recording.labels[label.id() as usize];
        (offset != UNBOUND).then(|| {
            let sentence = format!(
                "{} belongs to constant {}, whose place finish decides, but a call bound it to {offset}",
                recording.names.text(label),
                number.id()
            );
            (sentence, Some(Entry::Asked(i)))
        })
    })
}

fn too_large_pool(pooled: &Pooled) -> String {
    format!(
        "the code with its pooled constants and their padding has {} bytes, more than 16,777,216",
        pooled.len
    )
}

fn unbound_label(recording: &Recording, pooled: &Pooled) -> Found {
    let mut open = naming_labels(recording)
        .filter(|(label, ..)| pooled.labels[label.id() as usize] == UNBOUND);
    let (label, what, offset, entry) = open.next()?;
    let others = match open.count() {
        0 => "the only entry that is open".into(),
        others => format!("one of {} entries that are open", 1 + others),
    };
    let sentence = format!(
        "{} is not bound, and the {what} at {offset} names it, {others}",
        recording.names.text(label)
    );
    Some((sentence, Some(entry)))
}

/// Every entry that names a label: the label, what the entry is, and where it was recorded.
fn naming_labels(
    recording: &Recording,
) -> impl Iterator<Item = (Label, &'static str, CodeOffset, Entry)> {
    let uses = (0..)
        .zip(&recording.uses)
        .map(|(i, field)| (field.label, "use", field.offset, Entry::Use(i)));
    let relocs = (0..)
        .zip(&recording.relocs)
        .filter_map(|(i, reloc)| match reloc.target {
            RelocTarget::Label(label) => Some((label, "relocation", reloc.offset, Entry::Reloc(i))),
            RelocTarget::Sym(_) => None,
        });
    let refs = (0..)
        .zip(&recording.refs)
        .map(|(i, field)| (field.label, "ref", field.offset, Entry::Ref(i)));
    let jumps = (0..).zip(&recording.events).filter_map(|(i, event)| {
        Some((event.label()?, event.noun(), event.start(), Entry::Event(i)))
    });
    uses.chain(relocs).chain(refs).chain(jumps)
}

fn too_many_segments(recording: &Recording) -> String {
    let (events, constants) = (recording.events.len(), recording.asked.len());
    format!(
        "{} and {} need {} segments, more than 65,536",
        counted(events, "event"),
        counted(constants, "pooled constant"),
        events + constants
    )
}

/// The first ref whose field passes the code's end or touches an event.
fn unfit_ref(recording: &Recording, pooled: &Pooled) -> Found {
    recording.refs.iter().enumerate().find_map(|(i, field)| {
        let sentence = unfit_field(field, pooled)?;
        Some((sentence, Some(Entry::Ref(i))))
    })
}

fn unfit_field(field: &LabelRef, pooled: &Pooled) -> Option<String> {
    let (start, size) = (field.offset, field.kind.patch_size());
    let end = u64::from(start) + u64::from(size);
    if end > pooled.len.into() {
        return Some(past_code("ref", start, size, pooled.len));
    }
    // Events stand in order: the last that starts before the field's end is the one that the field could touch.
    let before = pooled
        .events
        .partition_point(|event| u64::from(event.start()) < end);
    let touched = before.checked_sub(1)?;
    let event = &pooled.events[touched];
    (start < event.end()).then(|| {
        format!(
            "the field of the ref at {start}, {}, touches {}",
            counted(size as usize, "byte"),
            with_offsets(&pooled.event_name(touched), event)
        )
    })
}

fn past_code(what: &str, start: CodeOffset, size: u32, len: CodeOffset) -> String {
    format!(
        "the field of the {what} at {start}, {}, passes the end of the code, {len}",
        counted(size as usize, "byte")
    )
}

/// The first ref that cannot reach its label plus addend, once jumps have settled.
fn far_ref(recording: &Recording, pooled: &Pooled, segments: &[Segment]) -> Found {
    recording.refs.iter().enumerate().find_map(|(i, field)| {
        let offset = map(segments, field.offset);
        let label = map(segments, pooled.labels[field.label.id() as usize]);
        let target = i64::from(label) + i64::from(field.addend);
        let reach = field.kind.reach()?;
        let distance = target - i64::from(offset);
        (!reach.holds(distance)).then(|| {
            let sentence = format!(
                "the ref recorded at {}, moved to {offset}, can't reach {} at {label} plus {}: {}",
                field.offset,
                recording.names.text(field.label),
                field.addend,
                beyond(field.kind, reach, distance)
            );
            (sentence, Some(Entry::Ref(i)))
        })
    })
}

/// `the distance is 200, and X86BranchRel8 holds -128..127`.
fn beyond(kind: LabelUse, reach: Reach, from_start: i64) -> String {
    format!(
        "the distance is {}, and {kind} holds {reach}",
        reach.distance(from_start)
    )
}

/// The first use that finish turns down: uses are tried in order, each for its field and its reach.
fn unfit_use(recording: &Recording, pooled: &Pooled) -> Found {
    recording.uses.iter().enumerate().find_map(|(i, field)| {
        let sentence =
            past_end_use(field, pooled).or_else(|| far_use(field, pooled, &recording.names))?;
        Some((sentence, Some(Entry::Use(i))))
    })
}

fn past_end_use(field: &AsmFixup, pooled: &Pooled) -> Option<String> {
    let (start, size) = (field.offset, field.kind.patch_size());
    let end = u64::from(start) + u64::from(size);
    (end > pooled.len.into()).then(|| past_code("use", start, size, pooled.len))
}

fn far_use(field: &AsmFixup, pooled: &Pooled, names: &Names) -> Option<String> {
    let label = pooled.labels[field.label.id() as usize];
    let reach = field.kind.reach()?;
    let distance = i64::from(label) - i64::from(field.offset);
    (!reach.holds(distance)).then(|| {
        format!(
            "the use at {} can't reach {} at {label}: {}",
            field.offset,
            names.text(field.label),
            beyond(field.kind, reach, distance)
        )
    })
}

fn too_long(recording: &Recording, pooled: &Pooled, segments: &[Segment]) -> String {
    let len = if recording.has_jump() {
        map(segments, pooled.len)
    } else {
        pooled.len
    };
    format!("the finished code has {len} bytes, more than 16,777,216")
}
