//! What `--json` prints of one sheet.

use std::ops::Range;

use wargnifla::{
    Arch, AsmReloc, Call, CodeBufferFinalized, Constant, ElfType, ExternalName, Label, LayoutEvent,
    Names, Recording, RelocTarget, Round, Rounds, UNBOUND, Unpatched, WhyUnpatched,
};

use super::value::{Entries, Json};
use crate::command::input::Input;
use crate::command::unpatched;

/// What there is of a sheet: all of one that is finished, and less of one that is refused or malformed.
#[derive(Clone, Copy)]
pub struct Parts<'a> {
    pub file: &'a str,
    pub input: Option<&'a Input>,
    pub recording: Option<&'a Recording>,
    pub finished: Option<&'a CodeBufferFinalized>,
    pub rounds: Option<&'a Rounds>,
}

impl<'a> Parts<'a> {
    pub fn nothing(file: &'a str) -> Self {
        Self {
            file,
            input: None,
            recording: None,
            finished: None,
            rounds: None,
        }
    }
}

pub fn entries(parts: &Parts<'_>) -> Entries {
    let Parts {
        finished,
        recording,
        ..
    } = *parts;
    vec![
        ("file", parts.file.into()),
        (
            "arch",
            parts.input.map(|input| input.arch.to_string()).into(),
        ),
        ("code", finished.map(|code| Json::hex(code.data())).into()),
        (
            "alignment",
            finished.map(CodeBufferFinalized::alignment).into(),
        ),
        ("layouts", finished.map(CodeBufferFinalized::layouts).into()),
        (
            "labels",
            Json::list(
                recording
                    .into_iter()
                    .flat_map(|recording| labels(recording, finished)),
            ),
        ),
        (
            "definitions",
            Json::list(finished.into_iter().flat_map(definitions)),
        ),
        (
            "relocations",
            Json::list(
                recording
                    .into_iter()
                    .flat_map(|recording| relocations(recording, finished)),
            ),
        ),
        ("events", Json::list(events(parts).into_iter().flatten())),
        (
            "rounds",
            Json::list(
                parts
                    .rounds
                    .into_iter()
                    .flat_map(|rounds| rounds.rounds())
                    .map(round),
            ),
        ),
        (
            "unwritten",
            Json::list(unwritten(parts).into_iter().flatten()),
        ),
        ("open", recording.map(open).into()),
    ]
}

/// An offset, or null for that of a label that is not bound.
pub fn bound(offset: u32) -> Json {
    Some(offset).filter(|offset| *offset != UNBOUND).into()
}

fn labels<'a>(
    recording: &'a Recording,
    finished: Option<&'a CodeBufferFinalized>,
) -> impl Iterator<Item = Json> + 'a {
    let labels = (0..).map(Label::from_id).zip(&recording.labels);
    labels.map(move |(label, recorded)| {
        let settled = finished.and_then(|code| code.label_offset(label));
        Json::object([
            ("number", label.id().into()),
            ("name", recording.names.get(label).into()),
            ("recorded", bound(*recorded)),
            ("final", settled.into()),
        ])
    })
}

/// The symbols that labels define, each by its name or its number.
pub fn definitions(finished: &CodeBufferFinalized) -> impl Iterator<Item = Json> + '_ {
    finished.definitions().iter().map(|(symbol, label)| {
        let symbol = match symbol {
            ExternalName::Name(name) => name.as_str().into(),
            ExternalName::Number(number) => (*number).into(),
        };
        Json::object([("symbol", symbol), ("label", label.id().into())])
    })
}

fn relocations<'a>(
    recording: &'a Recording,
    finished: Option<&'a CodeBufferFinalized>,
) -> impl Iterator<Item = Json> + 'a {
    let relocs = recording.relocs.iter().enumerate();
    relocs.map(move |(index, recorded)| {
        let settled = finished.and_then(|code| code.relocs().get(index));
        let mut entries = vec![
            ("recorded", recorded.offset.into()),
            ("final", settled.map(|reloc| reloc.offset).into()),
        ];
        entries.extend(relocation(recording.arch, &recording.names, recorded));
        Json::object(entries)
    })
}

/// What a relocation is, but for its place.
pub fn relocation(arch: Arch, names: &Names, reloc: &AsmReloc) -> Entries {
    let elf_type = ElfType::of(arch, reloc.kind);
    let mut entries = vec![
        ("kind", reloc.kind.to_string().into()),
        ("elf_type", elf_type.map(|ty| ty.to_string()).into()),
    ];
    entries.extend(target(names, reloc.target));
    entries.push(("addend", reloc.addend.into()));
    entries
}

/// What a relocation is about: a symbol or a label, by its number, and its name if it has one.
pub fn target(names: &Names, target: RelocTarget) -> Entries {
    let (noun, number) = match target {
        RelocTarget::Sym(symbol) => ("symbol", symbol.id()),
        RelocTarget::Label(label) => ("label", label.id()),
    };
    vec![(noun, number.into()), ("name", names.get(target).into())]
}

/// Jumps and alignments in the order of recording, then the alignments of pooled constants.
fn events(parts: &Parts<'_>) -> Option<Vec<Json>> {
    let (input, recording) = (parts.input?, parts.recording?);
    let pooled = parts.finished.map(|_| recording.pooled());
    let events = pooled
        .as_ref()
        .map_or(&recording.events, |pooled| &pooled.events);
    let (calls, places) = (input.event_calls(), Places::new(input));
    let event = |(index, event): (usize, &LayoutEvent)| {
        let owner = pooled.as_ref().and_then(|pooled| pooled.owner(index));
        let call = calls.get(index).filter(|_| owner.is_none());
        let mut entries = places.of(call.copied());
        entries.extend(recorded_event(event, owner));
        entries.extend(settled_event(event, index, parts.finished));
        Json::object(entries)
    };
    Some(events.iter().enumerate().map(event).collect())
}

fn recorded_event(event: &LayoutEvent, owner: Option<Constant>) -> Entries {
    let mut entries = vec![
        ("event", event.noun().into()),
        ("mnemonic", event.mnemonic().into()),
    ];
    match event.alignment() {
        Some(alignment) => entries.extend([
            ("multiple", alignment.align.into()),
            ("most", alignment.most.into()),
            ("constant", owner.map(Constant::id).into()),
        ]),
        None => entries.push(("label", event.label().map(Label::id).into())),
    }
    entries.extend([
        ("recorded", event.start().into()),
        ("recorded_size", event.recorded_len().into()),
    ]);
    entries
}

/// Where an event came to stand, and what it became: a jump short or long, an alignment padding or skipped.
fn settled_event(
    event: &LayoutEvent,
    index: usize,
    finished: Option<&CodeBufferFinalized>,
) -> Entries {
    let place = finished.map(|code| code.event_range(index, event));
    let size = place.as_ref().map(|place| place.end - place.start);
    let form = place.as_ref().map(|place| form(event, place));
    vec![
        ("final", place.as_ref().map(|place| place.start).into()),
        ("final_size", size.into()),
        ("form", form.into()),
    ]
}

fn form(event: &LayoutEvent, place: &Range<u32>) -> &'static str {
    match event.alignment() {
        Some(alignment) if alignment.padding_at(place.start).is_skipped() => "skipped",
        Some(_) => "padding",
        None if place.end - place.start == event.len_at(place.start, true) => "long",
        None => "short",
    }
}

/// A round's bytes and the jumps that it makes long, by their place among the events.
fn round(round: &Round) -> Json {
    let lengthened = round.lengthened.iter().map(|step| {
        Json::object([
            ("event", step.event.into()),
            ("target", step.target.into()),
            ("from", step.from.into()),
            ("distance", step.distance().into()),
        ])
    });
    Json::object([
        ("bytes", round.len.into()),
        ("lengthened", Json::list(lengthened)),
    ])
}

/// What was accepted and finish did not write.
fn unwritten(parts: &Parts<'_>) -> Option<Vec<Json>> {
    let (input, finished) = (parts.input?, parts.finished?);
    let places = Places::new(input);
    let entry = |(entry, call): (&Unpatched, Option<usize>)| {
        let mut entries = places.of(call);
        entries.extend(unwritten_call(&entry.call));
        entries.extend([
            ("why", why(entry.why).into()),
            ("filled", entry.filled.into()),
        ]);
        Json::object(entries)
    };
    let all = unpatched::with_calls(input, finished);
    Some(all.into_iter().map(entry).collect())
}

fn unwritten_call(call: &Call) -> Entries {
    let (offset, label) = match *call {
        Call::Jump { start, label, .. } => (Some(start), Some(label)),
        Call::Ref { offset, label, .. } | Call::Use { offset, label, .. } => {
            (Some(offset), Some(label))
        }
        _ => (None, None),
    };
    vec![
        ("entry", call.name().into()),
        ("recorded", offset.into()),
        ("label", label.into()),
    ]
}

fn why(why: WhyUnpatched) -> &'static str {
    match why {
        WhyUnpatched::NotKept => "not kept on this architecture",
        WhyUnpatched::NoJump => "no jump stands",
        WhyUnpatched::BesideJump => "a jump stands",
        _ => "another reason",
    }
}

/// How many entries name a label that no call has bound, and these labels.
fn open(recording: &Recording) -> Json {
    let labels = recording.open_labels();
    Json::object([
        ("number", recording.open.into()),
        (
            "labels",
            Json::list(labels.iter().map(|open| open.label.id().into())),
        ),
    ])
}

/// Where calls stand.
struct Places<'a> {
    input: &'a Input,
    lines: Vec<(usize, Option<&'a str>)>,
}

impl<'a> Places<'a> {
    fn new(input: &'a Input) -> Self {
        Self {
            input,
            lines: input.places(),
        }
    }

    /// A call's index, and its line in a text.
    fn of(&self, call: Option<usize>) -> Entries {
        let line = call.and_then(|call| self.lines.get(call));
        let line = line.filter(|_| self.input.is_text());
        vec![
            ("call", call.into()),
            ("line", line.map(|(line, _)| *line).into()),
        ]
    }
}
