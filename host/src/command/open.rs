//! How many entries are open after each call: label uses, refs, jumps and relocations that name a label which is not bound; and these labels.

use std::collections::HashSet;

use sheet_text::shown;
use wargnifla::{Call, Entry, Extent, Label, OpenLabel, Recording};

use super::input::Input;
use super::report::{MOST_LINES, table};

/// A line for each call up to the first that is wrong or refused, and one for a finish that left such a number, under a title; nothing where no call
/// was made. Without a finish, the labels that are open at the end follow.
pub fn after_each_call(
    title: &str,
    input: &Input,
    finished: Option<u32>,
    extent: Extent,
) -> String {
    let (numbers, recording) = record(input);
    let mut lines = call_lines(input, &numbers, extent);
    lines.extend(finished.map(|number| format!("          {:<14}  {number:>6}", "finish")));
    if lines.is_empty() {
        return String::new();
    }
    let head = match input.is_text() {
        true => "    line  call              open  statement",
        false => "    call  name              open",
    };
    let labels = match finished {
        Some(_) => String::new(),
        None => open_labels(input, &recording, extent),
    };
    format!("\n{title}\n{head}\n{}\n{labels}", lines.join("\n"))
}

/// The number after each call that is accepted, and what these calls record. Of a sheet that breaks its form none is made.
fn record(input: &Input) -> (Vec<u32>, Recording) {
    let calls = match input.is_whole() {
        true => &input.calls[..],
        false => &[],
    };
    let mut buffer = input.buffer();
    let accepted = calls.iter().map_while(|call| {
        buffer.call(call).ok()?;
        Some(buffer.open())
    });
    (accepted.collect(), buffer.recording())
}

/// The labels that are open, each with the lines that name it.
fn open_labels(input: &Input, recording: &Recording, extent: Extent) -> String {
    let calls = EntryCalls::new(input);
    let constants = recording.constants.iter();
    let of_constants: HashSet<Label> = constants.filter_map(|constant| constant.label).collect();
    let line = |open: &OpenLabel| {
        let label = recording.names.text(open.label);
        let mut named: Vec<usize> = open
            .entries
            .iter()
            .filter_map(|entry| calls.of(*entry))
            .collect();
        named.sort_unstable();
        let bound = match of_constants.contains(&open.label) {
            true => "; finish binds it, as a constant's",
            false => "",
        };
        let entries = open.entries.len();
        format!("{entries:>8}  {label}: {}{bound}", input.where_are(&named))
    };
    let lines: Vec<String> = recording.open_labels().iter().map(line).collect();
    table("open labels", "    open  label", &lines, extent)
}

/// The calls that make entries which may name a label, of each kind in the order of recording.
struct EntryCalls {
    uses: Vec<usize>,
    refs: Vec<usize>,
    events: Vec<usize>,
    relocs: Vec<usize>,
}

impl EntryCalls {
    fn new(input: &Input) -> Self {
        let calls = |wanted: fn(&Call) -> bool| input.calls_where(wanted).collect();
        Self {
            uses: calls(|call| matches!(call, Call::Use { .. })),
            refs: calls(|call| matches!(call, Call::Ref { .. })),
            events: input.event_calls(),
            relocs: calls(|call| matches!(call, Call::Relocation { .. })),
        }
    }

    fn of(&self, entry: Entry) -> Option<usize> {
        let (calls, index) = match entry {
            Entry::Use(index) => (&self.uses, index),
            Entry::Ref(index) => (&self.refs, index),
            Entry::Event(index) => (&self.events, index),
            Entry::Reloc(index) => (&self.relocs, index),
            // Other entries name no label that can be open.
            _ => return None,
        };
        calls.get(index).copied()
    }
}

/// Of many calls, the first ones and the last.
fn call_lines(input: &Input, numbers: &[u32], extent: Extent) -> Vec<String> {
    let places = input.places();
    let line = |call: usize| {
        let (place, statement) = places[call];
        let statement = statement.map_or(String::new(), |text| format!("  {}", shown(text)));
        let name = input.calls[call].name();
        format!("{place:>8}  {name:<14}  {:>6}{statement}", numbers[call])
    };
    let all = numbers.len();
    if extent == Extent::Full || all <= MOST_LINES {
        return (0..all).map(line).collect();
    }
    let first = MOST_LINES / 2;
    let mut lines: Vec<_> = (0..first).map(line).collect();
    lines.push(format!("          ... {} more", all - 1 - first));
    lines.push(line(all - 1));
    lines
}
