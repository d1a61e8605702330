//! Notes of what was recorded and is not in the finished code, or defined and not in its object.

use std::collections::HashSet;

use sheet_text::counted;
use wargnifla::{Arch, Call, CodeBufferFinalized, Label, Unpatched, WhyUnpatched};

use super::diagnostic::{Diagnostic, Place};
use super::input::Input;
use super::options::Options;

/// A note for each kind of what finish did not write, at the first place that it comes from, with the lines of all; for the constants that it did not
/// pool; and for the definitions that the object, if there is one, leaves out.
pub fn notes(options: &Options, input: &Input, finished: &CodeBufferFinalized) -> Vec<Diagnostic> {
    let mut groups: Vec<Group> = Vec::new();
    for (entry, call) in with_calls(input, finished) {
        match groups.iter_mut().find(|group| group.holds(entry)) {
            Some(group) => group.calls.extend(call),
            None => groups.push(Group::new(entry, call)),
        }
    }
    let notes = groups.iter().map(|group| {
        let places = input.where_are(&group.calls);
        let what = group.text(finished.arch());
        Diagnostic::note(format!("{what} ({places})")).at(first_place(input, &group.calls))
    });
    let is_not_kept = |group: &Group| group.why == WhyUnpatched::NotKept;
    let unsaid = input.unsaid_arch();
    let unsaid = unsaid.filter(|_| groups.iter().any(is_not_kept));
    let unsaid = unsaid.map(|note| note.at(Place::file(&input.file)));
    let mut notes: Vec<Diagnostic> = notes.chain(unsaid).collect();
    notes.extend(unasked_note(input, finished));
    if options.object.is_some() {
        notes.extend(definition_notes(input, finished));
    }
    notes
}

/// Where the first of some calls stands.
fn first_place(input: &Input, calls: &[usize]) -> Option<Place> {
    let first = calls.first().map(|call| input.place_of(*call, 0));
    first.map(Place::without_excerpt)
}

/// A note for each definition that an object leaves out, at its line.
fn definition_notes(input: &Input, finished: &CodeBufferFinalized) -> Vec<Diagnostic> {
    let left_out = finished.unbound_definitions().map(|(symbol, _)| symbol);
    let left_out: HashSet<_> = left_out.collect();
    let definitions = input.definitions.iter();
    let notes = definitions.filter(|definition| left_out.contains(&definition.symbol));
    let notes = notes.map(|definition| {
        let label = finished.names().text(Label::from_id(definition.label));
        let sentence = format!(
            "the definition of {} is left out of the object, since {label} is bound nowhere",
            definition.symbol
        );
        Diagnostic::note(sentence).at(input.place_at(definition.label_place))
    });
    notes.collect()
}

/// A note for the constants that no call asks for.
fn unasked_note(input: &Input, finished: &CodeBufferFinalized) -> Option<Diagnostic> {
    let constants: Vec<usize> = input
        .calls_where(|call| matches!(call, Call::Constant(_)))
        .collect();
    let unasked = finished.unasked_constants().iter();
    let calls: Vec<usize> = unasked
        .map(|unasked| constants[unasked.id() as usize])
        .collect();
    let (is, them) = match calls.len() {
        0 => return None,
        1 => ("is", "it"),
        _ => ("are", "them"),
    };
    let constants = counted(calls.len(), "constant");
    let places = input.where_are(&calls);
    let sentence = format!(
        "{constants} {is} not in the code, since no constant-label asks for {them} ({places})"
    );
    Some(Diagnostic::note(sentence).at(first_place(input, &calls)))
}

/// What finish did not write, each with the call that made it.
pub fn with_calls<'a>(
    input: &Input,
    finished: &'a CodeBufferFinalized,
) -> Vec<(&'a Unpatched, Option<usize>)> {
    let mut jumps = input.calls_where(|call| matches!(call, Call::Jump { .. }));
    let mut refs = input.calls_where(|call| matches!(call, Call::Ref { .. }));
    let mut uses = input.calls_where(|call| matches!(call, Call::Use { .. }));
    // Whatever is not patched, all calls of its kind are not: the nth entry of a kind is the nth call.
    let with_call = |entry: &'a Unpatched| match entry.call {
        Call::Jump { .. } => (entry, jumps.next()),
        Call::Ref { .. } => (entry, refs.next()),
        _ => (entry, uses.next()),
    };
    finished.unpatched().iter().map(with_call).collect()
}

/// Entries of one kind.
struct Group {
    noun: &'static str,
    why: WhyUnpatched,
    filled: bool,
    calls: Vec<usize>,
}

impl Group {
    fn new(entry: &Unpatched, call: Option<usize>) -> Self {
        Self {
            noun: entry.call.name(),
            why: entry.why,
            filled: entry.filled,
            calls: call.into_iter().collect(),
        }
    }

    fn holds(&self, entry: &Unpatched) -> bool {
        let key = (entry.call.name(), entry.why, entry.filled);
        key == (self.noun, self.why, self.filled)
    }

    fn text(&self, arch: Arch) -> String {
        let one = self.calls.len() == 1;
        let is = if one { "is" } else { "are" };
        let why = self.why.text(arch);
        let filled = match (self.filled, self.why, one) {
            (false, ..) => "",
            (true, WhyUnpatched::BesideJump, true) => ", but a ref or jump fills its field",
            (true, WhyUnpatched::BesideJump, false) => ", but refs or jumps fill their fields",
            (true, _, true) => ", but a use fills its field",
            (true, _, false) => ", but uses fill their fields",
        };
        format!(
            "{} {is} {why}{filled}",
            counted(self.calls.len(), self.noun)
        )
    }
}
