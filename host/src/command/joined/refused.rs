//! What is refused of joined sheets, with the places in their files that it goes back to.

use sheet_text::nearest;
use wargnifla::{Entry, Error, ExternalName, Joined, ObjectError, RelocTarget};

use crate::command::Failure;
use crate::command::diagnostic::Diagnostic;
use crate::command::input::wrong_relocation;
use crate::command::rule::Rule;

/// A refused join.
pub fn join(rules: &[Rule], error: &Error) -> Failure {
    let Some(piece) = error.piece() else {
        return Failure::refused(Diagnostic::refusal(error));
    };
    let message = rules[piece].input.refusal_of_entry(error);
    Failure::refused(message.with(notes(rules, piece, error)))
}

/// What helps to mend a refused join.
fn notes(rules: &[Rule], piece: usize, error: &Error) -> Vec<Diagnostic> {
    match (error.number(), error.entry()) {
        (27, _) => vec![Diagnostic::note(
            "--arch names one architecture for all sheets",
        )],
        (28, Some(Entry::Definition(index))) => {
            let symbol = &rules[piece].input.definitions[index].symbol;
            defined_here(rules, symbol).into_iter().collect()
        }
        (28, _) => vec![Diagnostic::note(
            "a label defines the symbol of its name where nothing else does: give one of the labels another name, or define the symbol",
        )],
        (29, Some(Entry::Reloc(relocation))) => undefined(rules, piece, relocation),
        _ => Vec::new(),
    }
}

/// Where a symbol is defined first.
fn defined_here(rules: &[Rule], symbol: &ExternalName) -> Option<Diagnostic> {
    rules.iter().find_map(|rule| {
        let mut definitions = rule.input.definitions.iter();
        let definition = definitions.find(|definition| definition.symbol == *symbol)?;
        let place = rule.input.place_at(definition.symbol_place)?;
        Some(Diagnostic::note(format!("{symbol} is defined here")).at(place))
    })
}

/// What is wrong with the definition of a relocation's symbol, or that there is none.
fn undefined(rules: &[Rule], piece: usize, relocation: usize) -> Vec<Diagnostic> {
    let code = rules[piece].code();
    let RelocTarget::Sym(symbol) = code.relocs()[relocation].target else {
        return Vec::new();
    };
    let symbol = code.names().external_name(symbol);
    if let Some(note) = defined_here(rules, &symbol) {
        return vec![note];
    }
    let mut notes = Vec::new();
    if let ExternalName::Name(name) = &symbol
        && let Some(near) = nearest(name, defined_names(rules))
    {
        notes.push(Diagnostic::note(format!("did you mean '{near}'?")));
    }
    notes.push(Diagnostic::note(
        "'define SYMBOL LABEL' in one of the sheets defines a symbol, as does a label of its name; \
         what is left to the system's linker is named by another kind, such as X86GOTPCRel4",
    ));
    notes
}

/// The names of symbols that are defined, and of labels that could define one.
fn defined_names(rules: &[Rule]) -> impl Iterator<Item = &str> {
    rules.iter().flat_map(|rule| {
        let symbols = rule.input.definitions.iter();
        let symbols = symbols.filter_map(|definition| match &definition.symbol {
            ExternalName::Name(name) => Some(name.as_str()),
            ExternalName::Number(_) => None,
        });
        let labels = rule.input.names.iter().map(|(_, name)| name.as_str());
        symbols.chain(labels.filter(|name| !name.starts_with('.')))
    })
}

/// What no object of the whole can hold.
pub fn object(rules: &[Rule], whole: &Joined, error: &ObjectError) -> Failure {
    if let ObjectError::Relocations(error) = error {
        return relocations(rules, whole, error);
    }
    let place = wrong_relocation(error).and_then(|(relocation, word)| {
        let origin = whole.remaining()[relocation];
        let input = &rules[origin.piece].input;
        input.place_of_relocation(origin.relocation, word)
    });
    let is_name_twice = matches!(error, ObjectError::NameTwice { .. });
    let note = is_name_twice.then(|| {
        Diagnostic::note(
            "a name that starts with '.' stays within its piece, and may stand in several",
        )
    });
    Failure::unusable(Diagnostic::error(error.to_string()).at(place).with(note))
}

/// Relocations of the whole that can't be written as ELF.
fn relocations(rules: &[Rule], whole: &Joined, error: &Error) -> Failure {
    let place = match error.entry() {
        Some(Entry::Reloc(relocation)) => {
            let origin = whole.remaining()[relocation];
            let word = if error.number() == 25 { 4 } else { 2 };
            let input = &rules[origin.piece].input;
            input.place_of_relocation(origin.relocation, word)
        }
        _ => None,
    };
    Failure::refused(Diagnostic::refusal(error).at(place))
}
