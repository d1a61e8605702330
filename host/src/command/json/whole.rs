//! What `--json` prints of joined sheets, beside the sheets.

use wargnifla::{CodeBufferFinalized, Filled, Joined, Label, Origin};

use super::sheet::{bound, definitions, relocation, target};
use super::value::{Entries, Json};
use crate::command::rule::Rule;

/// Finished sheets and what they are joined to.
type Made = (Vec<Rule>, Joined);

/// The joined code; nothing is made where the sheets can't be joined.
pub fn entries(made: Option<&Made>) -> Entries {
    let code = made.map(|(_, whole)| whole.code());
    let made = || made.into_iter();
    vec![
        ("arch", code.map(|code| code.arch().to_string()).into()),
        ("code", code.map(|code| Json::hex(code.data())).into()),
        ("alignment", code.map(CodeBufferFinalized::alignment).into()),
        ("labels", Json::list(made().flat_map(labels))),
        (
            "definitions",
            Json::list(code.into_iter().flat_map(definitions)),
        ),
        ("relocations", Json::list(made().flat_map(remaining))),
        ("filled", Json::list(made().flat_map(filled))),
    ]
}

/// The sheets, each with where it starts in the whole.
pub fn pieces(sheets: Vec<Entries>, made: Option<&Made>) -> Json {
    let bases = made.map_or(&[][..], |(_, whole)| whole.bases());
    Json::list(sheets.into_iter().enumerate().map(|(piece, sheet)| {
        let offset = ("offset", bases.get(piece).copied().into());
        Json::object([offset].into_iter().chain(sheet))
    }))
}

/// The labels by their numbers in the whole.
fn labels((rules, whole): &Made) -> impl Iterator<Item = Json> {
    let code = whole.code();
    rules.iter().enumerate().flat_map(move |(piece, rule)| {
        let recorded = (0..).map(Label::from_id).zip(&rule.recording().labels);
        recorded.filter_map(move |(label, recorded)| {
            let label = whole.label(piece, label)?;
            Some(Json::object([
                ("number", label.id().into()),
                ("name", code.names().get(label).into()),
                ("piece", piece.into()),
                ("recorded", bound(*recorded)),
                ("final", code.label_offset(label).into()),
            ]))
        })
    })
}

/// Where a relocation was recorded, and in which piece.
fn origin(rules: &[Rule], origin: Origin) -> Entries {
    let recorded = &rules[origin.piece].recording().relocs[origin.relocation];
    vec![
        ("piece", origin.piece.into()),
        ("recorded", recorded.offset.into()),
    ]
}

fn remaining((rules, whole): &Made) -> impl Iterator<Item = Json> {
    let code = whole.code();
    let all = whole.remaining().iter().zip(code.relocs());
    all.map(move |(from, reloc)| {
        let mut entries = origin(rules, *from);
        entries.push(("final", reloc.offset.into()));
        entries.extend(relocation(code.arch(), code.names(), reloc));
        Json::object(entries)
    })
}

fn filled((rules, whole): &Made) -> impl Iterator<Item = Json> {
    whole.filled().iter().map(move |filled: &Filled| {
        let from = filled.origin;
        let reloc = &rules[from.piece].recording().relocs[from.relocation];
        let mut entries = origin(rules, from);
        entries.extend([
            ("final", filled.offset.into()),
            ("kind", reloc.kind.to_string().into()),
        ]);
        entries.extend(target(whole.code().names(), filled.symbol.into()));
        entries.extend([
            ("label", filled.label.id().into()),
            ("addend", reloc.addend.into()),
            ("value", filled.value.into()),
        ]);
        Json::object(entries)
    })
}
