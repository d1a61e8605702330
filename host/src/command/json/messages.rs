//! Messages in JSON.

use super::value::{Entries, Json};
use crate::command::diagnostic::{Diagnostic, Place};

/// Errors, each with its notes.
pub fn errors(errors: &[Diagnostic]) -> Json {
    Json::list(errors.iter().map(|error| {
        let mut entries = place(error.place.as_ref());
        entries.extend([
            ("number", error.number.into()),
            ("sentence", error.sentence.as_str().into()),
            ("notes", notes(&error.notes)),
        ]);
        Json::object(entries)
    }))
}

pub fn notes(notes: &[Diagnostic]) -> Json {
    Json::list(notes.iter().map(|note| {
        let mut entries = place(note.place.as_ref());
        entries.push(("sentence", note.sentence.as_str().into()));
        Json::object(entries)
    }))
}

fn place(place: Option<&Place>) -> Entries {
    let columns = place.and_then(|place| place.columns);
    vec![
        ("file", place.map(|place| place.file.as_str()).into()),
        ("line", columns.map(|columns| columns.line).into()),
        ("column", columns.map(|columns| columns.start).into()),
        ("end_column", columns.map(|columns| columns.end).into()),
        ("call", place.and_then(|place| place.call).into()),
    ]
}
