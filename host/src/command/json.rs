//! What `--json` prints in the place of the listing: one object, which host/json-schema.json describes. Where something is refused or malformed it
//! has what there is, and the errors. Standard error and the exit status are the same as without the option.

mod messages;
mod sheet;
mod value;
mod whole;

use std::ffi::OsStr;

use wargnifla::Joined;

use super::diagnostic::{self, Diagnostic};
use super::input::Input;
use super::options::{Options, input_text, title};
use super::rule::{Refused, Rule};
use super::{Failure, joined, one, print_text, unpatched};
use sheet::Parts;
use value::{Entries, Json};

/// The form of the object. It rises where a program that reads the object has to change.
const FORMAT: u32 = 1;

pub fn run(options: &Options) -> Result<(), Failure> {
    let (entries, done) = match &options.files[..] {
        [file] if !options.joins() => of_one(options, file),
        files => of_joined(options, files),
    };
    let printed = print_text(&object(entries, &done));
    match (done, printed) {
        (Err(failure), Err(unprinted)) => Err(failure.and(unprinted)),
        (Err(failure), Ok(())) => Err(failure),
        (Ok(notes), printed) => {
            diagnostic::print_all(&notes);
            printed
        }
    }
}

/// The object, with the notes or the errors that there are.
fn object(entries: Entries, done: &Result<Vec<Diagnostic>, Failure>) -> String {
    let (errors, notes) = match done {
        Ok(notes) => (&[][..], &notes[..]),
        Err(failure) => (&failure.diagnostics[..], &[][..]),
    };
    let mut all: Entries = vec![
        ("format", FORMAT.into()),
        ("version", env!("CARGO_PKG_VERSION").into()),
    ];
    all.extend(entries);
    all.push(("errors", messages::errors(errors)));
    all.push(("notes", messages::notes(notes)));
    format!("{}\n", Json::object_in_lines(all).text())
}

/// What there is of one sheet, and the notes that go with it if all went well.
fn of_one(options: &Options, file: &OsStr) -> (Entries, Result<Vec<Diagnostic>, Failure>) {
    let sheet = Sheet::new(options, file);
    let entries = sheet::entries(&sheet.parts());
    let done = sheet.finished().and_then(|rule| {
        one::write_files(options, &rule, &title(file))?;
        Ok(unpatched::notes(options, &rule.input, rule.code()))
    });
    (entries, done)
}

/// The same of joined sheets.
fn of_joined(
    options: &Options,
    files: &[impl AsRef<OsStr>],
) -> (Entries, Result<Vec<Diagnostic>, Failure>) {
    let sheets = files.iter().map(|file| Sheet::new(options, file.as_ref()));
    let sheets: Vec<Sheet> = sheets.collect();
    let pieces = sheets.iter().map(|sheet| sheet::entries(&sheet.parts()));
    let pieces: Vec<Entries> = pieces.collect();
    let joined = join_all(sheets);
    let mut entries = whole::entries(joined.as_ref().ok());
    entries.push(("pieces", whole::pieces(pieces, joined.as_ref().ok())));
    let done = joined.and_then(|(rules, whole)| {
        joined::write_files(options, &rules, &whole)?;
        let notes = rules.iter();
        let notes = notes.flat_map(|rule| unpatched::notes(options, &rule.input, rule.code()));
        Ok(notes.collect())
    });
    (entries, done)
}

/// The sheets, joined; the errors of all that are not finished otherwise.
fn join_all(sheets: Vec<Sheet>) -> Result<(Vec<Rule>, Joined), Failure> {
    let mut rules = Vec::new();
    let mut failed: Option<Failure> = None;
    for sheet in sheets {
        match sheet.finished() {
            Ok(rule) => rules.push(rule),
            Err(failure) => {
                failed = Some(match failed {
                    Some(before) => before.and(failure),
                    None => failure,
                });
            }
        }
    }
    if let Some(failure) = failed {
        return Err(failure);
    }
    let whole = joined::whole(&rules)?;
    Ok((rules, whole))
}

/// A sheet, as far as it came.
struct Sheet {
    file: String,
    made: Made,
}

enum Made {
    /// It can't be read, or this program contradicts itself.
    Nothing(Failure),
    Refused(Box<Refused>),
    Finished(Box<Rule>),
}

impl Sheet {
    fn new(options: &Options, file: &OsStr) -> Self {
        Self {
            file: input_text(file),
            made: Made::new(options, file).unwrap_or_else(Made::Nothing),
        }
    }

    fn parts(&self) -> Parts<'_> {
        let nothing = Parts::nothing(&self.file);
        match &self.made {
            Made::Nothing(_) => nothing,
            Made::Refused(refused) => Parts {
                input: Some(&refused.input),
                recording: Some(&refused.recording),
                ..nothing
            },
            Made::Finished(rule) => Parts {
                input: Some(&rule.input),
                recording: Some(rule.recording()),
                finished: Some(rule.code()),
                rounds: Some(rule.finished.rounds()),
                ..nothing
            },
        }
    }

    fn finished(self) -> Result<Rule, Failure> {
        match self.made {
            Made::Nothing(failure) => Err(failure),
            Made::Refused(refused) => Err(refused.failure),
            Made::Finished(rule) => Ok(*rule),
        }
    }
}

impl Made {
    fn new(options: &Options, file: &OsStr) -> Result<Self, Failure> {
        let rule = match Rule::assemble(Input::read(options, file)?) {
            Ok(rule) => rule,
            Err(refused) => return Ok(Self::Refused(refused)),
        };
        rule.check_rounds(options)?;
        Ok(Self::Finished(Box::new(rule)))
    }
}
