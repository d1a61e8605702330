//! Several sheets: each finished, then all joined; the whole shown, and what is written of it.

mod refused;
mod tables;

use wargnifla::{Joined, JoinedPicture, JoinedRecordings, ListedPiece, SourceText, join};

use super::options::{Options, titles};
use super::rounds::RoundsReport;
use super::rule::Rule;
use super::{Failure, diagnostic, files, object, open, print_text, report, unpatched};

pub fn run(options: &Options) -> Result<(), Failure> {
    let rules = options.files.iter().map(|file| Rule::new(options, file));
    let rules: Vec<Rule> = rules.collect::<Result<_, _>>()?;
    rules
        .iter()
        .try_for_each(|rule| rule.check_rounds(options))?;
    let joined = recordings(&rules)?;
    let text = shown(options, &rules, &joined);
    write_files(options, &rules, joined.whole())?;
    if !options.writes_standard_output() {
        print_text(&text)?;
    }
    for rule in &rules {
        diagnostic::print_all(&unpatched::notes(options, &rule.input, rule.code()));
    }
    Ok(())
}

/// The finished sheets, joined, with their recordings.
fn recordings(rules: &[Rule]) -> Result<JoinedRecordings<'_>, Failure> {
    let pieces = rules.iter().map(|rule| ListedPiece {
        title: &rule.input.file,
        finished: &rule.finished,
    });
    JoinedRecordings::new(pieces).map_err(|error| refused::join(rules, &error))
}

/// The finished sheets, joined.
pub fn whole(rules: &[Rule]) -> Result<Joined, Failure> {
    join(rules.iter().map(Rule::code)).map_err(|error| refused::join(rules, &error))
}

fn shown(options: &Options, rules: &[Rule], joined: &JoinedRecordings<'_>) -> String {
    let (style, whole) = (options.style(), joined.whole());
    let sources = rules.iter().filter_map(|rule| rule.source_text(options));
    let sources: Vec<SourceText<'_>> = sources.collect();
    let mut text = joined.listing_with_sources(&sources, style);
    text += &tables::labels(rules, whole, style);
    text += &report::definitions(whole.code(), style);
    text += &tables::relocations(rules, whole, style);
    for (piece, rule) in rules.iter().enumerate() {
        text += &of_piece(options, piece, rule);
    }
    text.push('\n');
    for (piece, rule) in rules.iter().enumerate() {
        text += &format!("piece {piece} {}\n", rule.finished.record());
    }
    text + &format!("{}\n", whole.record())
}

/// What is shown of a piece beside the listing, where it is asked for.
fn of_piece(options: &Options, piece: usize, rule: &Rule) -> String {
    let style = options.style();
    let mut text = String::new();
    if options.open {
        let (title, open) = (format!("open, piece {piece}"), rule.buffer.open());
        text += &open::after_each_call(&title, &rule.input, Some(open), style.extent);
    }
    if options.rounds {
        let title = format!("rounds, piece {piece}");
        let report = RoundsReport::new(&rule.input, rule.recording(), style);
        text += &report.text(&title, rule.finished.rounds());
    }
    text
}

/// Writes what is asked for of joined sheets.
pub fn write_files(options: &Options, rules: &[Rule], whole: &Joined) -> Result<(), Failure> {
    let code = whole.code();
    let object = object::object(options, rules, whole.bases(), code, |error| {
        refused::object(rules, whole, error)
    })?;
    let page = match &options.picture {
        Some(_) => page(options, rules)?,
        None => String::new(),
    };
    files::write(options, [code.data(), &object, &[], page.as_bytes()])
}

fn page(options: &Options, rules: &[Rule]) -> Result<String, Failure> {
    let places: Vec<_> = rules.iter().map(|rule| rule.input.event_places()).collect();
    let (title, joined) = (titles(&options.files), recordings(rules)?);
    let picture = JoinedPicture::new(&title, &joined).places(&places);
    Ok(picture.style(options.style()).page())
}
