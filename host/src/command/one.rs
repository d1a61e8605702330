//! One sheet: its finished code shown, and what is written of it.

use std::ffi::OsStr;

use wargnifla::{Picture, write_sheet};

use super::options::{Options, title};
use super::rounds::RoundsReport;
use super::rule::Rule;
use super::{Failure, diagnostic, files, mistake, object, open, print_text, report, unpatched};

pub fn run(options: &Options, file: &OsStr) -> Result<(), Failure> {
    let rule = Rule::new(options, file)?;
    if let Some(mistake) = options.mistake {
        return mistake::show(mistake, &rule, options);
    }
    rule.check_rounds(options)?;
    let text = shown(options, &rule);
    write_files(options, &rule, &title(file))?;
    if !options.writes_standard_output() {
        print_text(&text)?;
    }
    diagnostic::print_all(&unpatched::notes(options, &rule.input, rule.code()));
    Ok(())
}

fn shown(options: &Options, rule: &Rule) -> String {
    let Rule {
        input,
        buffer,
        finished,
    } = rule;
    let (recording, code) = (rule.recording(), rule.code());
    let style = options.style();
    let mut text = match rule.source_text(options) {
        Some(source) => finished.listing_with_source(&source, style),
        None => finished.listing(style),
    };
    text += &report::labels(recording, code, style);
    text += &report::definitions(code, style);
    text += &report::relocations(recording, code, style);
    if options.open {
        text += &open::after_each_call("open", input, Some(buffer.open()), style.extent);
    }
    if options.rounds {
        let report = RoundsReport::new(input, recording, style);
        text += &report.text("rounds", finished.rounds());
    }
    text + &format!("\n{}\n", finished.record())
}

/// Writes what is asked for of a sheet, whose page has a title.
pub fn write_files(options: &Options, rule: &Rule, title: &str) -> Result<(), Failure> {
    let Rule {
        input, finished, ..
    } = rule;
    let rules = std::slice::from_ref(rule);
    let object = object::object(options, rules, &[0], rule.code(), |error| {
        input.no_object(error, rule.recording())
    })?;
    let sheet = match &options.write_sheet {
        Some(_) => write_sheet(&input.calls).map_err(|error| input.unwritable(&error))?,
        None => Vec::new(),
    };
    let page = match &options.picture {
        Some(_) => Picture::new(title, finished)
            .places(&input.event_places())
            .style(options.style())
            .page(),
        None => String::new(),
    };
    let contents = [rule.code().data(), &object, &sheet, page.as_bytes()];
    files::write(options, contents)
}
