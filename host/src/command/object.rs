//! The object of one sheet or of joined ones, with the lines that its code comes from where they are asked for.

use std::env;
use std::ffi::OsStr;

use wargnifla::{CodeBufferFinalized, CodeOffset, ObjectError, SourceLine, SourceLines};

use super::Failure;
use super::diagnostic::{Diagnostic, Place};
use super::options::{Options, is_dash};
use super::rule::Rule;

/// The object of code that some rules are pieces of, each from its base on; nothing where none is asked for. `refused` says why there can be none.
pub fn object(
    options: &Options,
    rules: &[Rule],
    bases: &[CodeOffset],
    code: &CodeBufferFinalized,
    refused: impl FnOnce(&ObjectError) -> Failure,
) -> Result<Vec<u8>, Failure> {
    if options.object.is_none() {
        return Ok(Vec::new());
    }
    let object = match options.debug {
        true => code.object_with_lines(&source_lines(options, rules, bases)?),
        false => code.object(),
    };
    object.map_err(|error| refused(&error))
}

/// The lines of all texts that code comes from.
fn source_lines(
    options: &Options,
    rules: &[Rule],
    bases: &[CodeOffset],
) -> Result<SourceLines, Failure> {
    if let Some(rule) = rules.iter().find(|rule| !rule.input.is_text()) {
        let sentence = "--debug is about the lines of a text, and this is a binary sheet";
        let place = Place::file(&rule.input.file);
        return Err(Failure::unusable(Diagnostic::error(sentence).at(place)));
    }
    let folder = env::current_dir().unwrap_or_default();
    let pieces = rules.iter().zip(bases).enumerate();
    Ok(SourceLines {
        folder: folder.to_string_lossy().into(),
        files: options.files.iter().map(|file| file_name(file)).collect(),
        lines: pieces
            .flat_map(|(file, (rule, base))| lines_of(rule, file, *base))
            .collect(),
    })
}

/// The lines of a rule's text, which is a file by its index, for code from a base on.
fn lines_of(rule: &Rule, file: usize, base: CodeOffset) -> Vec<SourceLine> {
    let ranges = rule.code().call_ranges(&rule.input.calls).into_iter();
    let lines = ranges.zip(rule.input.places());
    let lines = lines.filter(|(range, _)| !range.is_empty());
    lines
        .map(|(range, (line, _))| SourceLine {
            code: base + range.start..base + range.end,
            file,
            line: line as u32,
        })
        .collect()
}

/// A file's name as debuggers look for it.
fn file_name(file: &OsStr) -> String {
    match is_dash(file) {
        true => "<stdin>".into(),
        false => file.to_string_lossy().into(),
    }
}
