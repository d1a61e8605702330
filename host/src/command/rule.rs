//! A sheet, recorded and finished.

use std::ffi::OsStr;

use wargnifla::{CodeBuffer, CodeBufferFinalized, FinishedRecording, Recording, SourceText};

use super::Failure;
use super::diagnostic::{Diagnostic, Place};
use super::input::Input;
use super::open;
use super::options::Options;

/// A sheet, what was recorded of it, and what it finishes to.
pub struct Rule {
    pub input: Input,
    pub buffer: CodeBuffer,
    pub finished: FinishedRecording,
}

/// A sheet that is refused, and what was recorded of it.
pub struct Refused {
    pub input: Input,
    pub recording: Recording,
    pub failure: Failure,
}

impl Rule {
    pub fn new(options: &Options, file: &OsStr) -> Result<Self, Failure> {
        let input = Input::read(options, file)?;
        if options.source && !input.is_text() {
            let sentence = "this is a binary sheet, and --source shows the lines of a text";
            let message = Diagnostic::error(sentence).at(Place::file(&input.file));
            return Err(Failure::unusable(message));
        }
        Self::assemble(input).or_else(|refused| {
            show_open(options, &refused.input)?;
            Err(refused.failure)
        })
    }

    /// Records the sheet and finishes it.
    pub fn assemble(input: Input) -> Result<Self, Box<Refused>> {
        let mut buffer = input.buffer();
        match assembled(&input, &mut buffer) {
            Ok(finished) => Ok(Self {
                input,
                buffer,
                finished,
            }),
            Err(failure) => Err(Box::new(Refused {
                input,
                recording: buffer.recording(),
                failure,
            })),
        }
    }

    /// The recording as it was before finish.
    pub fn recording(&self) -> &Recording {
        self.finished.recording()
    }

    /// The finished code.
    pub fn code(&self) -> &CodeBufferFinalized {
        self.finished.code()
    }

    /// The text that the calls stand in, where it is to be shown.
    pub fn source_text(&self, options: &Options) -> Option<SourceText<'_>> {
        let lines = self.input.lines().filter(|_| options.source)?;
        Some(SourceText {
            calls: &self.input.calls,
            lines,
        })
    }

    /// Compares the rounds with what finish reports, where they are to be shown.
    pub fn check_rounds(&self, options: &Options) -> Result<(), Failure> {
        if !options.rounds && !options.json && options.picture.is_none() {
            return Ok(());
        }
        let checked = self.finished.rounds().check(self.code());
        checked.map_err(|mismatch| Failure::internal(&mismatch.to_string()))
    }
}

/// What was recorded, and what it finishes to.
fn assembled(input: &Input, buffer: &mut CodeBuffer) -> Result<FinishedRecording, Failure> {
    // What stands before the first error of a text is recorded, for those who ask what is open; the text's errors are said first.
    let recorded = input.record(buffer);
    input.check()?;
    recorded?;
    let finished = buffer.finish_with_recording();
    finished.map_err(|error| input.refused_finish(&error, &buffer.recording()))
}

/// What was open after each call of a text that is wrong, or of a recording that is refused, where that is to be shown.
fn show_open(options: &Options, input: &Input) -> Result<(), Failure> {
    if !options.open || options.writes_standard_output() {
        return Ok(());
    }
    let text = open::after_each_call("open", input, None, options.style().extent);
    super::print_text(text.trim_start())
}
