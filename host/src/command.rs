//! The command line: records sheets of calls, finishes and joins them, and shows the code.

mod calls;
mod diagnostic;
mod excerpt;
mod files;
mod input;
mod joined;
mod json;
mod kinds;
mod mistake;
mod object;
mod one;
mod open;
mod options;
mod report;
mod rounds;
mod rule;
mod source;
mod unpatched;
mod width;

use std::env;
use std::io::{self, ErrorKind, Write};
use std::process::ExitCode;

use diagnostic::Diagnostic;
use options::{Options, Request, file_text};

/// Messages for standard error, and the exit status that goes with them.
struct Failure {
    status: u8,
    diagnostics: Vec<Diagnostic>,
}

impl Failure {
    /// The recording, its finish, its join with others or its relocations as ELF were refused.
    fn refused(diagnostic: Diagnostic) -> Self {
        Self::new(1, diagnostic)
    }

    /// The command line, a file or a text is unusable, or what is to be written fits no such file.
    fn unusable(diagnostic: Diagnostic) -> Self {
        Self::new(2, diagnostic)
    }

    /// The same, of all that is wrong with a text.
    fn all_unusable(diagnostics: Vec<Diagnostic>) -> Self {
        Self {
            status: 2,
            diagnostics,
        }
    }

    /// This program contradicts itself.
    fn internal(sentence: &str) -> Self {
        Self::new(3, Diagnostic::error(format!("internal error: {sentence}")))
    }

    /// The same, with the messages of another.
    fn and(mut self, other: Self) -> Self {
        self.diagnostics.extend(other.diagnostics);
        self
    }

    fn new(status: u8, diagnostic: Diagnostic) -> Self {
        Self {
            status,
            diagnostics: vec![diagnostic],
        }
    }
}

/// Runs the command on the arguments of the process.
pub fn main() -> ExitCode {
    let done = options::parse(env::args_os().skip(1))
        .map_err(|sentence| {
            let message = format!("{sentence}; see {} --help", own_name());
            Failure::unusable(Diagnostic::error(message))
        })
        .and_then(|request| match request {
            Request::Help => print_text(&options::help(&own_name())),
            Request::ListKinds => print_text(&kinds::tables()),
            Request::Version => print_text(concat!("wargnifla ", env!("CARGO_PKG_VERSION"), "\n")),
            Request::Run(options) => run(&options),
        });
    match done {
        Ok(()) => ExitCode::SUCCESS,
        Err(failure) => {
            diagnostic::print_all(&failure.diagnostics);
            ExitCode::from(failure.status)
        }
    }
}

/// The command that the user ran: a script that runs this program tells it its own name.
fn own_name() -> String {
    match env::var_os("WARGNIFLA_COMMAND") {
        Some(name) if !name.is_empty() => file_text(&name),
        _ => "wargnifla".into(),
    }
}

fn run(options: &Options) -> Result<(), Failure> {
    files::check(options)?;
    match &options.files[..] {
        _ if options.json => json::run(options),
        [file] if !options.joins() => one::run(options, file),
        _ => joined::run(options),
    }
}

/// Prints to standard output. A reader that has gone away has seen enough.
fn print(bytes: &[u8]) -> io::Result<()> {
    let mut out = io::stdout().lock();
    match out.write_all(bytes).and_then(|()| out.flush()) {
        Err(error) if error.kind() == ErrorKind::BrokenPipe => Ok(()),
        printed => printed,
    }
}

fn print_text(text: &str) -> Result<(), Failure> {
    print(text.as_bytes()).map_err(|error| unprintable(&error))
}

fn unprintable(error: &io::Error) -> Failure {
    let sentence = format!("standard output can't be written: {error}");
    Failure::unusable(Diagnostic::error(sentence))
}
