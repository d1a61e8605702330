//! The sheet that the command line is given: which form it has, its calls, and where each stands in the file.

use std::ffi::OsStr;
use std::fs;
use std::io::{self, Read};

use sheet_text::{nearest, shown};
use wargnifla::{
    Arch, Call, CodeBuffer, Definition, Draft, Entry, Error, ExternalName, Label, LayoutEvent,
    ObjectError, Place as Refused, Recording, Script, Sheet, Span, Sym, TextError, UNBOUND,
    Unwritable, read_draft, symbols_named,
};

use super::Failure;
use super::calls::{binding, call_of_entry, making, second_place, wrong_word};
use super::diagnostic::{Diagnostic, Place};
use super::options::{Form, Options, input_text, is_dash};
use super::source::{Source, TextSource, form_of, text_of};

/// A sheet, and how to record it.
pub struct Input {
    pub file: String,
    pub arch: Arch,
    pub symbols: u32,
    /// The calls; of a text, up to its first error, and of a binary sheet, up to the first that breaks its form.
    pub calls: Vec<Call>,
    /// The labels that have names, by number.
    pub names: Vec<(u32, String)>,
    /// The symbols' names, by number from 0.
    pub symbol_names: Vec<String>,
    /// The symbols that labels define.
    pub definitions: Vec<Definition>,
    source: Source,
    /// Whether option or sheet says the architecture.
    names_arch: bool,
    /// What is wrong with the text, which has been read up to there.
    errors: Vec<TextError>,
    has_more_errors: bool,
}

impl Input {
    pub fn read(options: &Options, file: &OsStr) -> Result<Self, Failure> {
        let bytes = bytes_of(file);
        let file = input_text(file);
        let bytes = bytes.map_err(|error| {
            let message = Diagnostic::error(format!("can't be read: {error}"));
            Failure::unusable(message.at(Place::file(&file)))
        })?;
        match options.form.unwrap_or_else(|| form_of(&bytes)) {
            Form::Text => Self::from_text(file, options, &bytes),
            Form::Binary => Ok(Self::from_binary(file, options, bytes)),
        }
    }

    fn from_text(file: String, options: &Options, bytes: &[u8]) -> Result<Self, Failure> {
        let text = text_of(bytes).map_err(|(columns, sentence)| {
            let place = Place::columns(&file, columns);
            Failure::unusable(Diagnostic::error(sentence).at(place))
        })?;
        let Draft {
            script,
            mut errors,
            has_more_errors,
        } = read_draft(options.arch, &text);
        let named = options.arch.or(script.arch);
        let symbols = options.symbols.or(script.symbols);
        let symbols = symbols.unwrap_or_else(|| all_named(&script));
        if errors.is_empty() {
            errors.extend(script.undeclared_definition(symbols));
        }
        Ok(Self {
            file,
            arch: named.unwrap_or(Arch::X64),
            symbols,
            calls: script.calls,
            names: script.names,
            symbol_names: script.symbol_names,
            definitions: script.definitions,
            source: Source::Text(TextSource {
                text,
                sources: script.sources,
                statements: script.statements,
            }),
            names_arch: named.is_some(),
            errors,
            has_more_errors,
        })
    }

    fn from_binary(file: String, options: &Options, bytes: Vec<u8>) -> Self {
        let calls: Vec<Call> =
            Sheet::read(&bytes).map_or(Vec::new(), |sheet| sheet.calls().collect());
        Self {
            file,
            arch: options.arch.unwrap_or(Arch::X64),
            symbols: options.symbols.unwrap_or_else(|| symbols_named(&calls)),
            calls,
            names: Vec::new(),
            symbol_names: Vec::new(),
            definitions: Vec::new(),
            source: Source::Binary(bytes),
            names_arch: options.arch.is_some(),
            errors: Vec::new(),
            has_more_errors: false,
        }
    }

    /// That the text is as it should be, or all that is wrong with it.
    pub fn check(&self) -> Result<(), Failure> {
        let (Source::Text(source), false) = (&self.source, self.errors.is_empty()) else {
            return Ok(());
        };
        let errors = self.errors.iter();
        let mut diagnostics: Vec<Diagnostic> = errors
            .map(|error| Diagnostic::malformed(&self.file, &source.text, error))
            .collect();
        if self.has_more_errors {
            diagnostics.push(Diagnostic::note("there are further errors"));
        }
        Err(Failure::all_unusable(diagnostics))
    }

    /// A buffer for the sheet, with the names and definitions that it gives.
    pub fn buffer(&self) -> CodeBuffer {
        let mut buffer = CodeBuffer::with_symbols(self.arch, self.symbols);
        for (label, name) in &self.names {
            buffer.name_label(Label::from_id(*label), name);
        }
        for (symbol, name) in (0..).zip(&self.symbol_names) {
            buffer.name_symbol(Sym::from_id(symbol), name);
        }
        for definition in &self.definitions {
            buffer.bind_symbol(definition.symbol.clone(), Label::from_id(definition.label));
        }
        buffer
    }

    /// Records the sheet, up to the first call that is refused.
    pub fn record(&self, buffer: &mut CodeBuffer) -> Result<(), Failure> {
        let Source::Binary(sheet) = &self.source else {
            for (index, call) in self.calls.iter().enumerate() {
                if let Err(error) = buffer.call(call) {
                    let message = self.as_written(index, &error, buffer.cur_offset());
                    return Err(self.refused(index, &error, message, &buffer.recording()));
                }
            }
            return Ok(());
        };
        buffer.run_sheet(sheet).map_err(|error| {
            let place = match error.place() {
                Refused::Call {
                    index: Some(call), ..
                } => Place::call(&self.file, call),
                _ => Place::file(&self.file),
            };
            let message = Diagnostic::refusal(&error).at(place);
            Failure::refused(message.with(self.hint(&error)))
        })
    }

    /// A refused call in the words of its statement: zeros are one call there, and many here.
    fn as_written(&self, call: usize, error: &Error, offset: u32) -> Diagnostic {
        let Source::Text(source) = &self.source else {
            return Diagnostic::refusal(error);
        };
        let words = source.words(call);
        let [name, count] = words[..] else {
            return Diagnostic::refusal(error);
        };
        let name = source.word(name);
        let is_zeros = name.eq_ignore_ascii_case("zeros") || name.eq_ignore_ascii_case("z");
        if error.number() != 12 || !is_zeros {
            return Diagnostic::refusal(error);
        }
        let before = self.bytes_of_statement(source, call, source.word(count));
        let sentence = format!(
            "{} zeros at {} pass the end of the code, which has at most 16,777,216 bytes",
            source.word(count),
            offset - before
        );
        Diagnostic::refusal_of("zeros", error, &sentence)
    }

    /// How many bytes the calls before this one added for the same `zeros`.
    fn bytes_of_statement(&self, source: &TextSource, call: usize, count: &str) -> u32 {
        let size = |call: usize| match &self.calls[call] {
            Call::Bytes(bytes) => bytes.len() as u64,
            _ => 0,
        };
        let written = match count.strip_prefix("0x").or(count.strip_prefix("0X")) {
            Some(digits) => u64::from_str_radix(digits, 16),
            None => count.parse(),
        };
        let same = |other: &usize| source.sources[*other] == source.sources[call];
        let before: u64 = (0..call).rev().take_while(same).map(size).sum();
        // In a group, whole statements of the same kind stand before it too.
        (before % written.unwrap_or(u64::MAX).max(1)) as u32
    }

    /// What no object can hold, with the place in the file that it goes back to.
    pub fn no_object(&self, error: &ObjectError, recording: &Recording) -> Failure {
        if let ObjectError::Relocations(error) = error {
            return self.refused_finish(error, recording);
        }
        let place = wrong_relocation(error)
            .and_then(|(relocation, word)| self.place_of_relocation(relocation, word));
        let place = place.unwrap_or_else(|| Place::file(&self.file));
        Failure::unusable(Diagnostic::error(error.to_string()).at(place))
    }

    /// Where a word of a relocation stands, which is given by its index.
    pub fn place_of_relocation(&self, relocation: usize, word: usize) -> Option<Place> {
        let call = call_of_entry(&self.calls, self.arch, Entry::Reloc(relocation))?;
        Some(self.place_of(call, word))
    }

    /// A refusal at the call that made an entry; without one, of the file as a whole.
    pub fn refusal_of_entry(&self, error: &Error) -> Diagnostic {
        let place = match error.entry() {
            Some(Entry::Definition(index)) => self.place_at(self.definitions[index].symbol_place),
            Some(entry) => {
                let call = call_of_entry(&self.calls, self.arch, entry);
                call.map(|call| self.place_of(call, wrong_word(&self.calls[call], error)))
            }
            None => None,
        };
        let place = place.unwrap_or_else(|| Place::file(&self.file));
        Diagnostic::refusal(error).at(place)
    }

    /// A place of a text.
    pub fn place_at(&self, place: Span) -> Option<Place> {
        match &self.source {
            Source::Text(source) => Some(Place::in_text(&self.file, &source.text, place)),
            Source::Binary(_) => None,
        }
    }

    /// A refused finish, or what is refused of a finished recording, with the place in the file that it goes back to.
    pub fn refused_finish(&self, error: &Error, recording: &Recording) -> Failure {
        let entry = error.entry();
        let call = match (error.number(), entry) {
            (13, Some(Entry::Asked(asked))) => self.bound_constant(asked, recording),
            _ => entry.and_then(|entry| call_of_entry(&self.calls, self.arch, entry)),
        };
        match call {
            Some(call) => self.refused(call, error, Diagnostic::refusal(error), recording),
            None => Failure::refused(Diagnostic::refusal(error).at(Place::file(&self.file))),
        }
    }

    /// The call that binds the label of a constant, which is for finish to bind.
    fn bound_constant(&self, asked: usize, recording: &Recording) -> Option<usize> {
        let constant = recording.asked.get(asked)?.id() as usize;
        binding(&self.calls, recording.constants[constant].label?.id())
    }

    /// A refusal at its call, with a note of a second one where there is one, and what may help.
    fn refused(
        &self,
        call: usize,
        error: &Error,
        message: Diagnostic,
        recording: &Recording,
    ) -> Failure {
        let word = wrong_word(&self.calls[call], error);
        let second = second_place(&self.calls, call, error, recording);
        let second = second.and_then(|(other, note)| self.second(call, word, other, note));
        let message = message
            .at(self.place_of(call, word))
            .with(second)
            .with(self.hint(error))
            .with(self.meant_label(call, error, recording));
        Failure::refused(message)
    }

    /// A note about a second call, unless it stands where the first does.
    fn second(&self, call: usize, word: usize, other: usize, note: String) -> Option<Diagnostic> {
        if let Source::Text(source) = &self.source {
            let place = |call: usize, word| source.place(call, &self.calls[call], word);
            if source.statement(call) == source.statement(other) {
                return Some(Diagnostic::note("a group repeats this call"));
            }
            if place(call, word) == place(other, 0) {
                return None;
            }
        }
        Some(Diagnostic::note(note).at(self.place_of(other, 0)))
    }

    /// What may help where a kind is foreign to the architecture.
    fn hint(&self, error: &Error) -> Option<Diagnostic> {
        match &self.source {
            _ if error.number() != 7 => None,
            Source::Binary(_) => self.unsaid_arch(),
            Source::Text(_) if self.names_arch => None,
            Source::Text(_) => Some(Diagnostic::note(
                "the text names no architecture, so X64 is taken; \
                 'arch aarch64' in front of it, or --arch, names another",
            )),
        }
    }

    /// That a binary sheet may have been made for another architecture than it is read for.
    pub fn unsaid_arch(&self) -> Option<Diagnostic> {
        let Source::Binary(_) = self.source else {
            return None;
        };
        let taken = if self.names_arch {
            "was asked for"
        } else {
            "is taken where --arch names none"
        };
        let arch = self.arch;
        Some(Diagnostic::note(format!(
            "a binary sheet does not say its architecture: {arch} {taken}; try another --arch"
        )))
    }

    /// What a name was perhaps meant to be that made a label which is not bound: a bound label's name, or in a relocation a symbol's.
    fn meant_label(&self, call: usize, error: &Error, recording: &Recording) -> Option<Diagnostic> {
        let (15, Source::Text(source)) = (error.number(), &self.source) else {
            return None;
        };
        let made = &self.calls[call];
        let place = source.place(call, made, wrong_word(made, error));
        let word = source.word(place);
        let Some((label, _)) = self.names.iter().find(|(_, name)| name == word) else {
            return None;
        };
        let bound = self.names.iter().filter(|(label, _)| {
            let offset = recording.labels.get(*label as usize);
            offset.is_some_and(|offset| *offset != UNBOUND)
        });
        let symbols = match made {
            Call::Relocation { .. } => &self.symbol_names[..],
            _ => &[],
        };
        let meant = bound.map(|(_, name)| name).chain(symbols);
        let sentence = match nearest(word, meant.map(String::as_str)) {
            Some(near) => format!("did you mean '{near}'?"),
            None if self.looks_like_symbol(source, *label, word, recording) => {
                format!("is 'symbols {}' missing?", shown(word))
            }
            None => return None,
        };
        Some(Diagnostic::note(sentence))
    }

    /// Whether no call but relocations has to do with a label: their first mention of its name makes it.
    fn looks_like_symbol(
        &self,
        source: &TextSource,
        label: u32,
        name: &str,
        recording: &Recording,
    ) -> bool {
        let made = making(&self.calls, label);
        let is_made_by_mention = made.is_some_and(|made| {
            // A call that makes the label would have words beside the name.
            source.word(source.statement(made)) == name
        });
        let mut open = recording.open_labels().into_iter();
        let open = open.find(|open| open.label.id() == label);
        let is_relocation = |entry: &Entry| matches!(entry, Entry::Reloc(_));
        is_made_by_mention && open.is_some_and(|open| open.entries.iter().all(is_relocation))
    }

    pub fn unwritable(&self, error: &Unwritable) -> Failure {
        let message = Diagnostic::error(error.to_string());
        Failure::unusable(message.at(self.place_of(error.index, 1)))
    }

    /// Where a word of a call stands; of a binary sheet, the call as a whole.
    pub fn place_of(&self, call: usize, word: usize) -> Place {
        match &self.source {
            Source::Text(source) => {
                let place = source.place(call, &self.calls[call], word);
                Place::in_text(&self.file, &source.text, place)
            }
            Source::Binary(_) => Place::call(&self.file, call),
        }
    }

    pub fn is_text(&self) -> bool {
        matches!(self.source, Source::Text(_))
    }

    /// Whether the calls are all that the file has: not those of a binary sheet that breaks its form, of which none is made.
    pub fn is_whole(&self) -> bool {
        match &self.source {
            Source::Text(_) => true,
            Source::Binary(bytes) => {
                Sheet::read(bytes).is_ok_and(|sheet| sheet.len() == self.calls.len())
            }
        }
    }

    /// The line of each call and the statement there that makes it; of a binary sheet its index alone.
    pub fn places(&self) -> Vec<(usize, Option<&str>)> {
        match &self.source {
            Source::Text(source) => source.lines_and_statements(),
            Source::Binary(_) => (0..self.calls.len()).map(|call| (call, None)).collect(),
        }
    }

    /// The line of each call and its text; nothing of a binary sheet.
    pub fn lines(&self) -> Option<Vec<(usize, &str)>> {
        match &self.source {
            Source::Text(source) => Some(source.lines()),
            Source::Binary(_) => None,
        }
    }

    /// `line 6`, or `call 3` of a binary sheet.
    pub fn where_is(&self, call: usize) -> String {
        self.where_are(&[call])
    }

    /// `lines 9, 11`, or `calls 3, 5` of a binary sheet.
    pub fn where_are(&self, calls: &[usize]) -> String {
        const MOST: usize = 16;
        let (noun, mut numbers): (&str, Vec<usize>) = match &self.source {
            Source::Text(source) => {
                let line = |call: &usize| source.statement(*call).line as usize;
                ("line", calls.iter().map(line).collect())
            }
            Source::Binary(_) => ("call", calls.to_vec()),
        };
        numbers.dedup();
        let shown: Vec<String> = numbers.iter().take(MOST).map(usize::to_string).collect();
        let plural = if numbers.len() == 1 { "" } else { "s" };
        let more = match numbers.len().saturating_sub(MOST) {
            0 => String::new(),
            more => format!(" and {more} more"),
        };
        format!("{noun}{plural} {}{more}", shown.join(", "))
    }

    /// The indices of some calls.
    pub fn calls_where(&self, wanted: impl Fn(&Call) -> bool) -> impl Iterator<Item = usize> {
        let calls = self.calls.iter().enumerate();
        calls.filter(move |(_, call)| wanted(call)).map(|(i, _)| i)
    }

    /// The call that made each event of the recording, its alignments noted.
    pub fn event_calls(&self) -> Vec<usize> {
        let makes_event = |call: &Call| LayoutEvent::is_made_by(call, self.arch);
        self.calls_where(makes_event).collect()
    }

    /// Where each event of the recording comes from.
    pub fn event_places(&self) -> Vec<String> {
        let calls = self.event_calls().into_iter();
        calls.map(|call| self.where_is(call)).collect()
    }
}

/// How many symbols a text names that does not say how many there are.
fn all_named(script: &Script) -> u32 {
    let defined = script.definitions.iter();
    let defined = defined.filter_map(|definition| match definition.symbol {
        ExternalName::Number(number) => Some(number + 1),
        ExternalName::Name(_) => None,
    });
    defined.fold(symbols_named(&script.calls), u32::max)
}

/// The relocation that no object can hold, by its index, and the word that is wrong with it.
pub fn wrong_relocation(error: &ObjectError) -> Option<(usize, usize)> {
    match error {
        ObjectError::FieldPastEnd { relocation, .. } => Some((*relocation, 1)),
        ObjectError::LabelInGot { relocation, .. } => Some((*relocation, 3)),
        _ => None,
    }
}

fn bytes_of(file: &OsStr) -> io::Result<Vec<u8>> {
    if !is_dash(file) {
        return fs::read(file);
    }
    let mut bytes = Vec::new();
    io::stdin().lock().read_to_end(&mut bytes)?;
    Ok(bytes)
}
