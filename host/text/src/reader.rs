//! Statements and groups, read into steps.

use crate::definitions::{Define, Definition, definitions};
use crate::draft::MOST_ERRORS;
use crate::groups::Groups;
use crate::labels::{Labels, is_name, name as label_name};
use crate::symbols::Symbols;
use crate::text_call::{
    Arguments, COMMENT, Step, long_word, mentioned_label, no_call, numbered_argument,
};
use crate::tokens::Token;
use crate::words::{architecture, number, starts_number};
use crate::{Arch, Call, Span, TextCall, TextError};

/// The most calls of a text, its groups written out: far beyond what tables hold, and little enough to keep in memory.
const MOST_CALLS: usize = 1 << 22;

/// How deep groups may be nested.
const MOST_NESTING: usize = 16;

/// A text as it is written: what every statement makes, groups written out.
pub(crate) struct Steps {
    pub arch: Option<Arch>,
    pub symbols: Option<u32>,
    /// Each step, and the index of the statement that it comes from.
    pub steps: Vec<(Step, u32)>,
    pub statements: Vec<Span>,
    pub names: Vec<(u32, String)>,
    pub symbol_names: Vec<String>,
    pub definitions: Vec<Definition>,
}

/// What the tokens before `end` say, with what is wrong there. Groups that are open at `end` are written out once.
pub(crate) fn read_steps(tokens: &[Token<'_>], end: usize) -> (Steps, Vec<TextError>) {
    let mut reader = Reader {
        tokens,
        groups: Groups::new(tokens),
        at: 0,
        end,
        arch: None,
        symbols: Symbols::default(),
        steps: Vec::new(),
        statements: Vec::new(),
        labels: Labels::default(),
        numbered_targets: Vec::new(),
        defines: Vec::new(),
        errors: Vec::new(),
        has_unclosed_group: false,
        has_too_many_calls: false,
    };
    reader.statements(0);
    let mut errors = reader.errors;
    let targets = reader.numbered_targets.iter();
    let wrong = targets.filter_map(|word| reader.labels.check_target(*word).err());
    errors.extend(wrong.take(MOST_ERRORS + 1));
    let (definitions, wrong) = definitions(&reader.defines, &reader.labels, &reader.symbols);
    errors.extend(wrong);
    let steps = Steps {
        arch: reader.arch.map(|(arch, _)| arch),
        symbols: reader.symbols.count(),
        steps: reader.steps,
        statements: reader.statements,
        names: reader.labels.names(),
        symbol_names: reader.symbols.names(),
        definitions,
    };
    (steps, errors)
}

pub(crate) fn check_count(calls: usize, place: Span) -> Result<(), TextError> {
    if calls > MOST_CALLS {
        let sentence = format!("there are more than {MOST_CALLS} calls by here");
        return Err(TextError::new(place, sentence));
    }
    Ok(())
}

struct Reader<'t, 'a> {
    tokens: &'t [Token<'a>],
    groups: Groups,
    at: usize,
    /// Where reading ends.
    end: usize,
    /// The architecture, and where it is said.
    arch: Option<(Arch, Span)>,
    symbols: Symbols<'a>,
    steps: Vec<(Step, u32)>,
    statements: Vec<Span>,
    labels: Labels<'a>,
    /// Words such as `l0`, which no label may have for its name.
    numbered_targets: Vec<Token<'a>>,
    /// What is defined, to be read once all labels are made.
    defines: Vec<Define<'a>>,
    errors: Vec<TextError>,
    /// Whether it was said that a group is not closed. What stands after its `(` is read as if it stood in no group.
    has_unclosed_group: bool,
    /// Whether it was said that there are too many calls. Further ones are not kept.
    has_too_many_calls: bool,
}

impl<'a> Reader<'_, 'a> {
    fn peek(&self) -> Option<Token<'a>> {
        self.tokens[..self.end].get(self.at).copied()
    }

    fn take(&mut self, text: &str) -> bool {
        let found = self.peek().is_some_and(|token| token.text == text);
        self.at += usize::from(found);
        found
    }

    /// Statements up to the end of the text or of a group. What is wrong with one is noted, and reading goes on after it.
    fn statements(&mut self, nesting: usize) {
        while let Some(token) = self.peek() {
            let read = match token.text {
                ")" if nesting > 0 => return,
                ")" => {
                    self.at += 1;
                    Err(token.error("')' closes no group"))
                }
                ";" => {
                    self.at += 1;
                    Ok(())
                }
                "(" => {
                    self.group_without_count(nesting);
                    Err(token.error("a group is written COUNT ( CALLS ), and the count is missing"))
                }
                text if text.ends_with(':') => self.binding(token),
                text if starts_number(text) => self.group(token, nesting),
                _ => self.statement(token, nesting),
            };
            if let Err(error) = read {
                self.note_error(error);
            }
        }
    }

    /// Notes what is wrong. Where that is more than is ever said, reading ends here.
    fn note_error(&mut self, error: TextError) {
        self.errors.push(error);
        if self.errors.len() > MOST_ERRORS {
            self.end = self.end.min(self.at);
            self.labels.doubt();
        }
    }

    fn group(&mut self, count: Token<'a>, nesting: usize) -> Result<(), TextError> {
        let times = number(count);
        self.at += 1;
        if self.peek().is_none_or(|token| token.text != "(") {
            self.at += self.words_from(self.at).len();
            self.pass_parentheses(nesting);
            self.labels.doubt();
            times?;
            return Err(count.error(format!(
                "{} starts no call; a group is written COUNT ( CALLS )",
                count.quoted()
            )));
        }
        let Some(end) = self.groups.end(self.at) else {
            self.group_without_count(nesting);
            return times.and_then(|_| self.unclosed(count));
        };
        if nesting == MOST_NESTING {
            self.group_without_count(nesting);
            return Err(count.error(format!("groups are nested deeper than {MOST_NESTING}")));
        }
        let Ok(times) = times else {
            self.group_without_count(nesting);
            return times.map(|_| ());
        };
        self.at += 1;
        if nesting == 0 {
            self.make_labels_of_group();
        }
        let start = self.steps.len();
        self.statements(nesting + 1);
        self.take(")");
        let times = if end < self.end { times } else { times.min(1) };
        self.repeat(start, times as usize, count.place);
        Ok(())
    }

    /// The one error of all groups that are not closed: the first may be the only one that lacks its `)`.
    fn unclosed(&mut self, count: Token<'a>) -> Result<(), TextError> {
        if std::mem::replace(&mut self.has_unclosed_group, true) {
            return Ok(());
        }
        Err(count.error("this group is not closed by ')'"))
    }

    /// Reads what stands after a `(` that starts no proper group: once, up to its `)` if it has one. What is nested too deep is passed over.
    fn group_without_count(&mut self, nesting: usize) {
        let end = self.groups.end(self.at);
        self.labels.doubt();
        self.at += 1;
        match end {
            None => {}
            Some(end) if nesting == MOST_NESTING => self.at = end + 1,
            Some(_) => {
                self.statements(nesting + 1);
                self.take(")");
            }
        }
    }

    /// Passes over parentheses after a wrong statement. Those that end in another line are perhaps a group, and are read.
    fn pass_parentheses(&mut self, nesting: usize) {
        while let Some(token) = self.peek().filter(|token| token.text == "(") {
            match self.groups.end(self.at) {
                Some(end) if self.tokens[end].place.line == token.place.line => {
                    self.at = end + 1;
                    self.at += self.words_from(self.at).len();
                }
                _ => self.group_without_count(nesting),
            }
        }
    }

    /// Makes, in front of a group, the labels that it is the first to name: a group would make them as often as it is repeated.
    /// What is wrong with a mention is said where its statement is read.
    fn make_labels_of_group(&mut self) {
        let mut nesting = 1;
        let mut at = self.at;
        while nesting > 0
            && let Some(token) = self.tokens.get(at).copied()
        {
            at += 1;
            match token.text {
                "(" => nesting += 1,
                ")" => nesting -= 1,
                ";" => {}
                text => {
                    let words = self.words_from(at).to_vec();
                    let _ = self.make_mentioned(token, &words);
                    if !text.ends_with(':') {
                        at += words.len();
                    }
                }
            }
        }
    }

    /// The words from a token on, up to what separates them from the next statement.
    fn words_from(&self, start: usize) -> &[Token<'a>] {
        let rest = self.tokens.get(start..).unwrap_or_default();
        let length = rest.iter().take_while(|token| token.is_word()).count();
        &rest[..length]
    }

    /// Writes out the steps from `start` on, so that they stand there `times` times.
    fn repeat(&mut self, start: usize, times: usize, place: Span) {
        let end = self.steps.len();
        if times == 0 {
            self.steps.truncate(start);
            self.labels.recount(self.steps.iter().filter_map(made_call));
        }
        if start == self.steps.len() {
            return;
        }
        let made = self.steps[start..].iter().filter_map(made_call);
        let new_labels = made.filter(|call| **call == Call::NewLabel).count();
        self.labels.note_repeated(new_labels, times - 1);
        let total = (end - start).saturating_mul(times).saturating_add(start);
        if self.has_room(total, place) {
            for _ in 1..times {
                self.steps.extend_from_within(start..end);
            }
        }
    }

    /// Whether so many calls are few enough. The first time that they are not is an error.
    fn has_room(&mut self, calls: usize, place: Span) -> bool {
        let Err(error) = check_count(calls, place) else {
            return true;
        };
        if !std::mem::replace(&mut self.has_too_many_calls, true) {
            self.note_error(error);
        }
        false
    }

    /// A directive or a call, up to what separates it from the next.
    fn statement(&mut self, name: Token<'a>, nesting: usize) -> Result<(), TextError> {
        let start = self.at;
        let words = self.words_from(start + 1).to_vec();
        self.at += 1 + words.len();
        let read = match long_word(name.text) {
            Some(directive @ ("arch" | "symbols")) => self.directive(directive, name, &words),
            Some("define") => self.define(name, &words, nesting),
            Some(_) => self.call(name, &words, nesting),
            None => Err(self.no_call(start)),
        };
        if read.is_err() {
            self.make_anyway(name, &words);
            self.pass_parentheses(nesting);
            return read;
        }
        match self.peek() {
            Some(token) if token.text == "(" => {
                self.group_without_count(nesting);
                Err(token.error("'(' follows a call; a group is written COUNT ( CALLS )"))
            }
            _ => Ok(()),
        }
    }

    /// A token that starts a statement and is no call, with a note where it looks like a comment.
    fn no_call(&self, start: usize) -> TextError {
        let name = self.tokens[start];
        let error = no_call(name);
        let before = start.checked_sub(1).map(|before| self.tokens[before]);
        let follows_semicolon =
            before.is_some_and(|before| before.text == ";" && before.place.line == name.place.line);
        match follows_semicolon || name.text.starts_with("//") {
            true => error.with_note(None, COMMENT),
            false => error,
        }
    }

    /// Makes the label that a wrong statement was to make, so that later statements are not wrong because of it.
    fn make_anyway(&mut self, name: Token<'a>, words: &[Token<'a>]) {
        let known = long_word(name.text);
        let given = match known {
            Some("label") => words.first(),
            Some("constant-label") => words.get(1),
            _ => None,
        };
        // A name that is none, or is given already, is what was wrong.
        let _ = given.map(|given| self.labels.name_next(*given));
        match known {
            Some("label") => self.push(call_step(Call::NewLabel), name.place),
            Some("constant-label") | None => self.labels.doubt(),
            Some(_) => {}
        }
    }

    fn directive(
        &mut self,
        directive: &str,
        name: Token<'a>,
        words: &[Token<'a>],
    ) -> Result<(), TextError> {
        let is_first = self.steps.is_empty();
        let read = match directive {
            "symbols" => self.count_or_name_symbols(name, words),
            _ if is_first => self.set_arch(name, words),
            _ => Ok(()),
        };
        if is_first {
            return read;
        }
        let sentence = format!("'{directive}' stands before the first call only");
        Err(name.error(sentence))
    }

    fn count_or_name_symbols(
        &mut self,
        name: Token<'a>,
        words: &[Token<'a>],
    ) -> Result<(), TextError> {
        match words.first() {
            Some(first) if !starts_number(first.text) => self.symbols.name_all(words),
            _ => {
                let count = self.arguments(name, words).one()?;
                self.symbols.set_count(count)
            }
        }
    }

    fn set_arch(&mut self, name: Token<'a>, words: &[Token<'a>]) -> Result<(), TextError> {
        let arch = architecture(self.arguments(name, words).one()?)?;
        if let Some((_, first)) = self.arch {
            let error = name.error("the architecture is said already");
            return Err(error.with_note(Some(first), "it is said here"));
        }
        self.arch = Some((arch, name.place));
        Ok(())
    }

    fn define(
        &mut self,
        name: Token<'a>,
        words: &[Token<'a>],
        nesting: usize,
    ) -> Result<(), TextError> {
        let [symbol, label] = self.arguments(name, words).two()?;
        if nesting > 0 {
            let sentence = "a group would define the symbol as often as it is repeated: \
                            a definition stands outside of groups";
            return Err(name.error(sentence));
        }
        self.defines.push(Define { symbol, label });
        Ok(())
    }

    fn arguments<'w>(&'w self, name: Token<'a>, words: &'w [Token<'a>]) -> Arguments<'w, 'a> {
        Arguments {
            name,
            words,
            labels: &self.labels,
            symbols: &self.symbols,
        }
    }

    fn call(
        &mut self,
        name: Token<'a>,
        words: &[Token<'a>],
        nesting: usize,
    ) -> Result<(), TextError> {
        self.make_mentioned(name, words)?;
        self.numbered_targets.extend(numbered_argument(name, words));
        self.name_made(name, words, nesting)?;
        let step = self.arguments(name, words).step()?;
        let last = words.last().unwrap_or(&name);
        self.push(step, name.place.to(last.place));
        Ok(())
    }

    /// `NAME:` binds a label, and the next statement may follow in its line.
    fn binding(&mut self, word: Token<'a>) -> Result<(), TextError> {
        self.at += 1;
        let label = word.without_colon();
        if !starts_number(label.text) {
            label_name(label)?;
        }
        self.make_mentioned(word, &[])?;
        let number = self.labels.number_of(label)?;
        self.push(call_step(Call::Bind(number)), word.place);
        Ok(())
    }

    /// Makes the label that a statement mentions, if it is named there for the first time.
    fn make_mentioned(&mut self, name: Token<'a>, words: &[Token<'a>]) -> Result<(), TextError> {
        let Some(word) = mentioned_label(name, words, &self.symbols) else {
            return Ok(());
        };
        if !is_name(word.text) || self.labels.knows(word.text) {
            return Ok(());
        }
        self.symbols.check_label(word)?;
        self.labels.name_unwritten(word)?;
        self.push(call_step(Call::NewLabel), word.place);
        Ok(())
    }

    /// Notes the name that a statement gives to the label that it makes.
    fn name_made(
        &mut self,
        name: Token<'a>,
        words: &[Token<'a>],
        nesting: usize,
    ) -> Result<(), TextError> {
        let arguments = self.arguments(name, words);
        let (constant, given) = match long_word(name.text) {
            Some("label") => (None, arguments.perhaps_one()?),
            Some("constant-label") => {
                let (constant, given) = arguments.one_and_perhaps_one()?;
                (Some(number(constant)?), given)
            }
            _ => return Ok(()),
        };
        let Some(given) = given else {
            return Ok(());
        };
        if nesting > 0 {
            let sentence = "a group would make this label as often as it is repeated: \
                            a label with a name is made before";
            return Err(given.error(sentence));
        }
        self.symbols.check_label(given)?;
        match constant {
            Some(constant) => self.labels.name_of_constant(given, constant),
            None => self.labels.name_next(given),
        }
    }

    fn push(&mut self, step: Step, place: Span) {
        if let Step::Call(TextCall::Call(call)) = &step {
            self.labels.note(call);
        }
        if self.has_room(self.steps.len() + 1, place) {
            let statement = self.statements.len() as u32;
            self.statements.push(place);
            self.steps.push((step, statement));
        }
    }
}

fn call_step(call: Call) -> Step {
    Step::Call(TextCall::Call(call))
}

fn made_call((step, _): &(Step, u32)) -> Option<&Call> {
    match step {
        Step::Call(TextCall::Call(call)) => Some(call),
        _ => None,
    }
}
