//! The labels of a text: how many are made by a place in it, and their names.

use std::collections::HashMap;

use crate::suggest::meant;
use crate::tokens::Token;
use crate::words::{number, starts_number};
use crate::{Call, Span, TextError, counted};

/// The labels made by a place in a text.
#[derive(Default)]
pub(crate) struct Labels<'a> {
    count: u32,
    /// The label of each constant that was asked for.
    asked: HashMap<u32, u32>,
    named: HashMap<&'a str, Named>,
    /// Where the labels of constants are given their names.
    names_of_constants: HashMap<u32, Token<'a>>,
    /// The names of labels that no call of the text makes, by number: their first mention does.
    unwritten: HashMap<u32, &'a str>,
    /// The first label that may be another, since a wrong statement before it may have made labels. Of such labels none is said to be wrong, and none
    /// is sure: the text is read again, up to that statement.
    doubtful: Option<u32>,
}

#[derive(Clone, Copy)]
struct Named {
    label: u32,
    place: Span,
}

/// Whether a word may be the name of a label or symbol: a letter, `_` or `.`, then letters, digits, `_`, `.` and `$`.
pub(crate) fn is_name(word: &str) -> bool {
    let first = |c: char| c.is_alphabetic() || matches!(c, '_' | '.');
    let other = |c: char| first(c) || c.is_numeric() || c == '$';
    word.starts_with(first) && word.chars().all(other)
}

/// A word that is to be the name of a label or symbol.
pub(crate) fn name<'a>(word: Token<'a>) -> Result<&'a str, TextError> {
    if is_name(word.text) {
        return Ok(word.text);
    }
    Err(word.error(format!(
        "{} is no name: one is a letter, '_' or '.', then letters, digits, '_', '.' and '$'",
        word.quoted()
    )))
}

impl<'a> Labels<'a> {
    /// Notes what a call makes.
    pub fn note(&mut self, call: &Call) {
        match call {
            Call::NewLabel => self.count = self.count.saturating_add(1),
            Call::ConstantLabel(constant) => {
                let (asked, count) = (&mut self.asked, &mut self.count);
                asked.entry(*constant).or_insert_with(|| {
                    *count = count.saturating_add(1);
                    *count - 1
                });
            }
            _ => {}
        }
    }

    /// Notes that calls which make so many labels stand there so many times more.
    pub fn note_repeated(&mut self, new_labels: usize, times: usize) {
        let more = u32::try_from(new_labels.saturating_mul(times)).unwrap_or(u32::MAX);
        self.count = self.count.saturating_add(more);
    }

    /// Counts again, from calls of which some were left out.
    pub fn recount<'c>(&mut self, calls: impl IntoIterator<Item = &'c Call>) {
        self.count = 0;
        self.asked.clear();
        for call in calls {
            self.note(call);
        }
    }

    /// Notes that a wrong statement may have made labels.
    pub fn doubt(&mut self) {
        self.doubtful.get_or_insert(self.count);
    }

    fn is_doubtful(&self, label: u32) -> bool {
        self.doubtful.is_some_and(|first| first <= label)
    }

    pub fn knows(&self, name: &str) -> bool {
        self.named.contains_key(name)
    }

    /// Gives a name to the label that the next call makes.
    pub fn name_next(&mut self, name: Token<'a>) -> Result<(), TextError> {
        self.insert(name, self.count)
    }

    /// Gives a name to the label of a constant, or the same name once more.
    pub fn name_of_constant(&mut self, name: Token<'a>, constant: u32) -> Result<(), TextError> {
        let label = self.asked.get(&constant).copied();
        match self.names_of_constants.get(&constant) {
            Some(first) if first.text == name.text => Ok(()),
            Some(first) => Err(name
                .error(format!(
                    "the label of constant {constant} has the name {} already, and can't have {} too",
                    first.quoted(),
                    name.quoted()
                ))
                .with_note(Some(first.place), "the name is given here")),
            None => {
                self.insert(name, label.unwrap_or(self.count))?;
                self.names_of_constants.insert(constant, name);
                Ok(())
            }
        }
    }

    /// Gives a name to the label that is made because it is first mentioned here.
    pub fn name_unwritten(&mut self, name: Token<'a>) -> Result<(), TextError> {
        self.unwritten.insert(self.count, name.text);
        self.insert(name, self.count)
    }

    fn insert(&mut self, word: Token<'a>, label: u32) -> Result<(), TextError> {
        let name = name(word)?;
        if let Some(known) = self.named.get(name) {
            let sentence = format!("the label {} is made already", word.quoted());
            let note = "it is made where it is first named, here";
            return Err(word.error(sentence).with_note(Some(known.place), note));
        }
        let place = word.place;
        self.named.insert(name, Named { label, place });
        Ok(())
    }

    /// The number of a label that is given by number or name.
    pub fn number_of(&self, word: Token<'_>) -> Result<u32, TextError> {
        if starts_number(word.text) {
            return self.written(word, number(word)?);
        }
        match self.named.get(word.text) {
            Some(named) => Ok(named.label),
            None => Err(word.error(format!(
                "{} is no label: write its number or its name",
                word.quoted()
            ))),
        }
    }

    /// The number of a label that the whole text makes.
    pub fn made(&self, word: Token<'_>) -> Result<u32, TextError> {
        if starts_number(word.text) {
            let label = self.written(word, number(word)?)?;
            if label < self.count || self.is_doubtful(label) {
                return Ok(label);
            }
            let made = counted(self.count as usize, "label");
            return Err(word.error(format!("label {label} is unknown: the text makes {made}")));
        }
        if let Some(named) = self.named.get(word.text) {
            return Ok(named.label);
        }
        if self.doubtful.is_some() && is_name(word.text) {
            return Ok(self.count);
        }
        let mut names: Vec<&str> = self.named.keys().copied().collect();
        names.sort_unstable();
        let meant = meant(word.text, names).unwrap_or_default();
        Err(word.error(format!("there is no label {}{meant}", word.quoted())))
    }

    /// A label's number, unless the label was made for a name: whoever counts the calls that make labels does not count it.
    pub fn written(&self, word: Token<'_>, label: u32) -> Result<u32, TextError> {
        let Some(name) = self
            .unwritten
            .get(&label)
            .filter(|_| !self.is_doubtful(label))
        else {
            return Ok(label);
        };
        let sentence = format!("label {label} is '{name}', which no call makes: write its name");
        let note = format!("its first mention, here, makes it; 'label {name}' before would too");
        let place = self.named.get(name).map(|named| named.place);
        Err(word.error(sentence).with_note(place, note))
    }

    /// Whether a word that spells a label's or symbol's number in a relocation is a label's name too.
    pub fn check_target(&self, word: Token<'_>) -> Result<(), TextError> {
        let Some(named) = self.named.get(word.text) else {
            return Ok(());
        };
        let sentence = format!(
            "{} is a number's spelling in a relocation, and a label's name: give the label another",
            word.quoted()
        );
        Err(word
            .error(sentence)
            .with_note(Some(named.place), "the name is given here"))
    }

    /// Every name with its label's number.
    pub fn names(self) -> Vec<(u32, String)> {
        let mut names: Vec<(u32, String)> = self
            .named
            .into_iter()
            .map(|(name, named)| (named.label, name.to_owned()))
            .collect();
        names.sort_unstable();
        names
    }
}
