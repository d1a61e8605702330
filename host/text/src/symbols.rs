//! The symbols of a text: how many there are, or their names.

use std::collections::HashMap;

use crate::labels::name;
use crate::tokens::Token;
use crate::words::{is_numbered, number};
use crate::{ExternalName, Span, TextError};

/// The symbols that a text counts or names before its first call.
#[derive(Default)]
pub(crate) struct Symbols<'a> {
    /// How many there are, and where that is said.
    counted: Option<(u32, Span)>,
    /// By number from 0.
    named: Vec<Token<'a>>,
    numbers: HashMap<&'a str, u32>,
}

impl<'a> Symbols<'a> {
    /// Notes how many there are.
    pub fn set_count(&mut self, word: Token<'a>) -> Result<(), TextError> {
        let count = number(word)?;
        if let Some((_, first)) = self.counted {
            let error = word.error("the symbols are counted already");
            return Err(error.with_note(Some(first), "they are counted here"));
        }
        self.counted = Some((count, word.place));
        match self.named.first() {
            Some(first) => Err(counted_and_named(word, first.place)),
            None => Ok(()),
        }
    }

    /// Names the next symbols, those after a wrong name too.
    pub fn name_all(&mut self, words: &[Token<'a>]) -> Result<(), TextError> {
        let named = words.iter().map(|word| self.name_next(*word));
        named.fold(Ok(()), Result::and)
    }

    /// Names the next symbol.
    fn name_next(&mut self, word: Token<'a>) -> Result<(), TextError> {
        let name = name(word)?;
        if is_numbered(word) {
            return Err(word.error(format!(
                "{} is a number's spelling in a relocation: give the symbol another name",
                word.quoted()
            )));
        }
        if let Some(place) = self.place(name) {
            let sentence = format!("the symbol {} is named already", word.quoted());
            return Err(word
                .error(sentence)
                .with_note(Some(place), "it is named here"));
        }
        self.numbers.insert(name, self.named.len() as u32);
        self.named.push(word);
        match self.counted {
            Some((_, first)) => Err(counted_and_named(word, first)),
            None => Ok(()),
        }
    }

    /// A word that is to be a label's name, which no symbol may have.
    pub fn check_label(&self, word: Token<'_>) -> Result<(), TextError> {
        let Some(place) = self.place(word.text) else {
            return Ok(());
        };
        let sentence = format!(
            "{} is a symbol, and stands where a label is meant: give one of them another name",
            word.quoted()
        );
        Err(word
            .error(sentence)
            .with_note(Some(place), "the symbol is named here"))
    }

    pub fn number_of(&self, name: &str) -> Option<u32> {
        self.numbers.get(name).copied()
    }

    /// What the symbol of a number goes by: its name, if it has one.
    pub fn external(&self, number: u32) -> ExternalName {
        match self.named.get(number as usize) {
            Some(word) => word.text.into(),
            None => ExternalName::Number(number),
        }
    }

    fn place(&self, name: &str) -> Option<Span> {
        let number = self.number_of(name)?;
        Some(self.named[number as usize].place)
    }

    /// How many there are, if the text says.
    pub fn count(&self) -> Option<u32> {
        match self.named.len() {
            0 => self.counted.map(|(count, _)| count),
            many => Some(many as u32),
        }
    }

    /// Every name, by number.
    pub fn names(&self) -> Vec<String> {
        let names = self.named.iter();
        names.map(|word| word.text.to_owned()).collect()
    }
}

fn counted_and_named(word: Token<'_>, first: Span) -> TextError {
    let error = word.error("symbols are counted or named, and a text can't do both");
    error.with_note(Some(first), "the first is here")
}
