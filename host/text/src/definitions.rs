//! Symbols that a text defines by its labels, for the rules that it is joined with.

use std::collections::HashMap;
use std::fmt;

use crate::draft::MOST_ERRORS;
use crate::labels::{Labels, is_name, name};
use crate::symbols::Symbols;
use crate::tokens::Token;
use crate::words::{LABEL_TARGET, number, numbered_target, starts_number};
use crate::{Script, Span, TextError, counted, shown};

/// What finished rules share a symbol by: its name, or its number where it has none.
#[derive(Clone, Debug, PartialEq, Eq, PartialOrd, Ord, Hash)]
pub enum ExternalName {
    /// A name; the symbol may have any number in each rule.
    Name(String),
    /// A number, the same in all rules.
    Number(u32),
}

impl From<&str> for ExternalName {
    fn from(name: &str) -> Self {
        Self::Name(name.into())
    }
}

impl From<String> for ExternalName {
    fn from(name: String) -> Self {
        Self::Name(name)
    }
}

/// `symbol sort`, or `symbol 7`.
impl fmt::Display for ExternalName {
    fn fmt(&self, f: &mut fmt::Formatter<'_>) -> fmt::Result {
        match self {
            Self::Name(name) => write!(f, "symbol {}", shown(name)),
            Self::Number(number) => write!(f, "symbol {number}"),
        }
    }
}

/// A symbol that a text defines, and the label that it does so by.
#[derive(Clone, Debug, PartialEq, Eq)]
pub struct Definition {
    /// The symbol: by its name, if the text gives it one.
    pub symbol: ExternalName,
    /// The label's number.
    pub label: u32,
    /// Where the symbol stands.
    pub symbol_place: Span,
    /// Where the label stands, in the same line.
    pub label_place: Span,
}

impl<C> Script<C> {
    /// The first symbol that is defined by number and not below a number of symbols: what is wrong with it, and where.
    pub fn undeclared_definition(&self, symbols: u32) -> Option<TextError> {
        self.definitions
            .iter()
            .find_map(|definition| match definition.symbol {
                ExternalName::Number(number) if number >= symbols => {
                    let known = counted(symbols as usize, "symbol");
                    let sentence = format!("symbol {number} is out of range: there are {known}");
                    Some(TextError::new(definition.symbol_place, sentence))
                }
                _ => None,
            })
    }
}

/// The words of a statement that defines a symbol.
pub(crate) struct Define<'a> {
    pub symbol: Token<'a>,
    pub label: Token<'a>,
}

/// What the statements of a text define, once all its labels are made and its symbols named; and what is wrong with those that define nothing, one
/// more than is ever said.
pub(crate) fn definitions(
    defines: &[Define<'_>],
    labels: &Labels<'_>,
    symbols: &Symbols<'_>,
) -> (Vec<Definition>, Vec<TextError>) {
    let mut places = HashMap::new();
    let (mut definitions, mut errors) = (Vec::new(), Vec::new());
    for define in defines {
        let is_enough = errors.len() > MOST_ERRORS;
        let label = define.label.text;
        // To say which label was meant takes a look at all their names.
        if is_enough && is_name(label) && !labels.knows(label) {
            continue;
        }
        match definition(define, labels, symbols, &mut places) {
            Ok(definition) => definitions.push(definition),
            Err(error) if !is_enough => errors.push(error),
            Err(_) => {}
        }
    }
    (definitions, errors)
}

/// What one of them defines. `places` says where symbols are defined.
fn definition(
    define: &Define<'_>,
    labels: &Labels<'_>,
    symbols: &Symbols<'_>,
    places: &mut HashMap<ExternalName, Span>,
) -> Result<Definition, TextError> {
    let symbol = symbol(define.symbol, symbols)?;
    if let Some(first) = places.get(&symbol) {
        let sentence = format!("{symbol} is defined already");
        let error = define.symbol.error(sentence);
        return Err(error.with_note(Some(*first), "it is defined here"));
    }
    places.insert(symbol.clone(), define.symbol.place);
    symbols.check_label(define.label)?;
    Ok(Definition {
        symbol,
        label: labels.made(define.label)?,
        symbol_place: define.symbol.place,
        label_place: define.label.place,
    })
}

/// A symbol by number, as `7` or `s7`, or by name.
fn symbol(word: Token<'_>, symbols: &Symbols<'_>) -> Result<ExternalName, TextError> {
    let number = if starts_number(word.text) {
        Some((0, number(word)?))
    } else {
        numbered_target(word)?
    };
    match number {
        Some((0, number)) if number >= LABEL_TARGET => Err(word.error(format!(
            "symbol {number} is out of range: symbols have numbers below {LABEL_TARGET}"
        ))),
        Some((0, number)) => Ok(symbols.external(number)),
        Some(_) => Err(word.error(format!(
            "{} is a label's number, and stands where a symbol is meant",
            word.quoted()
        ))),
        None => name(word).map(ExternalName::from),
    }
}

#[cfg(test)]
mod tests {
    use super::*;
    use crate::{TextCall, read_text};

    fn read(text: &str) -> Result<Script<TextCall>, TextError> {
        read_text(text, None, |call, calls| {
            calls.push(call);
            Ok(())
        })
    }

    /// The definitions of a text: symbol, label and line.
    fn defined(text: &str) -> Vec<(ExternalName, u32, u32)> {
        let definitions = read(text).unwrap().definitions.into_iter();
        definitions
            .map(|found| (found.symbol, found.label, found.symbol_place.line))
            .collect()
    }

    fn number(number: u32) -> ExternalName {
        ExternalName::Number(number)
    }

    #[test]
    fn symbols_are_defined_by_number_or_name() {
        let text = "define s7 1\nlabel; label end\ndefine 8 end; define sort 0";
        let expected = [
            (number(7), 1, 1),
            (number(8), 1, 3),
            (ExternalName::from("sort"), 0, 3),
        ];
        assert_eq!(defined(text), expected);
        assert_eq!(defined("c 01; define s1 pi; k 0 pi")[0].1, 0);
        assert_eq!(
            defined("n; define 2147483647 0")[0].0,
            number((1 << 31) - 1)
        );
    }

    #[test]
    fn a_symbol_with_a_name_goes_by_it() {
        let text = "symbols a b; n; define s1 0; define s0 0";
        let names = defined(text).into_iter().map(|definition| definition.0);
        assert!(names.eq(["b", "a"].map(ExternalName::from)));
    }

    #[test]
    fn a_definition_is_no_call() {
        let with = read("define out end\nsymbols puts\njmp end\nend: define s1 end; b C3").unwrap();
        let without = read("\nsymbols puts\njmp end\nend: b C3").unwrap();
        assert_eq!(with.calls, without.calls);
        assert_eq!(with.names, without.names);
        assert_eq!((with.symbols, without.symbols), (Some(1), Some(1)));
        let lines = |script: &Script<TextCall>| -> Vec<u32> {
            let calls = 0..script.calls.len();
            calls.map(|call| script.place(call).line).collect()
        };
        assert_eq!(lines(&with), lines(&without));
    }

    /// Checks what is wrong with a text, in which line and of which word.
    fn fails(text: &str, line: u32, word: &str, sentence: &str) -> TextError {
        let error = read(text).unwrap_err();
        assert_eq!(error.sentence, sentence);
        assert_eq!(error.place.line, line);
        let marked = text.lines().nth(line as usize - 1).unwrap();
        assert_eq!(&marked[error.place.columns()], word);
        error
    }

    #[test]
    fn labels_are_known() {
        let unknown = "label 2 is unknown: the text makes 2 labels";
        fails("n; n\ndefine s0 2", 2, "2", unknown);
        let unknown = "label 0 is unknown: the text makes 0 labels";
        fails("define a 0", 1, "0", unknown);
        let unknown = "there is no label 'ent'; did you mean 'end'?";
        fails("define a ent; end:", 1, "ent", unknown);
        fails("define a x", 1, "x", "there is no label 'x'");
        let unwritten = "label 0 is 'end', which no call makes: write its name";
        fails("end: define a 0", 1, "0", unwritten);
        let symbol = "'puts' is a symbol, and stands where a label is meant: \
                      give one of them another name";
        fails("define a puts\nsymbols puts", 1, "puts", symbol);
    }

    #[test]
    fn symbols_are_spelled_as_symbols() {
        let label = "'l0' is a label's number, and stands where a symbol is meant";
        fails("n; define l0 0", 1, "l0", label);
        let large = "symbol 2147483648 is out of range: symbols have numbers below 2147483648";
        fails("n; define 2147483648 0", 1, "2147483648", large);
        let error = read("n; define a! 0").unwrap_err();
        assert!(error.sentence.starts_with("'a!' is no name"), "{error}");
        let error = read("n; define 7x 0").unwrap_err();
        assert!(error.sentence.starts_with("'7x' is no number"), "{error}");
    }

    #[test]
    fn a_symbol_is_defined_once() {
        let twice = "symbol 7 is defined already";
        let error = fails("n; define 7 0\nn; define s7 1", 2, "s7", twice);
        assert_eq!(error.notes[0].place.unwrap().line, 1);
        let twice = "symbol sort is defined already";
        fails(
            "symbols sort; n; define s0 0; define sort 0",
            1,
            "sort",
            twice,
        );
    }

    #[test]
    fn numbers_are_held_to_the_count_of_symbols() {
        let script = read("n\ndefine s2 0; define sort 0\ndefine 5 0").unwrap();
        assert_eq!(script.undeclared_definition(6), None);
        let error = script.undeclared_definition(5).unwrap();
        assert_eq!(
            error.sentence,
            "symbol 5 is out of range: there are 5 symbols"
        );
        assert_eq!(error.place.line, 3);
        assert_eq!(script.undeclared_definition(2).unwrap().place.line, 2);
    }

    #[test]
    fn definitions_stand_outside_of_groups_with_two_words() {
        let group = "a group would define the symbol as often as it is repeated: \
                     a definition stands outside of groups";
        fails("n; 2 ( define a 0 )", 1, "define", group);
        let few = "define takes SYMBOL LABEL, and 1 word stands here";
        fails("define a", 1, "define", few);
        let many = "define takes SYMBOL LABEL, and 3 words stand here";
        fails("n; define a 0 1", 1, "1", many);
        let error = read("defin a 0").unwrap_err();
        assert!(
            error.sentence.ends_with("did you mean 'define'?"),
            "{error}"
        );
    }
}
