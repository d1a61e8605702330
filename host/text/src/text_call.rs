//! Calls, from a name and its arguments.

use crate::instructions::written_as_bytes;
use crate::labels::Labels;
use crate::suggest::meant;
use crate::symbols::Symbols;
use crate::tokens::Token;
use crate::words::{
    LABEL_TARGET, bytes, condition, field_code, is_numbered, mnemonic, number, numbered_target,
    relocation_kind, signed,
};
use crate::{Call, Condition, DEFAULT_MOST, TextError, counted};

/// What a text may say in the place of a call.
#[derive(Clone, Debug, PartialEq, Eq)]
pub enum TextCall {
    /// A call.
    Call(Call),
    /// So many zeros, for as many calls as are to carry them.
    Zeros(u32),
    /// A finish amid the calls, which no sheet can hold.
    Finish,
}

/// What a statement makes, wherever it comes to stand.
#[derive(Clone)]
pub(crate) enum Step {
    /// The same call everywhere.
    Call(TextCall),
    /// A jump from wherever it stands, with the room that it needs.
    Branch { label: u32, condition: u32 },
}

/// A word that may start a statement.
struct Word {
    long: &'static str,
    short: &'static str,
    /// Its arguments, and the most words that they are.
    arguments: &'static str,
    most: usize,
}

const fn word(
    long: &'static str,
    short: &'static str,
    arguments: &'static str,
    most: usize,
) -> Word {
    Word {
        long,
        short,
        arguments,
        most,
    }
}

const WORDS: [Word; 16] = [
    word("label", "n", "a NAME or nothing", 1),
    word("bind", "l", "LABEL", 1),
    word("bytes", "b", "HEX ..", usize::MAX),
    word("zeros", "z", "COUNT", 1),
    word("align", "a", "MULTIPLE and perhaps MOST", 2),
    word("use", "u", "OFFSET LABEL CODE", 3),
    word("ref", "r", "OFFSET LABEL CODE and perhaps ADDEND", 4),
    word("jump", "j", "START LENGTH LABEL and perhaps CONDITION", 4),
    word("jmp", "jmp", "LABEL", 1),
    word("constant", "c", "HEX ..", usize::MAX),
    word("constant-label", "k", "CONSTANT and perhaps NAME", 2),
    word(
        "relocation",
        "o",
        "OFFSET KIND TARGET and perhaps ADDEND",
        4,
    ),
    word("finish", "f", "no arguments", 0),
    word("arch", "arch", "one of x86, x64, aarch64", 1),
    word("symbols", "symbols", "COUNT or NAME ..", 1),
    word("define", "define", "SYMBOL LABEL", 2),
];

/// The conditional jumps that stand for all others in what is suggested.
const CONDITIONAL: [&str; 4] = ["je", "jne", "jl", "jge"];

/// The calls, for whoever wrote one that is none.
const ALL_CALLS: &str = "the calls are label, bind (or NAME:), bytes, zeros, align, use, ref, jump, jmp, je and the other conditions, \
     constant, constant-label, relocation";

/// What starts a comment, for whoever took `;` for it.
pub(crate) const COMMENT: &str = "';' separates calls, and '#' starts a comment";

/// The word that starts a statement, in capitals or not; `jmp` for every jump's name.
fn known_word(name: &str) -> Option<&'static Word> {
    let name = if mnemonic(name).is_some() {
        "jmp"
    } else {
        name
    };
    let is_name = |spelled: &str| name.eq_ignore_ascii_case(spelled);
    WORDS
        .iter()
        .find(|word| is_name(word.long) || is_name(word.short))
}

/// Its long form.
pub(crate) fn long_word(name: &str) -> Option<&'static str> {
    known_word(name).map(|word| word.long)
}

/// The label that a statement mentions, by number or name; nothing for a relocation's target that is spelled as a number or is a symbol's name.
pub(crate) fn mentioned_label<'a>(
    name: Token<'a>,
    words: &[Token<'a>],
    symbols: &Symbols<'a>,
) -> Option<Token<'a>> {
    if name.text.ends_with(':') {
        return Some(name.without_colon());
    }
    match long_word(name.text)? {
        "bind" | "jmp" => words.first().copied(),
        "use" | "ref" => words.get(1).copied(),
        "jump" => words.get(2).copied(),
        "relocation" => {
            let is_symbol = |word: Token<'_>| symbols.number_of(word.text).is_some();
            let target = words.get(2).copied();
            target.filter(|word| !is_numbered(*word) && !is_symbol(*word))
        }
        _ => None,
    }
}

/// A relocation's target that is spelled as a number.
pub(crate) fn numbered_argument<'a>(name: Token<'a>, words: &[Token<'a>]) -> Option<Token<'a>> {
    let is_relocation = long_word(name.text) == Some("relocation");
    let target = words.get(2).copied().filter(|word| is_numbered(*word));
    target.filter(|_| is_relocation)
}

pub(crate) fn no_call(name: Token<'_>) -> TextError {
    let quoted = name.quoted();
    let sentence = match written_as_bytes(name.text) {
        Some(example) => format!(
            "{quoted} is an instruction, and a sheet has none but jumps: write its bytes; {example}"
        ),
        None => {
            let known = WORDS.iter().map(|word| word.long).chain(CONDITIONAL);
            let meant = meant(name.text, known).unwrap_or_default();
            format!("{quoted} is no call{meant}")
        }
    };
    name.error(sentence).with_note(None, ALL_CALLS)
}

/// The arguments of a statement.
pub(crate) struct Arguments<'t, 'a> {
    pub name: Token<'a>,
    pub words: &'t [Token<'a>],
    pub labels: &'t Labels<'a>,
    pub symbols: &'t Symbols<'a>,
}

impl<'a> Arguments<'_, 'a> {
    /// What the statement says, or what is wrong with it.
    pub fn step(&self) -> Result<Step, TextError> {
        let call = match long_word(self.name.text) {
            Some("jmp") => return self.branch(),
            Some("zeros") => TextCall::Zeros(number(self.one()?)?),
            Some("finish") => {
                self.none()?;
                TextCall::Finish
            }
            Some(known) => TextCall::Call(self.call(known)?),
            None => return Err(no_call(self.name)),
        };
        Ok(Step::Call(call))
    }

    fn call(&self, name: &str) -> Result<Call, TextError> {
        match name {
            "label" => self.perhaps_one().map(|_| Call::NewLabel),
            "bind" => self.label(self.one()?).map(Call::Bind),
            "bytes" => bytes(self.words).map(Call::Bytes),
            "align" => self.align(),
            "use" => self.read_use(),
            "ref" => self.read_ref(),
            "jump" => self.jump(),
            "constant" => bytes(self.words).map(Call::Constant),
            "constant-label" => {
                let (constant, _) = self.one_and_perhaps_one()?;
                number(constant).map(Call::ConstantLabel)
            }
            "relocation" => self.relocation(),
            _ => Err(no_call(self.name)),
        }
    }

    fn label(&self, word: Token<'_>) -> Result<u32, TextError> {
        self.labels.number_of(word)
    }

    fn none(&self) -> Result<(), TextError> {
        match self.words {
            [] => Ok(()),
            _ => Err(self.wrong()),
        }
    }

    pub fn one(&self) -> Result<Token<'a>, TextError> {
        match *self.words {
            [word] => Ok(word),
            _ => Err(self.wrong()),
        }
    }

    pub fn two(&self) -> Result<[Token<'a>; 2], TextError> {
        match *self.words {
            [first, second] => Ok([first, second]),
            _ => Err(self.wrong()),
        }
    }

    pub fn perhaps_one(&self) -> Result<Option<Token<'a>>, TextError> {
        match *self.words {
            [] => Ok(None),
            [word] => Ok(Some(word)),
            _ => Err(self.wrong()),
        }
    }

    pub fn one_and_perhaps_one(&self) -> Result<(Token<'a>, Option<Token<'a>>), TextError> {
        match *self.words {
            [first] => Ok((first, None)),
            [first, second] => Ok((first, Some(second))),
            _ => Err(self.wrong()),
        }
    }

    fn three_and_perhaps_one(&self) -> Result<([Token<'a>; 3], Option<Token<'a>>), TextError> {
        match *self.words {
            [a, b, c] => Ok(([a, b, c], None)),
            [a, b, c, d] => Ok(([a, b, c], Some(d))),
            _ => Err(self.wrong()),
        }
    }

    /// A wrong number of arguments: the first one too many is marked, or the name where one is missing.
    fn wrong(&self) -> TextError {
        let Some(known) = known_word(self.name.text) else {
            return no_call(self.name);
        };
        let standing = match self.words.len() {
            0 => "nothing stands here".into(),
            1 => "1 word stands here".into(),
            many => format!("{} stand here", counted(many, "word")),
        };
        let name = match known.long {
            "jmp" => self.name.text,
            long => long,
        };
        let at = self.words.get(known.most).unwrap_or(&self.name);
        at.error(format!("{name} takes {}, and {standing}", known.arguments))
    }

    fn align(&self) -> Result<Call, TextError> {
        let (multiple, most) = self.one_and_perhaps_one()?;
        Ok(Call::Align {
            multiple: number(multiple)?,
            most: most.map_or(Ok(0), most_spent)?,
        })
    }

    fn read_use(&self) -> Result<Call, TextError> {
        let [offset, label, code] = *self.words else {
            return Err(self.wrong());
        };
        Ok(Call::Use {
            offset: number(offset)?,
            label: self.label(label)?,
            code: field_code(code)?,
        })
    }

    fn read_ref(&self) -> Result<Call, TextError> {
        let ([offset, label, code], addend) = self.three_and_perhaps_one()?;
        Ok(Call::Ref {
            offset: number(offset)?,
            label: self.label(label)?,
            code: field_code(code)?,
            addend: addend.map_or(Ok(0), ref_addend)?,
        })
    }

    fn jump(&self) -> Result<Call, TextError> {
        let ([start, length, label], word) = self.three_and_perhaps_one()?;
        Ok(Call::Jump {
            start: number(start)?,
            length: number(length)?,
            label: self.label(label)?,
            condition: word.map_or(Ok(Condition::NONE), condition)?,
        })
    }

    fn branch(&self) -> Result<Step, TextError> {
        Ok(Step::Branch {
            label: self.label(self.one()?)?,
            condition: mnemonic(self.name.text).unwrap_or(Condition::NONE),
        })
    }

    fn relocation(&self) -> Result<Call, TextError> {
        let ([offset, kind, target], addend) = self.three_and_perhaps_one()?;
        Ok(Call::Relocation {
            offset: number(offset)?,
            kind: relocation_kind(kind)?,
            target: self.target(target)?,
            addend: addend.map_or(Ok(0), signed)?,
        })
    }

    fn target(&self, word: Token<'_>) -> Result<u32, TextError> {
        match numbered_target(word)? {
            Some((0, symbol)) => Ok(symbol),
            Some((first, label)) => Ok(first + self.labels.written(word, label)?),
            None => match self.symbols.number_of(word.text) {
                Some(symbol) => Ok(symbol),
                None if self.labels.knows(word.text) => Ok(LABEL_TARGET + self.label(word)?),
                None => Err(word.error(format!(
                    "{} is no target: write s and a symbol's number, l and a label's, or a name",
                    word.quoted()
                ))),
            },
        }
    }
}

/// The most bytes that an alignment may spend. 0 is refused: it could be meant as a ceiling or as a sheet's word for the default.
fn most_spent(word: Token<'_>) -> Result<u32, TextError> {
    match number(word)? {
        0 => Err(word.error(format!(
            "an align that may spend 0 bytes fits no sheet, whose 0 is the default, {DEFAULT_MOST}: \
             leave MOST out for the default, or leave the align out"
        ))),
        most => Ok(most),
    }
}

fn ref_addend(word: Token<'_>) -> Result<i32, TextError> {
    let addend = signed(word)?;
    i32::try_from(addend)
        .map_err(|_| word.error(format!("a ref's addend has 32 bits, and {addend} has more")))
}
