//! Arguments: numbers, kinds and bytes.

use std::sync::Arc;

use crate::suggest::meant;
use crate::tokens::Token;
use crate::{Arch, Condition, LabelUse, Reloc, TextError, counted, escaped};

/// What is added to a label's number where it is the target of a relocation. Symbols and labels have numbers below it.
pub(crate) const LABEL_TARGET: u32 = 1 << 31;

pub(crate) fn architecture(word: Token<'_>) -> Result<Arch, TextError> {
    Arch::from_name(word.text).ok_or_else(|| {
        let meant = meant(word.text, Arch::names()).unwrap_or_default();
        word.error(format!(
            "{} is none of x86, x64, aarch64{meant}",
            word.quoted()
        ))
    })
}

/// What is wrong with a word that is none of some names: what it was perhaps meant to be, or else what to write.
fn unknown(word: Token<'_>, noun: &str, names: &[String], write: &str) -> TextError {
    let meant = meant(word.text, names.iter().map(String::as_str));
    let help = meant.unwrap_or_else(|| format!(": write {write}"));
    word.error(format!("{} is no {noun}{help}", word.quoted()))
}

pub(crate) fn starts_number(word: &str) -> bool {
    word.starts_with(|c: char| c.is_ascii_digit())
}

pub(crate) fn number(word: Token<'_>) -> Result<u32, TextError> {
    let wide = unsigned(word, word.text)?;
    u32::try_from(wide).map_err(|_| word.error(format!("{} is above 4294967295", word.quoted())))
}

/// The number that some digits of a word spell.
fn unsigned(word: Token<'_>, spelled: &str) -> Result<u64, TextError> {
    let hex = spelled
        .strip_prefix("0x")
        .or_else(|| spelled.strip_prefix("0X"));
    let (digits, radix) = hex.map_or((spelled, 10), |digits| (digits, 16));
    if digits.is_empty() || !digits.chars().all(|c| c.is_digit(radix)) {
        return Err(word.error(format!(
            "{} is no number; one is decimal, or hexadecimal after 0x",
            word.quoted()
        )));
    }
    u64::from_str_radix(digits, radix)
        .map_err(|_| word.error(format!("{} is too large", word.quoted())))
}

pub(crate) fn signed(word: Token<'_>) -> Result<i64, TextError> {
    let too_large = || word.error(format!("{} passes 64 bits", word.quoted()));
    match word.text.strip_prefix('-') {
        Some(rest) => 0i64
            .checked_sub_unsigned(unsigned(word, rest)?)
            .ok_or_else(too_large),
        None => i64::try_from(unsigned(word, word.text)?).map_err(|_| too_large()),
    }
}

/// A number passes as it stands: whether there is such a code is for the verified library to say.
pub(crate) fn field_code(word: Token<'_>) -> Result<u32, TextError> {
    if starts_number(word.text) {
        return number(word);
    }
    LabelUse::from_name(word.text)
        .map(LabelUse::code)
        .ok_or_else(|| {
            let names = LabelUse::ALL.map(|kind| kind.to_string());
            unknown(
                word,
                "code",
                &names,
                "0 to 16, or a name such as X86JmpRel32",
            )
        })
}

pub(crate) fn relocation_kind(word: Token<'_>) -> Result<u32, TextError> {
    if starts_number(word.text) {
        return number(word);
    }
    Reloc::from_name(word.text)
        .map(Reloc::number)
        .ok_or_else(|| {
            let names = Reloc::ALL.map(|kind| kind.to_string());
            unknown(word, "kind", &names, "0 to 27, or a name such as X86PCRel4")
        })
}

/// The condition of a jump's name: `jmp`, or `j` and a condition.
pub(crate) fn mnemonic(word: &str) -> Option<u32> {
    if word.eq_ignore_ascii_case("jmp") {
        return Some(Condition::NONE);
    }
    let condition = word.strip_prefix(['j', 'J'])?;
    Condition::from_name(condition).map(Condition::number)
}

/// The words for no condition.
const NO_CONDITION: [&str; 2] = ["always", "none"];

pub(crate) fn condition(word: Token<'_>) -> Result<u32, TextError> {
    if starts_number(word.text) {
        return number(word);
    }
    if NO_CONDITION
        .iter()
        .any(|none| word.text.eq_ignore_ascii_case(none))
    {
        return Ok(Condition::NONE);
    }
    Condition::from_name(word.text)
        .map(Condition::number)
        .or_else(|| mnemonic(word.text))
        .ok_or_else(|| {
            let names: Vec<String> = Condition::names()
                .chain(NO_CONDITION.map(str::to_owned))
                .collect();
            unknown(
                word,
                "condition",
                &names,
                "0 to 16, or a name such as e, ne, l or always",
            )
        })
}

/// The number in a relocation's target such as `s0` or `l0`, with what its letter adds; nothing if the word is not spelled so.
pub(crate) fn numbered_target(word: Token<'_>) -> Result<Option<(u32, u32)>, TextError> {
    let (first, digits) = match word.text.split_at_checked(1) {
        Some(("s", digits)) => (0, digits),
        Some(("l", digits)) => (LABEL_TARGET, digits),
        _ => return Ok(None),
    };
    if !starts_number(digits) {
        return Ok(None);
    }
    let id = unsigned(word, digits)?;
    match u32::try_from(id) {
        Ok(id) if id < LABEL_TARGET => Ok(Some((first, id))),
        _ => Err(word.error(format!(
            "{} can't be named: targets have numbers below {LABEL_TARGET}",
            word.quoted()
        ))),
    }
}

/// Whether a relocation's target is spelled as a number.
pub(crate) fn is_numbered(target: Token<'_>) -> bool {
    !matches!(numbered_target(target), Ok(None))
}

pub(crate) fn bytes(words: &[Token<'_>]) -> Result<Arc<[u8]>, TextError> {
    for word in words {
        if let Some(c) = word.text.chars().find(|c| !c.is_ascii_hexdigit()) {
            let c = escaped(c);
            return Err(word.error(format!(
                "'{c}' is no hexadecimal digit; bytes are written like 0F 1F 00"
            )));
        }
    }
    let digits: String = words.iter().map(|word| word.text).collect();
    if !digits.len().is_multiple_of(2) {
        let mut odd = words
            .iter()
            .filter(|word| !word.text.len().is_multiple_of(2));
        let odd = odd.next().expect("an odd sum has an odd part");
        let count = counted(digits.len(), "hexadecimal digit");
        let is = if digits.len() == 1 { "is" } else { "are" };
        let sentence = format!("{count} {is} no whole number of bytes");
        return Err(odd.error(sentence));
    }
    let byte = |at| u8::from_str_radix(&digits[at..at + 2], 16).expect("two digits");
    Ok((0..digits.len()).step_by(2).map(byte).collect())
}
