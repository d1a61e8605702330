//! Pieces written as text, what the linker makes of them, and where it and
//! Request Six part.
//!
//! Pieces stand between `+`. A piece is words between `;`:
//!
//! - `code HEX`, `zeros N`: its code, zeros last;
//! - `align N`: its alignment, 32 if it is not said;
//! - `label OFFSET` or `label unbound`: one more label;
//! - `reloc OFFSET KIND TARGET ADDEND`: one more relocation, to `s7`, a symbol,
//!   or to `l0`, a label;
//! - `define SYMBOL LABEL`: one more definition;
//! - `symbols N`: the symbols it has, all that it names if that is not said;
//! - `arch NAME`: another architecture than the line's.
//!
//! `N x` before a piece, or before a word of it, repeats it.

use std::fmt;

use crate::{
    AARCH64, Error, Finished, Image, LABEL_TARGET, Link, Piece, Recording, Relocation, UNBOUND,
    Unlinked, X64, X86, fnv1a, quietly,
};

/// The alignment of a piece that says none.
const ALIGNMENT: u32 = 32;
/// Longer code is given by its checksum.
const SHOWN: usize = 64;

/// Reads pieces of an architecture; an empty text has none.
pub fn read_pieces(arch: u32, text: &str) -> Result<Vec<Piece>, String> {
    if text.trim().is_empty() {
        return Ok(Vec::new());
    }
    let mut pieces = Vec::new();
    for part in text.split('+') {
        let (count, part) = repeated(part);
        let piece = read_piece(arch, part)?;
        pieces.extend((0..count).map(|_| piece.clone()));
    }
    Ok(pieces)
}

/// The number in front of `x`, and what follows it; 1 if there is none.
fn repeated(text: &str) -> (usize, &str) {
    let text = text.trim();
    let number = text
        .split_once(" x ")
        .or(text.strip_suffix(" x").map(|n| (n, "")));
    match number.map(|(number, rest)| (number.trim().parse(), rest)) {
        Some((Ok(count), rest)) => (count, rest.trim()),
        _ => (1, text),
    }
}

fn read_piece(arch: u32, text: &str) -> Result<Piece, String> {
    let mut piece = Piece {
        arch,
        alignment: ALIGNMENT,
        ..Piece::default()
    };
    for part in text
        .split(';')
        .map(str::trim)
        .filter(|part| !part.is_empty())
    {
        let (count, part) = repeated(part);
        let words: Vec<&str> = part.split_whitespace().collect();
        for _ in 0..count {
            add(&mut piece, &words).ok_or_else(|| format!("no part of a piece: {part}"))?;
        }
    }
    piece.multiple = piece.alignment;
    Ok(piece)
}

fn add(piece: &mut Piece, words: &[&str]) -> Option<()> {
    let number = |word: &str| word.parse::<u32>().ok();
    match words {
        ["code", bytes @ ..] => piece.code.extend(hexadecimal(&bytes.concat())?),
        ["zeros", count] => piece.zeros += number(count)? as usize,
        ["align", alignment] => piece.alignment = number(alignment)?,
        ["label", "unbound"] => piece.labels.push(UNBOUND),
        ["label", offset] => piece.labels.push(number(offset)?),
        ["reloc", offset, kind, target, addend] => piece.relocations.push(Relocation {
            offset: number(offset)?,
            kind: number(kind)?,
            target: match (target.strip_prefix('s'), target.strip_prefix('l')) {
                (Some(symbol), _) => number(symbol)?,
                (_, Some(label)) => number(label)?.checked_add(LABEL_TARGET)?,
                _ => return None,
            },
            addend: addend.parse().ok()?,
        }),
        ["define", symbol, label] => piece.definitions.push((number(symbol)?, number(label)?)),
        ["symbols", count] => piece.symbols = Some(number(count)?),
        ["arch", name] => piece.arch = arch_number(name)?,
        _ => return None,
    }
    Some(())
}

fn hexadecimal(text: &str) -> Option<Vec<u8>> {
    let bytes = text.as_bytes().chunks(2);
    bytes
        .map(|two| u8::from_str_radix(std::str::from_utf8(two).ok()?, 16).ok())
        .collect()
}

fn arch_number(name: &str) -> Option<u32> {
    match name {
        "X86" => Some(X86),
        "X64" => Some(X64),
        "AArch64" => Some(AARCH64),
        _ => None,
    }
}

/// What the linker answers, and what the loader makes of that.
pub enum Joined {
    Image {
        image: Image,
        /// Where Request Six fills a field: the code loaded with those fields
        /// alone.
        loaded: Option<Result<Vec<u8>, Error>>,
    },
    Unlinked(Unlinked),
    Unrepresentable,
    Panic,
}

/// Links pieces, and loads what they come to.
pub fn join_pieces(pieces: &[Piece]) -> Joined {
    let is_filled: Vec<bool> = pieces
        .iter()
        .flat_map(|piece| {
            piece
                .relocations
                .iter()
                .map(|one| is_filled(piece.arch, one))
        })
        .collect();
    let linked = quietly(|| Some(Link::new(pieces.to_vec())?.link()));
    let mut image = match linked {
        Err(_) => return Joined::Panic,
        Ok(None) => return Joined::Unrepresentable,
        Ok(Some(Err(why))) => return Joined::Unlinked(why),
        Ok(Some(Ok(image))) => image,
    };
    let loads = is_filled.contains(&true);
    let loaded = loads.then(|| image.load(|number| is_filled[number]));
    Joined::Image { image, loaded }
}

/// Whether pieces that are recorded go the way of those written as text: the
/// call of Request Six's first trap is linked to the same image; a definition by
/// an unbound label is refused by finish, one by an unknown label when it is
/// recorded.
pub fn check_recorded() -> bool {
    let text = "code E800000000; reloc 1 3 s0 -4 + code C3; label 0; define 0 0";
    let written = read_pieces(X64, text).map(|pieces| join_pieces(&pieces));
    let Ok(Joined::Image { image, .. }) = written else {
        return false;
    };
    let linked = recorded().map(Link::of_recordings).map(Link::link);
    let is_same = matches!(linked, Ok(Ok(linked)) if linked.to_string() == image.to_string());
    is_same && unbound() == Err(Error::UnboundLabel) && unknown() == Err(Error::InvalidArgument)
}

fn recorded() -> Result<Vec<Finished>, Error> {
    let mut call = Recording::new(X64, 1)?;
    call.bytes(&[0xE8, 0, 0, 0, 0])?;
    call.relocation(1, 3, 0, -4)?;
    let mut callee = Recording::new(X64, 0)?;
    let label = callee.new_label()?;
    callee.bind(label)?;
    callee.bytes(&[0xC3])?;
    callee.define(0, label)?;
    Ok(vec![call.finish()?, callee.finish()?])
}

fn unbound() -> Result<(), Error> {
    let mut recording = Recording::new(X64, 0)?;
    let label = recording.new_label()?;
    recording.define(0, label).expect("the label is known");
    recording.finish().map(drop)
}

fn unknown() -> Result<(), Error> {
    Recording::new(X64, 0)?.define(0, 0)
}

/// Request Six: to a symbol, of kind X86PCRel4 or a call kind, on X64.
pub fn is_filled(arch: u32, relocation: &Relocation) -> bool {
    arch == X64 && relocation.target < LABEL_TARGET && [2, 3, 4].contains(&relocation.kind)
}

impl fmt::Display for Joined {
    fn fmt(&self, f: &mut fmt::Formatter<'_>) -> fmt::Result {
        match self {
            Self::Unlinked(why) => write!(f, "{why}"),
            Self::Unrepresentable => write!(f, "unrepresentable"),
            Self::Panic => write!(f, "panic"),
            Self::Image { image, loaded } => {
                write!(f, "{image}")?;
                match loaded {
                    None => Ok(()),
                    Some(Ok(code)) => write!(f, ", loaded{}", shown(code)),
                    Some(Err(error)) => write!(f, ", loaded {error}"),
                }
            }
        }
    }
}

/// Code, or its checksum.
fn shown(code: &[u8]) -> String {
    match code.len() {
        0..=SHOWN => code.iter().map(|byte| format!(" {byte:02X}")).collect(),
        _ => format!(" checksum {:08X}", fnv1a(code)),
    }
}

/// A line of reference/joins.txt: `NAME | NUMBER | ARCH | PIECES => ANSWER`.
pub struct JoinDifference {
    pub name: String,
    /// The refusal that this project answers with; 0 where it answers none.
    pub number: u32,
    pub arch: String,
    /// The pieces as they are written.
    pub text: String,
    pub pieces: Vec<Piece>,
    /// What the Rust is held to answer.
    pub answer: String,
}

/// Reads the file, or says which line is wrong.
pub fn read_join_differences(text: &str) -> Result<Vec<JoinDifference>, String> {
    text.lines()
        .enumerate()
        .filter(|(_, line)| !line.is_empty() && !line.starts_with('#'))
        .map(|(i, line)| read_line(line).map_err(|error| format!("line {}: {error}", i + 1)))
        .collect()
}

fn read_line(line: &str) -> Result<JoinDifference, String> {
    let (left, answer) = line.split_once("=>").ok_or("no answer")?;
    let parts: Vec<&str> = left.split('|').map(str::trim).collect();
    let [name, number, arch, text] = parts[..] else {
        return Err("not four parts before the answer".into());
    };
    let named = arch_number(arch).ok_or_else(|| format!("no architecture is named {arch}"))?;
    Ok(JoinDifference {
        name: name.into(),
        number: number.parse().map_err(|_| "no number of a refusal")?,
        arch: arch.into(),
        text: text.into(),
        pieces: read_pieces(named, text)?,
        answer: answer.trim().into(),
    })
}
