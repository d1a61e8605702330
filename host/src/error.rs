//! Refusals, with what is wrong and where.

use std::fmt;

use crate::Refusal;

/// A refusal of documents 01 and 02. Nothing that was recorded before is lost by one.
#[derive(Clone, Debug, PartialEq, Eq)]
pub struct Error {
    number: u32,
    place: Place,
    sentence: String,
    piece: Option<usize>,
    entry: Option<Entry>,
}

/// What was refused.
#[derive(Clone, Copy, Debug, PartialEq, Eq)]
#[non_exhaustive]
pub enum Place {
    /// The start of a recording.
    Start,
    /// A sheet as a whole.
    Sheet,
    /// A call, and its index in the sheet that made it.
    Call {
        /// What the call is named in the text form of sheets.
        name: &'static str,
        /// The call's index from 0, if a sheet made it.
        index: Option<usize>,
    },
    /// The finish of a recording.
    Finish,
    /// The relocations of a finished recording, to be written as ELF.
    WriteRelas,
    /// The relocations of an ELF section, to be read.
    ReadRelas,
    /// Finished buffers, to be joined.
    Join,
}

/// The entry of a table that a finish, or what is made of one, was refused for.
#[derive(Clone, Copy, Debug, PartialEq, Eq)]
#[non_exhaustive]
pub enum Entry {
    /// An event, by its index: on X64, jumps and alignments in the order of recording.
    Event(usize),
    /// A use, by its index.
    Use(usize),
    /// A ref, by its index.
    Ref(usize),
    /// A relocation, by its index.
    Reloc(usize),
    /// A constant, by its place in the order of asking.
    Asked(usize),
    /// A definition of a symbol, by its index.
    Definition(usize),
}

impl Entry {
    /// Its index in its table, or its place in the order of asking.
    #[must_use]
    pub const fn index(self) -> usize {
        match self {
            Self::Event(index)
            | Self::Use(index)
            | Self::Ref(index)
            | Self::Reloc(index)
            | Self::Asked(index)
            | Self::Definition(index) => index,
        }
    }
}

impl Error {
    pub(crate) fn new(number: u32, place: Place, sentence: String) -> Self {
        Self {
            number,
            place,
            sentence,
            piece: None,
            entry: None,
        }
    }

    pub(crate) fn at_piece(self, piece: Option<usize>) -> Self {
        Self { piece, ..self }
    }

    pub(crate) fn at_entry(self, entry: Option<Entry>) -> Self {
        Self { entry, ..self }
    }

    /// The refusal's number, 1 to 29.
    #[must_use]
    pub fn number(&self) -> u32 {
        self.number
    }

    /// The refusal, named.
    ///
    /// ```
    /// use wargnifla::{Arch, CodeBuffer, Refusal};
    ///
    /// let mut buffer = CodeBuffer::new(Arch::X64);
    /// let error = buffer.try_align_to(24).unwrap_err();
    /// match error.refusal() {
    ///     Refusal::BadAlignment => assert_eq!(error.number(), 5),
    ///     other => panic!("{other}"),
    /// }
    /// ```
    #[must_use]
    pub fn refusal(&self) -> Refusal {
        Refusal::from_number(self.number)
            .expect("the functions answer numbers of documents 01 and 02 only")
    }

    /// The refusal's name, asmkit's; 27 to 29 have those of its `LinkError`. Numbers 24, 25 and 26, which neither asmkit nor document 01 knows, have
    /// the names of 7, 18 and 23.
    #[must_use]
    pub fn name(&self) -> &'static str {
        match self.number {
            1 | 5 | 8 | 10 | 17 | 19 => "InvalidArgument",
            2 | 7 | 24 => "InvalidArch",
            3 | 18 | 21 | 25 => "TooLarge",
            4 | 9 | 13 => "InvalidState",
            6 | 20 | 22 => "UnsupportedInstruction",
            11 | 16 => "TooManyHandles",
            12 | 14 | 23 | 26 => "OutOfMemory",
            15 => "UnboundLabel",
            27 => "IncompatibleArch",
            28 => "DuplicateSymbol",
            29 => "UnboundSymbol",
            _ => "unknown to documents 01 and 02",
        }
    }

    /// What was refused.
    #[must_use]
    pub fn place(&self) -> Place {
        self.place
    }

    /// What is wrong, without number and place.
    #[must_use]
    pub fn sentence(&self) -> &str {
        &self.sentence
    }

    /// The piece that a join was refused for, by its index, where there is one.
    #[must_use]
    pub fn piece(&self) -> Option<usize> {
        self.piece
    }

    /// The entry that a finish, or what is made of one, was refused for, where there is one; of a join, the piece's.
    #[must_use]
    pub fn entry(&self) -> Option<Entry> {
        self.entry
    }
}

impl fmt::Display for Place {
    fn fmt(&self, f: &mut fmt::Formatter<'_>) -> fmt::Result {
        match self {
            Self::Start => f.write_str("start"),
            Self::Sheet => f.write_str("sheet"),
            Self::Call { name, index: None } => f.write_str(name),
            Self::Call {
                name,
                index: Some(index),
            } => write!(f, "call {index} ({name})"),
            Self::Finish => f.write_str("finish"),
            Self::WriteRelas => f.write_str("write_relas"),
            Self::ReadRelas => f.write_str("read_relas"),
            Self::Join => f.write_str("join"),
        }
    }
}

impl fmt::Display for Error {
    fn fmt(&self, f: &mut fmt::Formatter<'_>) -> fmt::Result {
        let Self {
            number,
            place,
            sentence,
            ..
        } = self;
        write!(f, "{place}: number {number}, {}: {sentence}", self.name())
    }
}

impl std::error::Error for Error {}

#[cfg(test)]
mod tests {
    use super::*;

    #[test]
    fn says_place_number_name_and_sentence() {
        let place = Place::Call {
            name: "jump",
            index: Some(3),
        };
        let error = Error::new(10, place, "it is long".into());
        assert_eq!(
            error.to_string(),
            "call 3 (jump): number 10, InvalidArgument: it is long"
        );
    }

    #[test]
    fn every_number_has_a_name() {
        for number in 1..=29 {
            let error = Error::new(number, Place::Finish, String::new());
            assert!(error.name().chars().all(char::is_alphabetic), "{number}");
        }
    }
}
