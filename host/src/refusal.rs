//! The refusals of documents 01 and 02, named.

use std::fmt;
use std::str::FromStr;

use crate::{NoSuchName, NoSuchNumber};

/// Why something is refused: the numbers of documents 01 and 02, each with a name. include/wargnifla.h has the same ones.
///
/// Of a recording call [`UnsupportedUse`](Self::UnsupportedUse), [`ForeignKind`](Self::ForeignKind), [`UnknownNumber`](Self::UnknownNumber) (but for a
/// bind), [`BadEntry`](Self::BadEntry), [`TableFull`](Self::TableFull) and [`CodeFull`](Self::CodeFull) end the recording, which then answers every
/// call with the first of them. All others leave it as it was.
#[derive(Clone, Copy, Debug, PartialEq, Eq, PartialOrd, Ord, Hash)]
#[non_exhaustive]
pub enum Refusal {
    /// A sheet, code or kind breaks its form, as may ELF entries; finish meets a table entry that no recording writes; the number of open entries that
    /// is handed in is wrong, at finish by any amount, else above 262,144; there is nothing to join, or there are more than 256 pieces.
    Malformed = 1,
    /// Start names an architecture other than 1, 2, 6.
    UnknownArch,
    /// A call is lent more than a limit, or a piece that is to be joined exceeds one.
    PastLimit,
    /// The recording has finished.
    AlreadyFinished,
    /// An alignment is no power of two, or exceeds 4,096.
    BadAlignment,
    /// A use has code 15.
    UnsupportedUse,
    /// A use, ref or relocation has a kind foreign to the architecture.
    ForeignKind,
    /// A label, constant or symbol number is unknown.
    UnknownNumber,
    /// The label is bound already.
    AlreadyBound,
    /// A jump doesn't end at the current offset, has a length outside 2 to 15 or a condition above 16, starts before the last event's end or holds a
    /// label strictly inside; a relocation's offset exceeds 16,777,215; a constant exceeds 64 bytes.
    BadEntry,
    /// A table that the call must extend is full, or one that ELF entries are read into, or pieces are joined into, is short.
    TableFull,
    /// Bytes or padding pass the end of the room for code.
    CodeFull,
    /// Finish finds a pooled constant's label bound by the caller.
    PoolLabelBound,
    /// Code with pool exceeds 16,777,216 bytes.
    PoolTooLarge,
    /// A use, ref, jump or a relocation against a label names an unbound one.
    UnboundLabel,
    /// With a jump, the table of segments is short.
    TooFewSegments,
    /// With a jump, a ref's field passes the end of the code, or starts before an event's end and ends after that event's start. Of a join, a field
    /// that is to be filled passes its piece's end.
    RefOverlaps,
    /// With a jump, a ref can't reach its label plus addend. Of a join, a field can't reach its symbol plus addend.
    RefOutOfReach,
    /// Without a jump, a use's field passes the end of the code.
    UsePastEnd,
    /// Without a jump, a use of a branch (code 9, 10 or 11) can't reach its label.
    BranchOutOfReach,
    /// Without a jump, another use can't reach a label at or after it.
    LabelTooFarAhead,
    /// Without a jump, another use can't reach a label before it.
    LabelTooFarBack,
    /// The finished or joined code exceeds the output. Of a join, the whole or what moves with it passes 4,294,967,294.
    OutputTooSmall,
    /// Relocations are to be written as ELF for an architecture other than X64 and AArch64, or one has a kind without an ELF type there.
    NoElfType,
    /// The addend of a relocation against a label, plus the label's offset, passes signed 64 bits.
    AddendOverflow,
    /// The ELF entries exceed the output.
    ElfOutputTooSmall,
    /// Two pieces that are to be joined have different architectures.
    ArchitecturesDiffer,
    /// Two definitions of pieces that are to be joined have one symbol.
    SymbolDefinedTwice,
    /// A field is to be filled for a symbol that no piece defines, or one by a label that is unknown or not bound.
    SymbolUndefined,
}

impl Refusal {
    /// Every refusal, by rising number.
    pub const ALL: [Self; 29] = [
        Self::Malformed,
        Self::UnknownArch,
        Self::PastLimit,
        Self::AlreadyFinished,
        Self::BadAlignment,
        Self::UnsupportedUse,
        Self::ForeignKind,
        Self::UnknownNumber,
        Self::AlreadyBound,
        Self::BadEntry,
        Self::TableFull,
        Self::CodeFull,
        Self::PoolLabelBound,
        Self::PoolTooLarge,
        Self::UnboundLabel,
        Self::TooFewSegments,
        Self::RefOverlaps,
        Self::RefOutOfReach,
        Self::UsePastEnd,
        Self::BranchOutOfReach,
        Self::LabelTooFarAhead,
        Self::LabelTooFarBack,
        Self::OutputTooSmall,
        Self::NoElfType,
        Self::AddendOverflow,
        Self::ElfOutputTooSmall,
        Self::ArchitecturesDiffer,
        Self::SymbolDefinedTwice,
        Self::SymbolUndefined,
    ];

    /// The refusal's number, 1 to 29.
    #[must_use]
    pub const fn number(self) -> u32 {
        self as u32
    }

    /// The refusal of a number, if there is one.
    ///
    /// ```
    /// use wargnifla::Refusal;
    ///
    /// assert_eq!(Refusal::from_number(9), Some(Refusal::AlreadyBound));
    /// assert_eq!(Refusal::from_number(30), None);
    /// ```
    #[must_use]
    pub fn from_number(number: u32) -> Option<Self> {
        Self::ALL
            .into_iter()
            .find(|refusal| refusal.number() == number)
    }

    /// The refusal of a name, in capitals or not.
    #[must_use]
    pub fn from_name(name: &str) -> Option<Self> {
        Self::ALL
            .into_iter()
            .find(|refusal| refusal.to_string().eq_ignore_ascii_case(name))
    }
}

impl TryFrom<u32> for Refusal {
    type Error = NoSuchNumber;

    fn try_from(number: u32) -> Result<Self, NoSuchNumber> {
        Self::from_number(number).ok_or(NoSuchNumber::new("refusal", number, "1 to 29"))
    }
}

/// By its name, in capitals or not.
impl FromStr for Refusal {
    type Err = NoSuchName;

    fn from_str(name: &str) -> Result<Self, NoSuchName> {
        Self::from_name(name).ok_or_else(|| NoSuchName::new("refusal", name, &Self::ALL))
    }
}

impl fmt::Display for Refusal {
    fn fmt(&self, f: &mut fmt::Formatter<'_>) -> fmt::Result {
        fmt::Debug::fmt(self, f)
    }
}

#[cfg(test)]
mod tests {
    use super::*;

    #[test]
    fn numbers_run_from_1_to_29() {
        let numbers = Refusal::ALL.map(Refusal::number);
        assert!(numbers.into_iter().eq(1..=29));
        for refusal in Refusal::ALL {
            assert_eq!(Refusal::from_number(refusal.number()), Some(refusal));
            assert_eq!(Refusal::try_from(refusal.number()), Ok(refusal));
        }
        assert_eq!(Refusal::from_number(0), None);
        let error = Refusal::try_from(30).unwrap_err();
        assert_eq!(error.to_string(), "refusal 30 is none of 1 to 29");
    }

    #[test]
    fn names_are_read_in_any_case() {
        for refusal in Refusal::ALL {
            let name = refusal.to_string().to_lowercase();
            assert_eq!(name.parse(), Ok(refusal));
        }
        let error = "UnbondLabel".parse::<Refusal>().unwrap_err();
        let said = "'UnbondLabel' is no refusal; did you mean UnboundLabel?";
        assert_eq!(error.to_string(), said);
    }
}
