//! asmkit's error, as far as the buffer and the linker use it, and the driver's.

use crate::core::linker::LinkError;

/// Stand-in for `asmkit::AsmError`.
#[derive(Clone, Debug)]
pub enum AsmError {
    InvalidArgument,
    InvalidArch,
    TooLarge,
    InvalidState,
    UnboundLabel,
    UnsupportedInstruction {
        #[allow(dead_code)]
        reason: &'static str,
    },
    NoCodeGenerated,
    Link(LinkError),
}

/// What the Rust answers in place of a value. The numbers of the first eight
/// are those of the stored list.
#[derive(Clone, Copy, Debug, PartialEq, Eq, PartialOrd, Ord)]
pub enum Error {
    InvalidArgument = 1,
    InvalidArch = 2,
    TooLarge = 3,
    InvalidState = 4,
    /// Never answered by the Rust; named because document 01 has it.
    TooManyHandles = 5,
    /// Never answered by the Rust; named because document 01 has it.
    OutOfMemory = 6,
    UnboundLabel = 7,
    UnsupportedInstruction = 8,
    /// The Rust panicked.
    Panic = 9,
    /// The call's numbers do not fit the Rust's types.
    Unrepresentable = 10,
    /// The sheet breaks its form, which the Rust does not know.
    Malformed = 11,
}

impl Error {
    /// The error of a number in the stored list.
    pub fn from_number(number: u32) -> Option<Self> {
        const ALL: [Error; 8] = [
            Error::InvalidArgument,
            Error::InvalidArch,
            Error::TooLarge,
            Error::InvalidState,
            Error::TooManyHandles,
            Error::OutOfMemory,
            Error::UnboundLabel,
            Error::UnsupportedInstruction,
        ];
        ALL.into_iter().find(|error| *error as u32 == number)
    }
}

impl From<&AsmError> for Error {
    fn from(error: &AsmError) -> Self {
        match error {
            AsmError::InvalidArgument => Self::InvalidArgument,
            AsmError::InvalidArch => Self::InvalidArch,
            AsmError::TooLarge => Self::TooLarge,
            AsmError::InvalidState => Self::InvalidState,
            AsmError::UnboundLabel => Self::UnboundLabel,
            AsmError::UnsupportedInstruction { .. } => Self::UnsupportedInstruction,
            AsmError::NoCodeGenerated | AsmError::Link(_) => {
                unreachable!("the linker's alone, and told apart there")
            }
        }
    }
}

impl From<AsmError> for Error {
    fn from(error: AsmError) -> Self {
        Self::from(&error)
    }
}

impl std::fmt::Display for Error {
    fn fmt(&self, f: &mut std::fmt::Formatter<'_>) -> std::fmt::Result {
        match self {
            Self::Panic => f.write_str("panic"),
            Self::Unrepresentable => f.write_str("unrepresentable"),
            Self::Malformed => f.write_str("malformed"),
            named => write!(f, "{named:?}"),
        }
    }
}
