//! The standard conversions from numbers and names, and what they say of one that stands for nothing.

use std::fmt;
use std::str::FromStr;

use crate::{Arch, Condition, LabelUse, Reloc, nearest, shown};

/// A number that stands for nothing of its sort, such as no architecture.
#[derive(Clone, Copy, Debug, PartialEq, Eq)]
pub struct NoSuchNumber {
    noun: &'static str,
    number: u32,
    known: &'static str,
}

impl NoSuchNumber {
    /// A number that is none of the known ones: `architecture`, 3, `1 (X86), 2 (X64) and 6 (AArch64)`.
    #[must_use]
    pub const fn new(noun: &'static str, number: u32, known: &'static str) -> Self {
        Self {
            noun,
            number,
            known,
        }
    }

    /// The number.
    #[must_use]
    pub const fn number(&self) -> u32 {
        self.number
    }
}

impl fmt::Display for NoSuchNumber {
    fn fmt(&self, f: &mut fmt::Formatter<'_>) -> fmt::Result {
        write!(f, "{} {} is none of {}", self.noun, self.number, self.known)
    }
}

impl std::error::Error for NoSuchNumber {}

/// A name that stands for nothing of its sort, and perhaps the one that was meant.
#[derive(Clone, Debug, PartialEq, Eq)]
pub struct NoSuchName {
    noun: &'static str,
    name: String,
    nearest: Option<String>,
}

impl NoSuchName {
    /// A name that is none of the known ones: `architecture`, `x46`.
    #[must_use]
    pub fn new<T: fmt::Display>(noun: &'static str, name: &str, known: &[T]) -> Self {
        let known: Vec<String> = known.iter().map(T::to_string).collect();
        Self {
            noun,
            name: name.into(),
            nearest: nearest(name, known.iter().map(String::as_str)).map(Into::into),
        }
    }

    /// The name.
    #[must_use]
    pub fn name(&self) -> &str {
        &self.name
    }

    /// The name that was perhaps meant.
    #[must_use]
    pub fn nearest(&self) -> Option<&str> {
        self.nearest.as_deref()
    }
}

impl fmt::Display for NoSuchName {
    fn fmt(&self, f: &mut fmt::Formatter<'_>) -> fmt::Result {
        write!(f, "'{}' is no {}", shown(&self.name), self.noun)?;
        match &self.nearest {
            Some(nearest) => write!(f, "; did you mean {nearest}?"),
            None => Ok(()),
        }
    }
}

impl std::error::Error for NoSuchName {}

/// Both conversions of a type that has `from_name`, a method that takes a number, and `ALL`.
macro_rules! conversions {
    ($kind:ident, $from_number:ident, $noun:literal, $known:literal) => {
        impl TryFrom<u32> for $kind {
            type Error = NoSuchNumber;

            fn try_from(number: u32) -> Result<Self, NoSuchNumber> {
                Self::$from_number(number).ok_or(NoSuchNumber::new($noun, number, $known))
            }
        }

        /// By its name, in capitals or not.
        impl FromStr for $kind {
            type Err = NoSuchName;

            fn from_str(name: &str) -> Result<Self, NoSuchName> {
                Self::from_name(name).ok_or_else(|| NoSuchName::new($noun, name, &Self::ALL))
            }
        }
    };
}

conversions!(
    Arch,
    from_number,
    "architecture",
    "1 (X86), 2 (X64) and 6 (AArch64)"
);
conversions!(Condition, from_number, "condition", "0 to 15");
conversions!(LabelUse, from_code, "code", "0 to 16");
conversions!(Reloc, from_number, "relocation kind", "0 to 27");

#[cfg(test)]
mod tests {
    use super::*;

    #[test]
    fn numbers_and_names_are_converted_back() {
        for arch in Arch::ALL {
            assert_eq!(Arch::try_from(arch.number()), Ok(arch));
            assert_eq!(arch.to_string().parse(), Ok(arch));
        }
        for condition in Condition::ALL {
            assert_eq!(Condition::try_from(condition.number()), Ok(condition));
            assert_eq!(condition.to_string().parse(), Ok(condition));
        }
        for kind in LabelUse::ALL {
            assert_eq!(LabelUse::try_from(kind.code()), Ok(kind));
            assert_eq!(kind.to_string().parse(), Ok(kind));
        }
        for kind in Reloc::ALL {
            assert_eq!(Reloc::try_from(kind.number()), Ok(kind));
            assert_eq!(kind.to_string().parse(), Ok(kind));
        }
    }

    #[test]
    fn what_stands_for_nothing_is_said() {
        let number = |error: NoSuchNumber| (error.number(), error.to_string());
        let arch = number(Arch::try_from(3).unwrap_err());
        let known = "architecture 3 is none of 1 (X86), 2 (X64) and 6 (AArch64)";
        assert_eq!(arch, (3, known.into()));
        let said = |noun, count: usize| {
            let known = format!("{noun} {count} is none of 0 to {}", count - 1);
            (count as u32, known)
        };
        let first_unknown = Condition::ALL.len();
        let condition = Condition::try_from(first_unknown as u32).unwrap_err();
        assert_eq!(number(condition), said("condition", first_unknown));
        let first_unknown = LabelUse::ALL.len();
        let code = LabelUse::try_from(first_unknown as u32).unwrap_err();
        assert_eq!(number(code), said("code", first_unknown));
        let first_unknown = Reloc::ALL.len();
        let kind = Reloc::try_from(first_unknown as u32).unwrap_err();
        assert_eq!(number(kind), said("relocation kind", first_unknown));
        assert!(Reloc::try_from(u32::MAX).is_err());
    }

    #[test]
    fn a_name_that_is_near_is_suggested() {
        let name = "x86jmprel23".parse::<LabelUse>().unwrap_err();
        assert_eq!(
            (name.name(), name.nearest()),
            ("x86jmprel23", Some("X86JmpRel32"))
        );
        let said = "'x86jmprel23' is no code; did you mean X86JmpRel32?";
        assert_eq!(name.to_string(), said);
        let name = "mips\u{7}".parse::<Arch>().unwrap_err();
        assert_eq!(name.to_string(), "'mips\\u{7}' is no architecture");
        let name = "".parse::<Condition>().unwrap_err();
        assert_eq!(name.to_string(), "'' is no condition");
        assert!("Abs16".parse::<Reloc>().is_err());
    }
}
