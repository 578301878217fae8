//! Why a file is not accepted.

use core::fmt;

use crate::Rule;

/// Why a file is not accepted.
#[derive(Clone, Copy, Debug, PartialEq, Eq, Hash)]
#[non_exhaustive]
pub enum Error {
    /// The file breaks a rule.
    Refused {
        /// The first broken rule, in the order of judgment.
        rule: Rule,
        /// The least offset in the file at which the rule is broken.
        place: u64,
    },
    /// Memory ran out before a verdict. Nothing is claimed about the file.
    NoMemory,
}

impl fmt::Display for Error {
    fn fmt(&self, f: &mut fmt::Formatter<'_>) -> fmt::Result {
        match self {
            Error::Refused { rule, place } => write!(f, "refused: {rule} at {place:#x}"),
            Error::NoMemory => f.write_str("out of memory"),
        }
    }
}

#[cfg(feature = "std")]
impl std::error::Error for Error {}

#[cfg(test)]
mod tests {
    use std::string::ToString;

    use super::*;

    #[test]
    fn texts_are_those_of_the_program() {
        let (rule, place) = (Rule::SegmentFile, 0x198);
        assert_eq!(
            Error::Refused { rule, place }.to_string(),
            "refused: segment-file at 0x198"
        );
        assert_eq!(Error::NoMemory.to_string(), "out of memory");
    }
}
