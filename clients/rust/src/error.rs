//! Errors.

use std::error::Error;
use std::fmt;

/// A text is no version, or no range. It keeps nothing of the text: [`Version::flaw`] says what is
/// wrong with one, and where.
///
/// [`Version::flaw`]: crate::Version::flaw
#[derive(Debug, Clone, Copy, PartialEq, Eq)]
pub struct SemverError;

impl fmt::Display for SemverError {
    fn fmt(&self, f: &mut fmt::Formatter<'_>) -> fmt::Result {
        f.write_str("Invalid semantic version or range")
    }
}

impl Error for SemverError {}

/// Why a version has no next one.
#[derive(Debug, Clone, PartialEq, Eq)]
pub enum IncrementError {
    /// The identifier is not identifiers joined by dots.
    InvalidIdentifier(String),
    /// The word is unknown, or there is nothing to put into the pre-release.
    InvalidIncrementArgument(String),
    /// `release` was asked of a version that is one. The text is the version.
    NotAPrerelease(String),
    /// A number that was to rise is the greatest of 64 bits.
    Overflow,
}

impl fmt::Display for IncrementError {
    fn fmt(&self, f: &mut fmt::Formatter<'_>) -> fmt::Result {
        match self {
            Self::InvalidIdentifier(it) => write!(f, "invalid identifier: {it}"),
            Self::InvalidIncrementArgument(it) => write!(f, "invalid increment argument: {it}"),
            Self::NotAPrerelease(it) => write!(f, "version {it} is not a prerelease"),
            Self::Overflow => f.write_str("increment would overflow a version component"),
        }
    }
}

impl Error for IncrementError {}

/// What is wrong with a question about a range.
#[derive(Debug, Clone, Copy, PartialEq, Eq)]
pub enum RangeError {
    /// A direction is `>` or `<`, and not this character.
    InvalidOutsideDirection(char),
    /// No call returns this.
    MissingComparatorBounds,
}

impl fmt::Display for RangeError {
    fn fmt(&self, f: &mut fmt::Formatter<'_>) -> fmt::Result {
        match self {
            Self::InvalidOutsideDirection(it) => {
                f.write_str(
                    "outside() only supports checking whether a version is above or below ",
                )?;
                write!(f, "a range, found `{it}`")
            }
            Self::MissingComparatorBounds => {
                f.write_str("outside() could not determine comparator bounds for this range")
            }
        }
    }
}

impl Error for RangeError {}
