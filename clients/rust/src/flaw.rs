//! What is wrong with a text. The crate nodejs-semver has none of this.

use crate::ffi;
use crate::{Range, Version};
use std::fmt;

/// What is wrong with a version text.
#[derive(Debug, Clone, Copy, PartialEq, Eq, Hash)]
#[non_exhaustive]
pub enum FlawKind {
    /// No number begins where one is expected.
    NoNumber,
    /// A dot is expected.
    NoDot,
    /// A number above [`MAX_SAFE_INTEGER`](crate::MAX_SAFE_INTEGER) begins there.
    GreatNumber,
    /// The text has a version at its front, and is ignored from there on. [`Version::parse`] reads
    /// it.
    Ignored,
    /// The text is longer than [`MAX_LENGTH`](crate::MAX_LENGTH) bytes.
    TooLong,
}

/// What is wrong with a version text, and where.
#[derive(Debug, Clone, Copy, PartialEq, Eq, Hash)]
pub struct Flaw {
    kind: FlawKind,
    offset: usize,
}

impl Flaw {
    /// What is wrong.
    pub fn kind(&self) -> FlawKind {
        self.kind
    }

    /// At which byte of the text.
    pub fn offset(&self) -> usize {
        self.offset
    }
}

impl fmt::Display for Flaw {
    fn fmt(&self, f: &mut fmt::Formatter<'_>) -> fmt::Result {
        let what = match self.kind {
            FlawKind::NoNumber => "a number is expected",
            FlawKind::NoDot => "a dot is expected",
            FlawKind::GreatNumber => "a number is too great",
            FlawKind::Ignored => "what follows the version is ignored",
            FlawKind::TooLong => "the text is too long",
        };
        write!(f, "{what} at byte {}", self.offset)
    }
}

/// A word of a range text that [`Range::parse`] ignores.
#[derive(Debug, Clone, Copy, PartialEq, Eq, Hash)]
pub struct IgnoredWord {
    start: usize,
    end: usize,
    is_malformed: bool,
}

impl IgnoredWord {
    /// The place of its first byte.
    pub fn start(&self) -> usize {
        self.start
    }

    /// The place after its last byte.
    pub fn end(&self) -> usize {
        self.end
    }

    /// Whether it has none of the forms of words. Else it has one, and names no versions, as `^x`.
    pub fn is_malformed(&self) -> bool {
        self.is_malformed
    }
}

impl Version {
    /// What is wrong with a version text, or `None` if the whole text is one version.
    ///
    /// ```
    /// # use nodejs_semver::{FlawKind, Version};
    /// let flaw = Version::flaw("1.2").unwrap();
    /// assert_eq!((flaw.kind(), flaw.offset()), (FlawKind::NoDot, 3));
    /// ```
    pub fn flaw<S: AsRef<str>>(input: S) -> Option<Flaw> {
        let (number, offset) = ffi::version_flaw(input.as_ref())?;
        let kind = match number {
            0 => FlawKind::NoNumber,
            1 => FlawKind::NoDot,
            2 => FlawKind::GreatNumber,
            3 => FlawKind::Ignored,
            _ => FlawKind::TooLong,
        };
        Some(Flaw { kind, offset })
    }
}

impl Range {
    /// The words of a range text that [`Range::parse`] ignores.
    ///
    /// ```
    /// # use nodejs_semver::Range;
    /// let words = Range::ignored_words(">=1.0.0, <2.0.0");
    /// assert_eq!(words.iter().map(|it| (it.start(), it.end())).collect::<Vec<_>>(), [(0, 8)]);
    /// ```
    pub fn ignored_words<S: AsRef<str>>(input: S) -> Vec<IgnoredWord> {
        let words = ffi::ignored_words(input.as_ref()).into_iter();
        let of = |it: ffi::Word| (it.start, it.end, it.kind == 0);
        words
            .map(of)
            .map(|(start, end, is_malformed)| IgnoredWord {
                start,
                end,
                is_malformed,
            })
            .collect()
    }
}
