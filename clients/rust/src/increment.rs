//! The next version.

use crate::error::IncrementError;
use crate::ffi;
use crate::identifier::{is_digits, is_identifier, text_of};
use crate::{Identifier, Version};

/// What a new pre-release begins to count with.
#[derive(Debug, Clone, Copy, PartialEq, Eq)]
pub enum IdentifierBase {
    /// It has no number.
    False,
    /// It counts from 0, or from 1 for every other value.
    Value(u64),
}

impl Default for IdentifierBase {
    fn default() -> IdentifierBase {
        IdentifierBase::Value(0)
    }
}

impl From<bool> for IdentifierBase {
    fn from(value: bool) -> IdentifierBase {
        match value {
            true => IdentifierBase::Value(1),
            false => IdentifierBase::False,
        }
    }
}

impl From<u64> for IdentifierBase {
    fn from(value: u64) -> IdentifierBase {
        IdentifierBase::Value(value)
    }
}

impl From<usize> for IdentifierBase {
    fn from(value: usize) -> IdentifierBase {
        IdentifierBase::Value(value as u64)
    }
}

impl IdentifierBase {
    /// The number that the library takes for it.
    #[inline]
    fn number(self) -> u32 {
        match self {
            IdentifierBase::Value(0) => ffi::BASE_ZERO,
            IdentifierBase::Value(_) => ffi::BASE_ONE,
            IdentifierBase::False => ffi::BASE_NONE,
        }
    }
}

/// A question for the next version.
struct Increment<'a> {
    word: &'a str,
    // None where it is empty.
    identifier: Option<&'a str>,
    // By its number.
    base: u32,
}

type Answer = Result<Version, IncrementError>;

impl Version {
    /// The next version by a word: `major`, `minor`, `patch`, `premajor`, `preminor`, `prepatch`,
    /// `prerelease`, `pre` or `release`. An empty identifier is none. Build metadata is kept.
    ///
    /// ```
    /// # use nodejs_semver::Version;
    /// let next = Version::from((1, 2, 3)).inc("prerelease", Some("beta"), None)?;
    /// assert_eq!(next.to_string(), "1.2.4-beta.0");
    /// # Ok::<(), nodejs_semver::IncrementError>(())
    /// ```
    #[inline]
    pub fn inc(
        &self,
        release: &str,
        identifier: Option<&str>,
        identifier_base: Option<IdentifierBase>,
    ) -> Result<Version, IncrementError> {
        let base = identifier_base.unwrap_or_default().number();
        self.next(release, identifier.unwrap_or(""), base)
    }

    /// The library is not asked about an identifier that no text spells.
    fn next(&self, word: &str, id: &str, base: u32) -> Answer {
        let answer = match self.kept_whole() {
            Some(kept) => ffi::next(&kept, word, id, base),
            None => Err(ffi::BAD_ARGUMENT),
        };
        match answer {
            Ok(next) if id.is_empty() || is_single(id) => Ok(next),
            answer => Increment::of(word, id, base).completed(self, answer),
        }
    }

    /// The answer by the rules of this package.
    #[cfg(test)]
    pub(crate) fn inc_by_rules(
        &self,
        word: &str,
        id: Option<&str>,
        base: IdentifierBase,
    ) -> Answer {
        Increment::of(word, id.unwrap_or(""), base.number()).by_rules(self)
    }
}

fn argument(text: &str) -> IncrementError {
    IncrementError::InvalidIncrementArgument(text.to_owned())
}

fn raised(number: u64) -> Result<u64, IncrementError> {
    number.checked_add(1).ok_or(IncrementError::Overflow)
}

impl<'a> Increment<'a> {
    fn of(word: &'a str, id: &'a str, base: u32) -> Increment<'a> {
        let identifier = Some(id).filter(|it| !it.is_empty());
        Increment {
            word,
            identifier,
            base,
        }
    }

    /// The answer by what the library says of the version.
    #[cold]
    fn completed(&self, version: &Version, answer: Result<Version, ffi::Status>) -> Answer {
        match answer {
            Ok(next) => {
                let [major, minor, patch] = next.numbers();
                let (pre, build) = (self.pre_release_of(version, &next), next.build().to_vec());
                Ok(Version::new(major, minor, patch, pre, build))
            }
            Err(ffi::OVERFLOW) => Err(IncrementError::Overflow),
            Err(ffi::NOT_A_PRERELEASE) => Err(IncrementError::NotAPrerelease(version.to_string())),
            Err(ffi::BAD_IDENTIFIER) => {
                let identifier = self.identifier.unwrap_or("").to_owned();
                Err(IncrementError::InvalidIdentifier(identifier))
            }
            // The status has three causes, so that the rules say which.
            Err(_) => self.by_rules(version),
        }
    }

    /// The pre-release of the next version, of which the library tells the text. An identifier that
    /// was put in is one, although its text may spell several, or a number.
    fn pre_release_of(&self, version: &Version, next: &Version) -> Vec<Identifier> {
        let begins = |id: &&str| match next.pre_text().strip_prefix(id) {
            Some(rest) => rest.is_empty() || rest.starts_with('.'),
            None => false,
        };
        let before = match self.counts_up(version) {
            true => version.pre_release(),
            false => &[],
        };
        match self
            .identifier
            .filter(|id| !is_kept(before, id))
            .filter(begins)
        {
            Some(id) if self.word.starts_with("pre") => {
                let mut list = vec![Identifier::AlphaNumeric(id.to_owned())];
                let rest = next.pre_text()[id.len()..].trim_start_matches('.');
                list.extend(rest.parse().ok().map(Identifier::Numeric));
                list
            }
            _ => next.pre_release().to_vec(),
        }
    }

    /// Whether the pre-release of the version counts on, and is not begun anew.
    fn counts_up(&self, version: &Version) -> bool {
        matches!(self.word, "pre" | "prerelease") && version.is_prerelease()
    }

    /// The answer about every version, by the same rules.
    fn by_rules(&self, version: &Version) -> Answer {
        if self.word.starts_with("pre") {
            self.check()?;
        }
        let [major, minor, patch] = version.numbers();
        let is_pre = version.is_prerelease();
        let (numbers, pre) = match self.word {
            "major" if is_pre && minor == 0 && patch == 0 => ([major, 0, 0], vec![]),
            "major" => ([raised(major)?, 0, 0], vec![]),
            "minor" if is_pre && patch == 0 => ([major, minor, 0], vec![]),
            "minor" => ([major, raised(minor)?, 0], vec![]),
            "patch" if is_pre => ([major, minor, patch], vec![]),
            "patch" => ([major, minor, raised(patch)?], vec![]),
            "premajor" => ([raised(major)?, 0, 0], self.pre_step(vec![])?),
            "preminor" => ([major, raised(minor)?, 0], self.pre_step(vec![])?),
            "prepatch" => ([major, minor, raised(patch)?], self.pre_step(vec![])?),
            "prerelease" if !is_pre => ([major, minor, raised(patch)?], self.pre_step(vec![])?),
            "prerelease" | "pre" => (
                [major, minor, patch],
                self.pre_step(version.pre_release().to_vec())?,
            ),
            "release" if is_pre => ([major, minor, patch], vec![]),
            "release" => return Err(IncrementError::NotAPrerelease(version.to_string())),
            _ => return Err(argument(self.word)),
        };
        let [major, minor, patch] = numbers;
        Ok(Version::new(
            major,
            minor,
            patch,
            pre,
            version.build().to_vec(),
        ))
    }

    /// What is checked for each word that begins with `pre`.
    fn check(&self) -> Result<(), IncrementError> {
        match self.identifier {
            None if self.base == ffi::BASE_NONE => Err(argument("identifier is empty")),
            Some(id) if !id.split('.').all(is_identifier) => {
                Err(IncrementError::InvalidIdentifier(id.to_owned()))
            }
            _ => Ok(()),
        }
    }

    /// The pre-release after this one.
    fn pre_step(&self, mut list: Vec<Identifier>) -> Result<Vec<Identifier>, IncrementError> {
        let first = Identifier::Numeric(u64::from(self.base == ffi::BASE_ONE));
        let printed = text_of(&list).0;
        let is_there = self.base == ffi::BASE_NONE && self.identifier == Some(&printed);
        let number = list.iter_mut().rev().find_map(|it| match it {
            Identifier::Numeric(number) => Some(number),
            Identifier::AlphaNumeric(_) => None,
        });
        match number {
            Some(number) => *number = raised(*number)?,
            // An empty list is not what an identifier prints.
            None if is_there => return Err(argument("identifier already exists")),
            None => list.push(first.clone()),
        }
        match self.identifier.filter(|id| !is_kept(&list, id)) {
            None => Ok(list),
            Some(id) if self.base == ffi::BASE_NONE => {
                Ok(vec![Identifier::AlphaNumeric(id.to_owned())])
            }
            Some(id) => Ok(vec![Identifier::AlphaNumeric(id.to_owned()), first]),
        }
    }
}

/// Whether an identifier is one that its own text spells.
fn is_single(id: &str) -> bool {
    is_identifier(id) && !is_digits(id)
}

/// Whether a pre-release goes on with an identifier: it begins with that and a number.
fn is_kept(list: &[Identifier], id: &str) -> bool {
    let begins = match list.first() {
        Some(Identifier::Numeric(number)) => is_digits(id) && id.parse() == Ok(*number),
        Some(Identifier::AlphaNumeric(text)) => !is_digits(id) && text == id,
        None => false,
    };
    begins && matches!(list.get(1), Some(Identifier::Numeric(_)))
}
