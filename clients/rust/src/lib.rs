//! npm's versions and ranges, with the API of the crate nodejs-semver 7.0.0.
//!
//! ```
//! use nodejs_semver::{Range, Version};
//!
//! let version = Version::parse("1.2.3-rc.4")?;
//! let range: Range = "^1.2.3-rc.2".parse()?;
//! assert!(version.satisfies(&range));
//!
//! let both = range.intersect(&Range::parse("<1.5.0")?);
//! assert_eq!(both.map(|it| it.to_string()).as_deref(), Some(">=1.2.3-rc.2 <1.5.0"));
//! # Ok::<(), nodejs_semver::SemverError>(())
//! ```
//!
//! Texts are read, versions compared and ranges asked by the C library `nodejs_semver`, whose
//! functions are proved. This package holds the values, prints them and converts them. It is
//! tested, and not proved.
//!
//! # What the library is not asked
//!
//! A version with an identifier that no text spells, as `AlphaNumeric("1")`, is made by
//! [`Version::new`] and [`Version::inc`], and never by [`Version::parse`]. Whether a range accepts
//! one, its order and its next version, this package answers by the same rules in Rust. Its tests
//! compare these answers with the library's wherever both can answer.
//!
//! The order of the three numbers is compared in Rust too. By it [`Range::max_satisfying`] and
//! [`Range::min_satisfying`] leave out versions that cannot be the answer.
//!
//! # Reading
//!
//! Texts are read as that crate reads them, leniently: the words of a range that are not understood
//! are ignored, so that `>=1.0.0, <2.0.0` is `<2.0.0`. [`Version::parse_npm`] and
//! [`Range::parse_npm`] read as npm does, and reject such texts.
//!
//! # No panics
//!
//! No input makes a call panic. Where an allocation fails, the process ends by
//! [`std::alloc::handle_alloc_error`], as it does for `Vec`.
#![deny(missing_docs, unsafe_op_in_unsafe_fn)]

mod error;
mod ffi;
mod flaw;
mod identifier;
mod increment;
mod interval;
mod line;
mod range;
#[cfg(feature = "serde")]
mod serde;
mod version;

#[cfg(test)]
mod rules_test;

#[cfg(doctest)]
#[doc = include_str!("../README.md")]
mod readme {}

pub use error::{IncrementError, RangeError, SemverError};
pub use flaw::{Flaw, FlawKind, IgnoredWord};
pub use identifier::Identifier;
pub use increment::IdentifierBase;
pub use range::{OutsideDirection, Range};
pub use version::{ReleaseType, Version, VersionDiff, VersionParts};

/// The greatest number that is read from a text: JavaScript's `Number.MAX_SAFE_INTEGER`. The crate
/// nodejs-semver has another value here, 900_719_925_474_099.
pub const MAX_SAFE_INTEGER: u64 = 9_007_199_254_740_991;

/// The greatest length of a version text in bytes.
pub const MAX_LENGTH: usize = 256;
