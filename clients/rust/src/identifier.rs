//! Identifiers, and the texts that spell lists of them.

use std::fmt::{self, Write};

/// An identifier of a pre-release or of build metadata.
#[derive(Debug, Clone, PartialEq, Eq, PartialOrd, Ord, Hash)]
pub enum Identifier {
    /// Digits alone, of a value of 64 bits. It is below every `AlphaNumeric`.
    Numeric(u64),
    /// Any other identifier. These are ordered by their bytes.
    AlphaNumeric(String),
}

impl fmt::Display for Identifier {
    fn fmt(&self, f: &mut fmt::Formatter<'_>) -> fmt::Result {
        match self {
            Self::Numeric(number) => write!(f, "{number}"),
            Self::AlphaNumeric(text) => f.write_str(text),
        }
    }
}

impl Identifier {
    /// The identifier that a text without dots spells.
    pub(crate) fn of(text: &str) -> Identifier {
        match text.parse() {
            Ok(number) if is_digits(text) => Self::Numeric(number),
            _ => Self::AlphaNumeric(text.to_owned()),
        }
    }

    /// Whether its text spells this identifier.
    fn is_spelled(&self) -> bool {
        match self {
            Self::Numeric(_) => true,
            Self::AlphaNumeric(text) => is_identifier(text) && Self::of(text) == *self,
        }
    }
}

/// Whether a text has digits alone.
pub(crate) fn is_digits(text: &str) -> bool {
    !text.is_empty() && text.bytes().all(|it| it.is_ascii_digit())
}

/// Whether a text is one identifier.
pub(crate) fn is_identifier(text: &str) -> bool {
    !text.is_empty()
        && text
            .bytes()
            .all(|it| it.is_ascii_alphanumeric() || it == b'-')
}

/// The identifiers of a text, joined by dots. An empty text has none.
pub(crate) fn list_of(text: &str) -> Vec<Identifier> {
    if text.is_empty() {
        return Vec::new();
    }
    text.split('.').map(Identifier::of).collect()
}

/// The text of a list, and whether it spells the list.
pub(crate) fn text_of(list: &[Identifier]) -> (String, bool) {
    let mut text = String::new();
    for (at, it) in list.iter().enumerate() {
        let dot = if at == 0 { "" } else { "." };
        // Writing into a String does not fail.
        let _ = write!(text, "{dot}{it}");
    }
    (text, list.iter().all(Identifier::is_spelled))
}
