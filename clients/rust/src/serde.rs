//! Versions and ranges as strings of a format: the feature `serde`.

use serde::de::Error;
use serde::{Deserialize, Deserializer, Serialize, Serializer};

use crate::{Range, Version};

impl Serialize for Version {
    /// Writes the version as a string, as it is printed.
    fn serialize<S: Serializer>(&self, serializer: S) -> Result<S::Ok, S::Error> {
        serializer.collect_str(self)
    }
}

impl<'de> Deserialize<'de> for Version {
    /// Reads a string as [`Version::parse`] does. A text that is no version is the format's own
    /// error.
    fn deserialize<D: Deserializer<'de>>(deserializer: D) -> Result<Self, D::Error> {
        let text = String::deserialize(deserializer)?;
        Version::parse(text).map_err(D::Error::custom)
    }
}

impl Serialize for Range {
    /// Writes the range as a string, as it is printed.
    fn serialize<S: Serializer>(&self, serializer: S) -> Result<S::Ok, S::Error> {
        serializer.collect_str(self)
    }
}

impl<'de> Deserialize<'de> for Range {
    /// Reads a string as [`Range::parse`] does. A text that is no range is the format's own error.
    fn deserialize<D: Deserializer<'de>>(deserializer: D) -> Result<Self, D::Error> {
        let text = String::deserialize(deserializer)?;
        Range::parse(text).map_err(D::Error::custom)
    }
}
