//! The feature `serde`, by the package of the folder serde: JSON of versions and ranges.
#![cfg(feature = "serde")]

use std::collections::BTreeMap;

use nodejs_semver::{Range, Version};

#[test]
fn versions_are_strings() {
    let version: Version = serde_json::from_str("\"1.2.3-rc.4+b\"").unwrap();
    assert_eq!(version, Version::parse("1.2.3-rc.4+b").unwrap());
    assert_eq!(serde_json::to_string(&version).unwrap(), "\"1.2.3-rc.4+b\"");
}

#[test]
fn ranges_are_strings() {
    let range: Range = serde_json::from_str("\"^1.2.3 || 4\"").unwrap();
    let text = serde_json::to_string(&range).unwrap();
    assert_eq!(text, "\">=1.2.3 <2.0.0-0||>=4.0.0 <5.0.0-0\"");
    assert_eq!(serde_json::from_str::<Range>(&text).unwrap(), range);
}

#[test]
fn other_values_are_errors() {
    for text in ["\"1.2\"", "\"\"", "5", "null", "[]", "{}", "true"] {
        assert!(serde_json::from_str::<Version>(text).is_err(), "{text}");
    }
    for text in ["\"latest\"", "5", "null", "[]", "true"] {
        assert!(serde_json::from_str::<Range>(text).is_err(), "{text}");
    }
    let error = serde_json::from_str::<Version>("\"oops\"").unwrap_err();
    assert!(error
        .to_string()
        .starts_with(&Version::parse("oops").unwrap_err().to_string()));
}

#[test]
fn versions_are_keys_of_maps() {
    let text = "{\"1.2.3\":1,\"1.10.0\":2}";
    let found: BTreeMap<Version, u32> = serde_json::from_str(text).unwrap();
    assert_eq!(serde_json::to_string(&found).unwrap(), text);
}
