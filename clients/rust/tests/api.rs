//! The items of the crate nodejs-semver, each with what it promises beside the rows.

use nodejs_semver::{
    FlawKind, Identifier, IdentifierBase, IncrementError, OutsideDirection, Range, RangeError,
    ReleaseType, SemverError, Version, VersionDiff, VersionParts, MAX_LENGTH, MAX_SAFE_INTEGER,
};
use std::cmp::Ordering;
use std::collections::hash_map::DefaultHasher;
use std::collections::{BTreeSet, HashSet};
use std::error::Error;
use std::fmt::{Debug, Display};
use std::hash::{Hash, Hasher};
use std::panic::{RefUnwindSafe, UnwindSafe};

const MOST: u64 = u64::MAX;

fn v(text: &str) -> Version {
    Version::parse(text).unwrap()
}

fn r(text: &str) -> Range {
    Range::parse(text).unwrap()
}

fn named(text: &str) -> Identifier {
    Identifier::AlphaNumeric(text.to_owned())
}

fn hash_of<T: Hash>(it: &T) -> u64 {
    let mut hasher = DefaultHasher::new();
    it.hash(&mut hasher);
    hasher.finish()
}

fn is_plain<T: Send + Sync + Unpin + UnwindSafe + RefUnwindSafe + Clone + Debug>() {}

#[test]
fn traits() {
    is_plain::<Version>();
    is_plain::<Range>();
    is_plain::<Identifier>();
    is_plain::<VersionParts>();
    is_plain::<VersionDiff>();
    is_plain::<IdentifierBase>();
    is_plain::<IncrementError>();
    is_plain::<RangeError>();
    is_plain::<SemverError>();
    is_plain::<OutsideDirection>();
    let kind: ReleaseType = VersionDiff::Major;
    assert_eq!(kind.to_string(), "major");
    let read = |text: &str| {
        text.parse::<Version>()
            .and(text.parse::<Range>().map(|_| ()))
    };
    assert_eq!((read("1.2.3"), read("x")), (Ok(()), Err(SemverError)));
    assert!(
        Version::parse(String::from("1.2.3")).is_ok() && Range::parse(String::from("1")).is_ok()
    );
    assert_eq!((MAX_SAFE_INTEGER, MAX_LENGTH), (9_007_199_254_740_991, 256));
}

#[test]
fn parts() {
    let version = v("1.2.34-abc.123+1");
    assert_eq!(
        (version.major(), version.minor(), version.patch()),
        (1, 2, 34)
    );
    assert_eq!(
        version.pre_release(),
        [named("abc"), Identifier::Numeric(123)]
    );
    assert_eq!(version.build(), [Identifier::Numeric(1)]);
    assert!(version.is_prerelease() && !v("1.2.3+a").is_prerelease());
    assert_eq!(
        v("1.0.0-rc.2-migration").pre_release(),
        [named("rc"), named("2-migration")]
    );
    let VersionParts {
        major,
        minor,
        patch,
        pre_release,
        build,
    } = version.clone().into_parts();
    let again = Version::new(major, minor, patch, pre_release, build);
    assert_eq!(
        (again.to_string(), again.into_parts()),
        (version.to_string(), version.into_parts())
    );
    let plain = Version::from((1u8, 2, 3)).into_parts();
    assert_eq!((plain.pre_release, plain.build), (vec![], vec![]));
    let many: Vec<_> = (0..20).map(Identifier::Numeric).collect();
    let version = Version::new(1, 2, 3, many.clone(), many.clone());
    assert_eq!(
        (version.pre_release(), version.build()),
        (&many[..], &many[..])
    );
    assert_eq!(v(&version.to_string()).into_parts(), version.into_parts());
}

#[test]
fn printed() {
    let version = Version::new(1, 2, 3, vec![Identifier::Numeric(0)], vec![named("a")]);
    assert_eq!(version.to_string(), "1.2.3-0+a");
    assert_eq!(Version::from((1u64, 0, 0, 7)).to_string(), "1.0.0-7");
    assert_eq!(Version::from((0i64, 0, 0)), v("0.0.0"));
    assert_eq!(v("1.2.3+001").to_string(), "1.2.3+1");
    assert_eq!(
        (named("a").to_string(), Identifier::Numeric(7).to_string()),
        ("a".into(), "7".into())
    );
    assert_eq!(
        (Range::any().to_string(), r("").to_string()),
        ("*".into(), "*".into())
    );
    assert!(format!("{:?} {:?}", v("1.2.3-a"), r("^1")).contains("<2.0.0-0"));
}

#[test]
fn texts() {
    let long = |letters| format!("1.1.1-{}", "X".repeat(letters));
    assert!(Version::parse(long(250)).is_ok() && Version::parse(long(251)).is_err());
    // It prints a byte more than was read, so that the text cannot be read again.
    let version = v(&format!("1.2.3{}", "b".repeat(251)));
    assert_eq!(version.to_string().len(), 257);
    assert!(version.satisfies(&r(">=1.2.3-a <1.2.3-c")) && !version.satisfies(&r("^1.2.3")));
    assert_eq!(v("1.2.3-aŁ").to_string(), "1.2.3-a");
    assert_eq!(v("1.2.3Ł").to_string(), "1.2.3");
    assert!(Range::parse("1.2.3-aŁ").is_err() && Range::parse("1.2.3Ł").is_err());
    for space in ['\u{3000}', '\u{feff}', '\u{a0}', '\t'] {
        assert_eq!(
            r(&format!(">=1.0.0{space}<2.0.0")).to_string(),
            ">=1.0.0 <2.0.0"
        );
    }
    for other in ['\u{85}', '\u{180e}', '\u{200b}', '\0'] {
        assert!(Range::parse(format!(">=1.0.0{other}<2.0.0")).is_err());
    }
    assert_eq!(r(&">=0.0.0 ".repeat(20_000)).to_string(), ">=0.0.0");
    let list: Vec<_> = (0..300).map(|it| format!("1.0.{it}")).collect();
    assert_eq!(r(&list.join(" || ")).to_string(), list.join("||"));
}

#[test]
fn order() {
    let chain = "1.0.0-alpha 1.0.0-alpha.1 1.0.0-alpha.beta 1.0.0-beta 1.0.0-beta.2 1.0.0-beta.11 \
                 1.0.0-rc.1 1.0.0 1.0.1-0 1.0.1 1.1.0 2.0.0";
    let chain: Vec<_> = chain.split_whitespace().map(v).collect();
    for (at, one) in chain.iter().enumerate() {
        for (place, other) in chain.iter().enumerate() {
            assert_eq!(one.cmp(other), at.cmp(&place), "{one} {other}");
            assert_eq!(one == other, at == place);
        }
    }
    let (one, other) = (v("1.2.3-a+x"), v("1.2.3-a+y"));
    assert_eq!(
        (one.cmp(&other), hash_of(&one)),
        (Ordering::Equal, hash_of(&other))
    );
    assert_eq!((one.diff(&other), one == other), (None, true));
    assert_eq!([one, other].into_iter().collect::<HashSet<_>>().len(), 1);
    assert_eq!(
        chain
            .iter()
            .rev()
            .cloned()
            .collect::<BTreeSet<_>>()
            .into_iter()
            .collect::<Vec<_>>(),
        chain
    );
    assert!(Identifier::Numeric(MOST) < named("") && named("A") < named("a"));
}

#[test]
fn equal_ranges() {
    assert_eq!(
        (r("^1.2"), hash_of(&r("^1.2"))),
        (r(">=1.2.0 <2.0.0-0"), hash_of(&r("1.2 - 1")))
    );
    assert_eq!(r("1.2.3+a"), r("=1.2.3"));
    // The list of intervals counts, and not the set of versions.
    assert_ne!(r("1 || 2"), r(">=1.0.0 <3.0.0-0"));
    assert_ne!(r("*"), r(""));
}

#[test]
fn errors() {
    let shown = |it: &dyn Error| it.to_string();
    assert_eq!(shown(&SemverError), "Invalid semantic version or range");
    let inc = |text: &str, word, id, base| v(text).inc(word, id, base).unwrap_err();
    let off = Some(IdentifierBase::False);
    for (error, text) in [
        (
            inc("1.2.3", "prefix", Some("a/b"), None),
            "invalid identifier: a/b",
        ),
        (
            inc("1.2.3", "fake", None, None),
            "invalid increment argument: fake",
        ),
        (
            inc("1.2.3", "pre", None, off),
            "invalid increment argument: identifier is empty",
        ),
        (
            inc("1.2.3-dev", "pre", Some("dev"), off),
            "invalid increment argument: identifier already exists",
        ),
        (
            inc("1.2.3+b", "release", None, None),
            "version 1.2.3+b is not a prerelease",
        ),
        (
            inc("1.2.3-18446744073709551615", "pre", None, None),
            "increment would overflow a version component",
        ),
    ] {
        assert_eq!(shown(&error), text);
    }
    let direction = OutsideDirection::try_from('=').unwrap_err();
    assert_eq!(direction, RangeError::InvalidOutsideDirection('='));
    let text =
        "outside() only supports checking whether a version is above or below a range, found `=`";
    assert_eq!(shown(&direction), text);
    let text = "outside() could not determine comparator bounds for this range";
    assert_eq!(shown(&RangeError::MissingComparatorBounds), text);
}

#[test]
fn directions_and_bases() {
    for (sign, direction) in [
        ('>', OutsideDirection::Higher),
        ('<', OutsideDirection::Lower),
    ] {
        assert_eq!(OutsideDirection::try_from(sign), Ok(direction));
        assert_eq!(direction.to_string(), sign.to_string());
    }
    assert_eq!(IdentifierBase::default(), IdentifierBase::Value(0));
    assert_eq!(IdentifierBase::from(true), IdentifierBase::Value(1));
    assert_eq!(IdentifierBase::from(false), IdentifierBase::False);
    assert_eq!(
        [IdentifierBase::from(7u64), IdentifierBase::from(7usize)],
        [IdentifierBase::Value(7); 2]
    );
    let inc = |base| {
        v("1.2.3")
            .inc("premajor", Some("rc"), Some(base))
            .unwrap()
            .to_string()
    };
    assert_eq!(inc(IdentifierBase::Value(7)), "2.0.0-rc.1");
    assert_eq!(inc(IdentifierBase::False), "2.0.0-rc");
    let range = r("0.7.x");
    assert_eq!(
        range.outside(&v("0.7.2-beta"), OutsideDirection::Higher, true),
        Ok(false)
    );
    assert_eq!(
        r(">1.2.3").outside(&v("1.3.0-alpha"), OutsideDirection::Lower, true),
        Ok(false)
    );
}

#[test]
fn increments_of_values() {
    // An identifier that is put in is one, although its text spells several, or a number.
    let once = v("1.2.3-0").inc("prerelease", Some("1"), None).unwrap();
    assert_eq!(once.pre_release(), [named("1"), Identifier::Numeric(0)]);
    assert_eq!(
        once.inc("prerelease", Some("1"), None).unwrap().to_string(),
        "1.2.3-1.0"
    );
    assert_eq!(
        v(&once.to_string())
            .inc("prerelease", Some("1"), None)
            .unwrap()
            .to_string(),
        "1.2.3-1.1"
    );
    let once = v("1.0.0")
        .inc("prepatch", Some("alpha.1.1a"), None)
        .unwrap();
    assert_eq!(
        once.pre_release(),
        [named("alpha.1.1a"), Identifier::Numeric(0)]
    );
    let twice = once.inc("prerelease", Some("alpha.1.1a"), None).unwrap();
    assert_eq!(twice.to_string(), "1.0.1-alpha.1.1a.1");
    assert_eq!(
        twice
            .inc("prerelease", Some("beta"), None)
            .unwrap()
            .to_string(),
        "1.0.1-beta.0"
    );
    // Build metadata is kept, and the version is not changed.
    let version = v("1.2.3-a+b.c");
    assert_eq!(
        version.inc("minor", None, None).unwrap().to_string(),
        "1.3.0+b.c"
    );
    assert_eq!(version.to_string(), "1.2.3-a+b.c");
}

#[test]
fn great_numbers() {
    let number = |text: &str| {
        if text == "U" {
            MOST
        } else {
            text.parse().unwrap()
        }
    };
    let of = |text: &str| {
        let (triple, pre) = text.split_once('-').unwrap_or((text, ""));
        let numbers: Vec<u64> = triple.split('.').map(number).collect();
        let pre = match pre {
            "" => vec![],
            "U" => vec![Identifier::Numeric(MOST)],
            other => vec![other
                .parse()
                .map_or_else(|_| named(other), Identifier::Numeric)],
        };
        Version::new(numbers[0], numbers[1], numbers[2], pre, vec![])
    };
    for row in [
        "U.0.0 major Overflow",
        "U.0.0 premajor Overflow",
        "U.0.0-0 major U.0.0",
        "1.U.5 minor Overflow",
        "1.U.5 preminor Overflow",
        "1.U.0-a minor 1.U.0",
        "1.2.U patch Overflow",
        "1.2.U prepatch Overflow",
        "1.2.U prerelease Overflow",
        "1.2.3-U pre Overflow",
    ] {
        let words: Vec<_> = row.split(' ').collect();
        let wanted = match words[2] {
            "Overflow" => Err(IncrementError::Overflow),
            other => Ok(of(other)),
        };
        assert_eq!(of(words[0]).inc(words[1], None, None), wanted, "{row}");
    }
    let top = Version::from((MOST, MOST, MOST));
    assert!(r(">1").satisfies(&top) && !r("^1").satisfies(&top) && top > of("U.0.0"));
    assert_eq!(
        r("*").max_satisfying(&[v("1.0.0"), top.clone()]),
        Some(&top)
    );
    assert_eq!(
        r("^1").outside(&top, OutsideDirection::Higher, false),
        Ok(true)
    );
    assert_eq!(top.diff(&of("U.0.0")), Some(VersionDiff::Minor));
}

#[test]
fn ranges_past_the_greatest_number() {
    // These print a number that is not read again, and are kept nevertheless.
    let tilde = r("~1.9007199254740991");
    assert_eq!(
        tilde.to_string(),
        ">=1.9007199254740991.0 <1.9007199254740992.0-0"
    );
    assert!(tilde.satisfies(&v("1.9007199254740991.7")) && !tilde.satisfies(&v("2.0.0")));
    let rest = r(">=1").difference(&tilde).unwrap();
    assert_eq!(
        rest.to_string(),
        ">=1.0.0 <1.9007199254740991.0||>=1.9007199254740992.0-0"
    );
    assert!(rest.satisfies(&v("2.0.0")) && !rest.satisfies(&v("1.9007199254740991.7")));
    assert_eq!(rest.min_version(), Some(v("1.0.0")));
    let least = r(">1.9007199254740991.9007199254740991")
        .min_version()
        .unwrap();
    assert_eq!(least.to_string(), "1.9007199254740991.9007199254740992");
    let above = Range::any()
        .difference(&r("<=1 || ^9007199254740991"))
        .unwrap();
    let least = above
        .difference(&r("<9007199254740991"))
        .unwrap()
        .min_version()
        .unwrap();
    assert_eq!(least.to_string(), "9007199254740992.0.0-0");
    assert!(rest.allows_any(&r("2")) && rest.allows_all(&r("2")) && !rest.allows_any(&tilde));
    assert_eq!(rest.intersect(&r("2")), Some(r("2")));
}

#[test]
fn unspelled_identifiers() {
    let odd =
        |ids: &[&str]| Version::new(1, 2, 3, ids.iter().map(|it| named(it)).collect(), vec![]);
    let versions = [
        odd(&[""]),
        odd(&["1"]),
        odd(&["a b"]),
        odd(&["a.b"]),
        odd(&["a", "b"]),
        v("1.2.3-1"),
    ];
    for one in &versions {
        assert!(one.is_prerelease() && r(">=1.2.3-0").satisfies(one) && !r("1.2.3").satisfies(one));
        assert!(one.inc("prerelease", None, None).is_ok() && *one < v("1.2.3"));
        assert_eq!(one.inc("patch", None, None), Ok(v("1.2.3")));
        for other in &versions {
            let lists = one.pre_release().cmp(other.pre_release());
            assert_eq!((one.cmp(other), one == other), (lists, lists.is_eq()));
            assert_eq!(one.diff(other).is_none(), lists.is_eq());
            assert!(!lists.is_eq() || hash_of(one) == hash_of(other));
        }
    }
    assert!(
        v("1.2.3-1") < odd(&["1"]),
        "a number is below every other identifier"
    );
    assert_eq!(r("*").max_satisfying(&versions), None);
    assert_eq!(r(">=1.2.3-0").max_satisfying(&versions), Some(&versions[3]));
}

#[test]
fn both_readings() {
    for text in ["v1.2.3 oops", "1.02.3", "V1.2.3", "1.2.3beta"] {
        assert!(
            Version::parse(text).is_ok() && Version::parse_npm(text).is_err(),
            "{text}"
        );
    }
    assert_eq!(
        Version::parse_npm(" v1.2.3-rc.1 ").unwrap().to_string(),
        "1.2.3-rc.1"
    );
    assert_eq!(r(">=1.0.0, <2.0.0").to_string(), "<2.0.0");
    assert!(Range::parse_npm(">=1.0.0, <2.0.0").is_err());
    assert_eq!(Range::parse_npm("^1.2").unwrap(), r("^1.2"));
    assert_eq!(Range::parse_npm("1 - 0").unwrap().min_version(), None);
}

#[test]
fn flaws() {
    let flaw = |text| Version::flaw(text).map(|it| (it.kind(), it.offset()));
    assert_eq!(flaw("1.2.3"), None);
    assert_eq!(flaw("1.x"), Some((FlawKind::NoNumber, 2)));
    assert_eq!(flaw("1.2"), Some((FlawKind::NoDot, 3)));
    assert_eq!(flaw("5.0.0.9"), Some((FlawKind::Ignored, 5)));
    assert_eq!(
        flaw("1.9007199254740992.0"),
        Some((FlawKind::GreatNumber, 2))
    );
    assert_eq!(flaw(&"1".repeat(300)), Some((FlawKind::TooLong, 256)));
    let words = Range::ignored_words("foo 1.2.3 || ^*");
    let told: Vec<_> = words
        .iter()
        .map(|it| (it.start(), it.end(), it.is_malformed()))
        .collect();
    assert_eq!(told, [(0, 3, true), (13, 15, false)]);
    assert_eq!(Range::ignored_words("foo ".repeat(100)).len(), 100);
    fn shown(it: impl Display) -> String {
        it.to_string()
    }
    assert_eq!(
        shown(Version::flaw("1.x").unwrap()),
        "a number is expected at byte 2"
    );
}

/// No text and no value makes a call panic.
#[test]
fn hostile() {
    let pieces = [
        "1",
        "0",
        "007",
        "9007199254740991",
        "9007199254740992",
        "18446744073709551616",
        ".",
        "-",
        "+",
        "a",
        "x",
        "*",
        "v",
        "V",
        "=",
        ">",
        "<",
        ">=",
        "<=",
        "~",
        "~>",
        "^",
        "||",
        "|",
        " ",
        " - ",
        "\u{feff}",
        "\u{3000}",
        "\u{85}",
        "Ł",
        "\u{10ffff}",
        "\0",
        "\n",
        "1.2.3",
        "1.2.3-rc.1+b",
        "^1.2",
        ",",
        "latest",
    ];
    let mut seed = 1u64;
    let mut below = |end: usize| {
        seed = seed
            .wrapping_mul(6364136223846793005)
            .wrapping_add(1442695040888963407);
        (seed >> 33) as usize % end
    };
    let mut texts: Vec<String> = Vec::new();
    for _ in 0..5_000 {
        texts.push((0..below(9)).map(|_| pieces[below(pieces.len())]).collect());
    }
    texts.push("1.2.3-".to_owned() + &"a.".repeat(100_000));
    texts.push(">=1.0.0 ".repeat(10_000) + "||".repeat(10_000).as_str());
    let ids: Vec<_> = texts.iter().take(300).map(|it| named(it)).collect();
    let odd = Version::new(MOST, 0, MOST, ids.clone(), ids);
    let (mut versions, mut ranges) = (vec![odd], vec![Range::any()]);
    for text in &texts {
        assert!(
            Version::flaw(text).is_some() || Version::parse(text).is_ok(),
            "{text}"
        );
        let words = Range::ignored_words(text);
        assert!(
            words
                .iter()
                .all(|it| text.get(it.start()..it.end()).is_some()),
            "{text}"
        );
        versions.extend(Version::parse(text));
        versions.extend(Version::parse_npm(text));
        ranges.extend(Range::parse(text));
        ranges.extend(Range::parse_npm(text));
    }
    assert!(versions.len() > 100 && ranges.len() > 100);
    for at in 0..2_000 {
        let (one, two) = (&ranges[at % ranges.len()], &ranges[below(ranges.len())]);
        let version = &versions[below(versions.len())];
        let text = &texts[below(texts.len())];
        for made in [one.intersect(two), one.difference(two)]
            .into_iter()
            .flatten()
        {
            let _ = (
                made.to_string(),
                made.min_version(),
                made.allows_all(one),
                made.satisfies(version),
            );
        }
        let _ = (
            one.outside(version, OutsideDirection::Lower, true),
            one.max_satisfying(&versions[..20]),
        );
        let _ = (
            version.inc("pre", Some(text), None),
            version.inc(text, None, Some(IdentifierBase::False)),
        );
        let _ = (
            version.diff(&versions[0]),
            version.cmp(&versions[0]),
            format!("{version} {version:?}"),
        );
        assert_eq!(version.clone().into_parts(), version.clone().into_parts());
    }
}
