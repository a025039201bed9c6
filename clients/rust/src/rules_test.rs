//! What this package answers about values that no text spells is what the library answers, wherever
//! both can answer.

use crate::interval::{Bound, Interval};
use crate::{Identifier, IdentifierBase, IncrementError, OutsideDirection, Range, Version};

/// The numbers of a linear congruence, which are the same in each run.
struct Numbers(u64);

impl Numbers {
    fn below(&mut self, end: usize) -> usize {
        self.0 = self
            .0
            .wrapping_mul(6364136223846793005)
            .wrapping_add(1442695040888963407);
        (self.0 >> 33) as usize % end
    }

    fn of<'a>(&mut self, words: &[&'a str]) -> &'a str {
        words[self.below(words.len())]
    }

    fn version(&mut self) -> String {
        let number = ["0", "0", "1", "1", "2", "9007199254740991"];
        let [major, minor, patch] = [self.of(&number), self.of(&number), self.of(&number)];
        let pre = self.of(&[
            "",
            "",
            "",
            "-0",
            "-1",
            "-a",
            "-a.0",
            "-a.b",
            "-rc.1.x",
            "-18446744073709551615",
        ]);
        let build = self.of(&["", "", "", "+b", "+b.1"]);
        format!("{major}.{minor}.{patch}{pre}{build}")
    }

    fn word(&mut self) -> String {
        let sign = self.of(&["", "^", "~", ">=", ">", "<", "<=", "="]);
        match self.below(6) {
            0 => self
                .of(&[
                    "1",
                    "0",
                    "1.2",
                    "x",
                    "1.x",
                    "9007199254740991",
                    "1.9007199254740991",
                ])
                .to_owned(),
            1 => format!("{} - {}", self.version(), self.version()),
            _ => format!("{sign}{}", self.version()),
        }
    }

    /// A version as lists have them: of few numbers, so that many are equal.
    fn listed(&mut self) -> String {
        let pre = self.of(&["", "", "", "-a", "-a.1", "-rc.2"]);
        let build = self.of(&["", "", "+b"]);
        format!(
            "{}.{}.{}{pre}{build}",
            self.below(4),
            self.below(6),
            self.below(9)
        )
    }

    /// A range over such versions.
    fn choice(&mut self) -> String {
        let parts: Vec<_> = (0..=self.below(3))
            .map(|_| match self.below(4) {
                0 => format!("{} - {}", self.listed(), self.listed()),
                1 => format!("{}.x", self.below(4)),
                _ => format!("{}{}", self.of(&["^", "~", ">=", "<", ""]), self.listed()),
            })
            .collect();
        parts.join(" || ")
    }

    fn range(&mut self) -> String {
        let mut parts = Vec::new();
        for _ in 0..=self.below(3) {
            let words: Vec<_> = (0..self.below(3)).map(|_| self.word()).collect();
            parts.push(words.join(" "));
        }
        parts.join("||")
    }
}

const ROUNDS: usize = 20_000;

impl Bound {
    /// The bound of what lies on its other side.
    fn turned(&self) -> Bound {
        match self {
            Bound::None => Bound::None,
            Bound::Closed(version) => Bound::Open(version.clone()),
            Bound::Open(version) => Bound::Closed(version.clone()),
        }
    }
}

impl Interval {
    pub(crate) fn covers(&self, other: &Interval) -> bool {
        self.low() <= other.low() && other.high() <= self.high()
    }

    /// What two intervals have in common. Of equal lower bounds it has the other's one, and of
    /// equal upper bounds its own one.
    pub(crate) fn meet(&self, other: &Interval) -> Option<Interval> {
        let lower = if self.low() > other.low() {
            &self.lower
        } else {
            &other.lower
        };
        let upper = if other.high() < self.high() {
            &other.upper
        } else {
            &self.upper
        };
        Interval::between(lower.clone(), upper.clone())
    }

    fn between(lower: Bound, upper: Bound) -> Option<Interval> {
        let found = Interval { lower, upper };
        (found.low() < found.high()).then_some(found)
    }

    /// What is left of it below another one, and above that.
    pub(crate) fn minus(&self, other: &Interval) -> Vec<Interval> {
        if self.meet(other).is_none() {
            return vec![self.clone()];
        }
        let below = (other.lower != Bound::None)
            .then(|| Interval::between(self.lower.clone(), other.lower.turned()));
        let above = (other.upper != Bound::None)
            .then(|| Interval::between(other.upper.turned(), self.upper.clone()));
        [below, above].into_iter().flatten().flatten().collect()
    }

    /// The smallest version that it accepts.
    pub(crate) fn least(&self) -> Option<Version> {
        let first = match &self.lower {
            Bound::None => with_pre([0; 3], vec![Identifier::Numeric(0)], Vec::new()),
            Bound::Closed(version) => version.clone(),
            Bound::Open(version) => after(version)?,
        };
        let build = match self.lower {
            Bound::None => Vec::new(),
            _ => first.build().to_vec(),
        };
        let release = with_pre(first.numbers(), Vec::new(), build);
        // What the upper bound alone lets in begins with this.
        let named = self.upper.version().filter(|it| it.is_prerelease());
        let named = named.map(|it| with_pre(it.numbers(), vec![Identifier::Numeric(0)], vec![]));
        let accepted = [Some(first), Some(release), named].into_iter().flatten();
        accepted.filter(|it| self.accepts(it, false)).min()
    }
}

fn with_pre(
    [major, minor, patch]: [u64; 3],
    pre: Vec<Identifier>,
    build: Vec<Identifier>,
) -> Version {
    Version::new(major, minor, patch, pre, build)
}

/// The smallest version above one, with its build.
fn after(version: &Version) -> Option<Version> {
    let ([major, minor, patch], build) = (version.numbers(), version.build().to_vec());
    let mut pre = version.pre_release().to_vec();
    pre.push(Identifier::Numeric(0));
    if version.is_prerelease() {
        return Some(with_pre(version.numbers(), pre, build));
    }
    let numbers = match (patch.checked_add(1), minor.checked_add(1)) {
        (Some(patch), _) => [major, minor, patch],
        (None, Some(minor)) => [major, minor, 0],
        (None, None) => [major.checked_add(1)?, 0, 0],
    };
    Some(with_pre(numbers, pre, build))
}

/// The text of a range.
fn printed(list: &[Interval]) -> String {
    let one = |it: &Interval| match (&it.lower, &it.upper) {
        (Bound::Closed(lower), Bound::Closed(upper)) if lower == upper => lower.to_string(),
        (Bound::None, Bound::None) => "*".to_owned(),
        (lower, upper) => {
            let words = [with_sign(">", lower), with_sign("<", upper)];
            words.into_iter().flatten().collect::<Vec<_>>().join(" ")
        }
    };
    list.iter().map(one).collect::<Vec<_>>().join("||")
}

fn with_sign(sign: &str, bound: &Bound) -> Option<String> {
    match bound {
        Bound::None => None,
        Bound::Closed(version) => Some(format!("{sign}={version}")),
        Bound::Open(version) => Some(format!("{sign}{version}")),
    }
}

/// The set operations, as their definitions have them.
mod rules {
    use super::{Interval, Version};

    pub(crate) fn allows_all(one: &[Interval], other: &[Interval]) -> bool {
        one.iter()
            .any(|it| other.iter().any(|covered| it.covers(covered)))
    }

    pub(crate) fn allows_any(one: &[Interval], other: &[Interval]) -> bool {
        !intersect(one, other).is_empty()
    }

    pub(crate) fn intersect(one: &[Interval], other: &[Interval]) -> Vec<Interval> {
        one.iter()
            .flat_map(|it| other.iter().filter_map(|met| it.meet(met)))
            .collect()
    }

    pub(crate) fn difference(one: &[Interval], other: &[Interval]) -> Vec<Interval> {
        other.iter().fold(one.to_vec(), |left, taken| {
            left.iter().flat_map(|it| it.minus(taken)).collect()
        })
    }

    pub(crate) fn min_version(range: &[Interval]) -> Option<Version> {
        range.iter().filter_map(Interval::least).min()
    }
}

#[test]
fn questions_about_versions() {
    let mut numbers = Numbers(1);
    let mut accepted = 0;
    for _ in 0..ROUNDS {
        let (text, version) = (numbers.range(), Version::parse(numbers.version()).unwrap());
        let Ok(range) = Range::parse(&text) else {
            continue;
        };
        for include in [false, true] {
            let asked = range.satisfies_with_prerelease(&version, include);
            assert_eq!(
                asked,
                range.accepts(&version, include),
                "{text} {version} {include}"
            );
            accepted += usize::from(asked);
            for direction in [OutsideDirection::Higher, OutsideDirection::Lower] {
                let asked = range.outside(&version, direction, include).unwrap();
                let is_higher = direction == OutsideDirection::Higher;
                assert_eq!(
                    asked,
                    range.is_outside(&version, is_higher, include),
                    "{text} {version}"
                );
            }
        }
    }
    assert!(accepted > ROUNDS / 10);
}

#[test]
fn questions_about_ranges() {
    let mut numbers = Numbers(2);
    let mut met = 0;
    for _ in 0..ROUNDS {
        let (one, two) = (numbers.range(), numbers.range());
        let (Ok(range), Ok(other)) = (Range::parse(&one), Range::parse(&two)) else {
            continue;
        };
        let (these, others) = (&range.intervals(), &other.intervals());
        assert_eq!(
            range.allows_all(&other),
            rules::allows_all(these, others),
            "{one} {two}"
        );
        assert_eq!(
            range.allows_any(&other),
            rules::allows_any(these, others),
            "{one} {two}"
        );
        let shown = |it: Option<Range>| it.map(|it| it.to_string());
        let by_rules = |it: Vec<_>| (!it.is_empty()).then(|| printed(&it));
        let both = shown(range.intersect(&other));
        met += usize::from(both.is_some());
        assert_eq!(
            both,
            by_rules(rules::intersect(these, others)),
            "{one} {two}"
        );
        let rest = shown(range.difference(&other));
        assert_eq!(
            rest,
            by_rules(rules::difference(these, others)),
            "{one} {two}"
        );
        let least = range.min_version().map(|it| it.to_string());
        assert_eq!(
            least,
            rules::min_version(these).map(|it| it.to_string()),
            "{one}"
        );
    }
    assert!(met > ROUNDS / 10);
}

#[test]
fn best_of_many() {
    let mut numbers = Numbers(4);
    let mut chosen = 0;
    for round in 0..600 {
        let count = [3, 31, 32, 100, 500][round % 5];
        let mut versions: Vec<_> = (0..count)
            .map(|_| Version::parse(numbers.listed()).unwrap())
            .collect();
        match round % 3 {
            0 => versions.sort(),
            1 => versions.sort_by(|one, other| other.cmp(one)),
            _ => {}
        }
        let text = numbers.choice();
        let Ok(range) = Range::parse(&text) else {
            continue;
        };
        let accepted = || versions.iter().filter(|it| range.accepts(it, false));
        // The last of the greatest ones, and the first of the smallest ones.
        for (asked, wanted) in [
            (range.max_satisfying(&versions), accepted().max()),
            (range.min_satisfying(&versions), accepted().min()),
        ] {
            let at = |it: Option<&Version>| it.map(|it| it as *const Version);
            assert_eq!(at(asked), at(wanted), "{text}");
            chosen += usize::from(asked.is_some());
        }
    }
    assert!(chosen > 600);
}

#[test]
fn increments() {
    let words = "major minor patch premajor preminor prepatch prerelease pre release prefix x";
    let words: Vec<_> = words.split(' ').collect();
    let ids = [
        None,
        Some(""),
        Some("a"),
        Some("a.b"),
        Some("rc"),
        Some("1"),
        Some("0"),
        Some("a/b"),
    ];
    let bases = [
        IdentifierBase::False,
        IdentifierBase::Value(0),
        IdentifierBase::Value(1),
    ];
    let mut numbers = Numbers(3);
    for _ in 0..300 {
        let version = Version::parse(numbers.version()).unwrap();
        for word in &words {
            for id in ids {
                for base in bases {
                    let parts = |it: Result<Version, IncrementError>| it.map(Version::into_parts);
                    let asked = parts(version.inc(word, id, Some(base)));
                    let own = parts(version.inc_by_rules(word, id, base));
                    assert_eq!(asked, own, "{version} {word} {id:?} {base:?}");
                }
            }
        }
    }
}
