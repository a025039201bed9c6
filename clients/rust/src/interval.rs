//! The intervals of a range, and the rules by which they are asked where the library is not: about
//! versions that no text spells.

use crate::ffi::{self, Kept, KeptBound, KeptInterval};
use crate::line::{Line, Shown};
use crate::Version;
use std::fmt;
use std::hash::{Hash, Hasher};

/// One end of an interval.
#[derive(Debug, Clone, PartialEq, Eq)]
pub(crate) enum Bound {
    /// There is no bound on this side.
    None,
    /// The version belongs to the interval: `>=` below, `<=` above.
    Closed(Version),
    /// The version does not belong to the interval: `>` below, `<` above.
    Open(Version),
}

/// The versions between two bounds, of which the lower one lies below the upper one.
#[derive(Debug, Clone, PartialEq, Eq)]
pub(crate) struct Interval {
    pub(crate) lower: Bound,
    pub(crate) upper: Bound,
}

/// A place in the order of versions: just before a version, or just after it.
#[derive(PartialEq, Eq, PartialOrd, Ord)]
pub(crate) enum Cut<'a> {
    Start,
    At(&'a Version, bool),
    End,
}

impl Bound {
    fn of(it: &KeptBound) -> Bound {
        match it.kind {
            ffi::BOUND_CLOSED => Bound::Closed(it.version.version()),
            ffi::BOUND_OPEN => Bound::Open(it.version.version()),
            _ => Bound::None,
        }
    }

    pub(crate) fn version(&self) -> Option<&Version> {
        match self {
            Bound::None => None,
            Bound::Closed(version) | Bound::Open(version) => Some(version),
        }
    }

    /// Whether it is a pre-release of the same three numbers.
    fn names(&self, version: &Version) -> bool {
        let named = self.version();
        named.is_some_and(|it| it.is_prerelease() && it.numbers() == version.numbers())
    }
}

impl Interval {
    pub(crate) fn of(it: &KeptInterval) -> Interval {
        Interval {
            lower: Bound::of(&it.lower),
            upper: Bound::of(&it.upper),
        }
    }

    /// Whether it has no bound.
    pub(crate) fn is_any(&self) -> bool {
        matches!((&self.lower, &self.upper), (Bound::None, Bound::None))
    }

    pub(crate) fn low(&self) -> Cut<'_> {
        match &self.lower {
            Bound::None => Cut::Start,
            Bound::Closed(version) => Cut::At(version, false),
            Bound::Open(version) => Cut::At(version, true),
        }
    }

    pub(crate) fn high(&self) -> Cut<'_> {
        match &self.upper {
            Bound::None => Cut::End,
            Bound::Closed(version) => Cut::At(version, true),
            Bound::Open(version) => Cut::At(version, false),
        }
    }

    fn holds(&self, version: &Version) -> bool {
        self.low() <= Cut::At(version, false) && Cut::At(version, true) <= self.high()
    }

    /// Whether it holds a version, and lets it in: a pre-release only where a bound names one of
    /// the same three numbers, unless pre-releases are included.
    pub(crate) fn accepts(&self, version: &Version, include_prerelease: bool) -> bool {
        let is_named = || self.lower.names(version) || self.upper.names(version);
        self.holds(version) && (!version.is_prerelease() || include_prerelease || is_named())
    }

    /// Whether it ends below a version, but for what it accepts.
    pub(crate) fn ends_below(&self, version: &Version) -> bool {
        self.upper != Bound::None && self.low() <= Cut::At(version, false)
    }

    /// Whether it begins above a version, but for what it accepts.
    pub(crate) fn begins_above(&self, version: &Version) -> bool {
        self.is_any() || self.lower != Bound::None && self.high() > Cut::At(version, false)
    }
}

// ---- As they are kept

impl Kept<'_> {
    fn version(&self) -> Version {
        let (pre, build) = (self.pre_release.as_str(), self.build.as_str());
        if pre.is_empty() && build.is_empty() {
            return Version::release(self.numbers);
        }
        Version::of_texts(self.numbers, pre, build)
    }

    fn shown(&self) -> Shown<'_> {
        let [pre_release, build] = [self.pre_release.as_str(), self.build.as_str()]
            .map(|it| Some(it).filter(|it| !it.is_empty()));
        Shown {
            numbers: self.numbers,
            pre_release,
            build,
        }
    }
}

impl PartialEq for Kept<'_> {
    fn eq(&self, other: &Self) -> bool {
        self.numbers == other.numbers && self.pre_release.as_str() == other.pre_release.as_str()
    }
}

impl Hash for Kept<'_> {
    fn hash<H: Hasher>(&self, state: &mut H) {
        (self.numbers, self.pre_release.as_str()).hash(state);
    }
}

impl KeptInterval<'_> {
    /// Adds the interval as it is printed.
    pub(crate) fn add_to<W: fmt::Write>(&self, line: &mut Line<W>) -> fmt::Result {
        let (lower, upper) = (&self.lower, &self.upper);
        if lower.kind == ffi::BOUND_CLOSED && lower == upper {
            return line.add_version(&lower.version.shown());
        }
        match lower.kind {
            ffi::BOUND_NONE if upper.kind == ffi::BOUND_NONE => return line.add("*"),
            ffi::BOUND_NONE => {}
            kind => {
                line.add(if kind == ffi::BOUND_OPEN { ">" } else { ">=" })?;
                line.add_version(&lower.version.shown())?;
            }
        }
        if upper.kind == ffi::BOUND_NONE {
            return Ok(());
        }
        line.add(if lower.kind == ffi::BOUND_NONE {
            ""
        } else {
            " "
        })?;
        line.add(if upper.kind == ffi::BOUND_OPEN {
            "<"
        } else {
            "<="
        })?;
        line.add_version(&upper.version.shown())
    }
}
