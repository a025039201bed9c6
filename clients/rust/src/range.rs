//! Ranges.

use crate::error::{RangeError, SemverError};
use crate::ffi::{self, Kept, KeptInterval, KeptRange, Operation, Reading};
use crate::interval::Interval;
use crate::line::Line;
use crate::version::cmp_numbers;
use crate::Version;
use std::fmt;
use std::hash::{Hash, Hasher};
use std::str::FromStr;

/// A range of versions: one interval or several.
///
/// Equality and hash are of the list of intervals, not of the versions that a range accepts. Build
/// metadata does not count in them.
#[derive(Clone)]
pub struct Range {
    kept: KeptRange,
}

/// A side of a range.
#[derive(Debug, Clone, Copy, PartialEq, Eq, Hash)]
pub enum OutsideDirection {
    /// Above it.
    Higher,
    /// Below it.
    Lower,
}

impl fmt::Display for OutsideDirection {
    fn fmt(&self, f: &mut fmt::Formatter<'_>) -> fmt::Result {
        f.write_str(match self {
            Self::Higher => ">",
            Self::Lower => "<",
        })
    }
}

impl TryFrom<char> for OutsideDirection {
    type Error = RangeError;

    fn try_from(value: char) -> Result<OutsideDirection, RangeError> {
        match value {
            '>' => Ok(Self::Higher),
            '<' => Ok(Self::Lower),
            other => Err(RangeError::InvalidOutsideDirection(other)),
        }
    }
}

/// The numbers between which the best of some versions lies, if there is one.
struct Window {
    low: [u64; 3],
    high: [u64; 3],
}

/// Of more versions than these some are asked first, to leave out others.
const FEW: usize = 16;
/// How many are asked of so many versions, and how many of fewer.
const MANY: usize = 256;
const SAMPLES_OF_MANY: usize = 16;
const SAMPLES: usize = 8;
// From one of them to the next one. It is odd, so that each is met.
const STEP: usize = 5;

impl Window {
    /// That of what a range accepts: no lower bound has lower numbers, and no upper bound higher
    /// ones.
    fn of(range: &[KeptInterval]) -> Window {
        let mut window = Window {
            low: [u64::MAX; 3],
            high: [0; 3],
        };
        for KeptInterval { lower, upper } in range {
            // Without a bound these are zeros.
            window.low = window.low.min(lower.version.numbers);
            window.high = match upper.kind {
                ffi::BOUND_NONE => [u64::MAX; 3],
                _ => window.high.max(upper.version.numbers),
            };
        }
        window
    }

    /// Whether the numbers of a version are in it. Mostly the first ones say so.
    #[inline]
    fn has(&self, version: &Version) -> bool {
        let major = version.major();
        if major < self.low[0] || major > self.high[0] {
            return false;
        }
        let numbers = &version.numbers();
        cmp_numbers(&self.low, numbers).is_le() && cmp_numbers(numbers, &self.high).is_le()
    }
}

impl Range {
    fn read(reading: Reading, text: &str) -> Result<Range, SemverError> {
        match ffi::read_range(reading, text) {
            Ok(kept) => Ok(Range { kept }),
            Err(_) => Err(SemverError),
        }
    }

    /// Reads a range leniently, as the crate nodejs-semver does: words that it does not understand
    /// are ignored, if there are others.
    ///
    /// ```
    /// # use nodejs_semver::Range;
    /// assert_eq!(Range::parse("^1.2 || 3.x")?.to_string(), ">=1.2.0 <2.0.0-0||>=3.0.0 <4.0.0-0");
    /// assert!(Range::parse("latest").is_err());
    /// # Ok::<(), nodejs_semver::SemverError>(())
    /// ```
    pub fn parse<S: AsRef<str>>(input: S) -> Result<Range, SemverError> {
        Range::read(Reading::Port, input.as_ref())
    }

    /// Reads a range as npm does without pre-releases included, or rejects the text. The crate
    /// nodejs-semver has no such call.
    pub fn parse_npm<S: AsRef<str>>(input: S) -> Result<Range, SemverError> {
        Range::read(Reading::Npm, input.as_ref())
    }

    /// The range of all versions.
    pub fn any() -> Range {
        Range {
            kept: KeptRange::any(),
        }
    }

    /// Whether the range accepts a version. A pre-release is accepted only where a bound names a
    /// pre-release of the same three numbers.
    pub fn satisfies(&self, version: &Version) -> bool {
        self.satisfies_with_prerelease(version, false)
    }

    /// Whether the range accepts a version, pre-releases included or not.
    pub fn satisfies_with_prerelease(&self, version: &Version, include_prerelease: bool) -> bool {
        if version.is_spelled() {
            let asked = &version.kept();
            if let Ok(answer) = ffi::accepts(self.kept.intervals(), asked, include_prerelease) {
                return answer;
            }
        }
        self.accepts(version, include_prerelease)
    }

    /// The answer by the rules of this package.
    #[cold]
    pub(crate) fn accepts(&self, version: &Version, include_prerelease: bool) -> bool {
        self.intervals()
            .iter()
            .any(|it| it.accepts(version, include_prerelease))
    }

    pub(crate) fn intervals(&self) -> Vec<Interval> {
        self.kept.intervals().iter().map(Interval::of).collect()
    }

    /// Whether some one interval of this range covers some one interval of the other.
    ///
    /// This is no test for subsets: `1 || 2` does not allow all of `>=1.0.0 <3.0.0`.
    pub fn allows_all(&self, other: &Range) -> bool {
        ffi::covers(self.kept.intervals(), other.kept.intervals()).unwrap_or(false)
    }

    /// Whether both ranges have something in common, which is where [`Range::intersect`] is not
    /// `None`.
    pub fn allows_any(&self, other: &Range) -> bool {
        ffi::meets(self.kept.intervals(), other.kept.intervals()).unwrap_or(false)
    }

    /// The same as [`Range::allows_any`]. The crate nodejs-semver has no such name.
    pub fn has_intersection(&self, other: &Range) -> bool {
        self.allows_any(other)
    }

    /// What both ranges have in common, if there is anything.
    pub fn intersect(&self, other: &Range) -> Option<Range> {
        self.combine(Operation::Intersect, other)
    }

    /// What this range holds and the other does not, if there is anything.
    pub fn difference(&self, other: &Range) -> Option<Range> {
        self.combine(Operation::Difference, other)
    }

    fn combine(&self, how: Operation, other: &Range) -> Option<Range> {
        let found = ffi::combine(how, self.kept.intervals(), other.kept.intervals());
        found.ok().map(|kept| Range { kept })
    }

    /// The smallest version that the range accepts, if it accepts any.
    pub fn min_version(&self) -> Option<Version> {
        ffi::min_version(self.kept.intervals()).ok()
    }

    /// The greatest of some versions that the range accepts, the last of equal ones.
    pub fn max_satisfying<'v>(&self, versions: &'v [Version]) -> Option<&'v Version> {
        self.best(versions, true)
            .unwrap_or_else(|| versions.iter().filter(|it| self.satisfies(it)).max())
    }

    /// The smallest of some versions that the range accepts, the first of equal ones.
    pub fn min_satisfying<'v>(&self, versions: &'v [Version]) -> Option<&'v Version> {
        self.best(versions, false)
            .unwrap_or_else(|| versions.iter().filter(|it| self.satisfies(it)).min())
    }

    /// The library's answer about the versions in the window, unless one of them has an identifier
    /// that no text spells.
    fn best<'v>(&self, versions: &'v [Version], is_greatest: bool) -> Option<Option<&'v Version>> {
        let mut window = Window::of(self.kept.intervals());
        if versions.len() > FEW {
            self.narrow(&mut window, versions, is_greatest);
        }
        let mut asked = Vec::with_capacity(versions.len());
        asked.extend(versions.iter().filter(|it| window.has(it)));
        if !asked.iter().all(|it| it.is_spelled()) {
            return None;
        }
        let kept: Vec<Kept> = asked.iter().map(|it| it.kept()).collect();
        match ffi::best(self.kept.intervals(), &kept, is_greatest) {
            Ok(at) => Some(asked.get(at).copied()),
            Err(ffi::NOTHING) => Some(None),
            Err(_) => None,
        }
    }

    /// Narrows a window by what the library says of some of the versions: where it accepts one,
    /// none on its worse side is better.
    fn narrow(&self, window: &mut Window, versions: &[Version], is_greatest: bool) {
        let samples = match versions.len() < MANY {
            true => SAMPLES,
            false => SAMPLES_OF_MANY,
        };
        let (part, mut at) = (versions.len() / samples, 0);
        for _ in 0..samples {
            at = (at + STEP) % samples;
            match versions.get(at * part) {
                Some(it) if window.has(it) && self.satisfies(it) => match is_greatest {
                    true => window.low = it.numbers(),
                    false => window.high = it.numbers(),
                },
                _ => {}
            }
        }
    }

    /// Whether a version lies above the range, or below it: the range does not accept it, and every
    /// interval of the range lies on the other side. The answer is never an error.
    pub fn outside(
        &self,
        version: &Version,
        direction: OutsideDirection,
        include_prerelease: bool,
    ) -> Result<bool, RangeError> {
        let is_higher = direction == OutsideDirection::Higher;
        Ok(self.lies(version, is_higher, include_prerelease))
    }

    fn lies(&self, version: &Version, is_higher: bool, include: bool) -> bool {
        if version.is_spelled() {
            let asked = &version.kept();
            if let Ok(answer) = ffi::outside(self.kept.intervals(), asked, is_higher, include) {
                return answer;
            }
        }
        self.is_outside(version, is_higher, include)
    }

    /// The answer by the rules of this package.
    #[cold]
    pub(crate) fn is_outside(&self, version: &Version, is_higher: bool, include: bool) -> bool {
        let is_away = |it: &Interval| match is_higher {
            true => it.ends_below(version),
            false => it.begins_above(version),
        };
        !self.accepts(version, include) && self.intervals().iter().all(is_away)
    }
}

impl PartialEq for Range {
    fn eq(&self, other: &Range) -> bool {
        self.kept.intervals() == other.kept.intervals()
    }
}

impl Eq for Range {}

impl Hash for Range {
    fn hash<H: Hasher>(&self, state: &mut H) {
        self.kept.intervals().hash(state);
    }
}

impl fmt::Display for Range {
    fn fmt(&self, f: &mut fmt::Formatter<'_>) -> fmt::Result {
        let mut line = Line::new(f);
        for (at, it) in self.kept.intervals().iter().enumerate() {
            line.add(if at > 0 { "||" } else { "" })?;
            it.add_to(&mut line)?;
        }
        line.end()
    }
}

impl fmt::Debug for Range {
    fn fmt(&self, f: &mut fmt::Formatter<'_>) -> fmt::Result {
        write!(f, "Range({self})")
    }
}

impl FromStr for Range {
    type Err = SemverError;

    fn from_str(text: &str) -> Result<Range, SemverError> {
        Range::parse(text)
    }
}
