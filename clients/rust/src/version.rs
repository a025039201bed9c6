//! Versions.

use crate::error::SemverError;
use crate::ffi::{self, Kept, Reading, Text};
use crate::identifier::{list_of, text_of, Identifier};
use crate::line::{Line, Shown};
use crate::Range;
use std::cmp::Ordering;
use std::fmt;
use std::hash::{Hash, Hasher};
use std::str::FromStr;
use std::sync::OnceLock;

/// A semantic version: three numbers, a pre-release and build metadata.
///
/// It is ordered by precedence. Build metadata counts in none of order, equality and hash.
#[derive(Clone)]
pub struct Version {
    numbers: [u64; 3],
    // None where there are no identifiers.
    lists: Option<Box<Lists>>,
}

/// The identifiers of a version.
#[derive(Clone)]
struct Lists {
    pre_text: Box<str>,
    build_text: Box<str>,
    // Whether the text spells the pre-release, and whether it spells the build.
    is_spelled: bool,
    is_build_spelled: bool,
    // The lists, each once it is asked for.
    pre_release: OnceLock<Vec<Identifier>>,
    build: OnceLock<Vec<Identifier>>,
}

impl Lists {
    fn pre_release(&self) -> &Vec<Identifier> {
        self.pre_release.get_or_init(|| list_of(&self.pre_text))
    }

    fn build(&self) -> &Vec<Identifier> {
        self.build.get_or_init(|| list_of(&self.build_text))
    }
}

/// The components of a version. Its equality counts all five.
#[derive(Debug, Clone, PartialEq, Eq)]
pub struct VersionParts {
    /// The first number.
    pub major: u64,
    /// The second number.
    pub minor: u64,
    /// The third number.
    pub patch: u64,
    /// The pre-release, empty for a release.
    pub pre_release: Vec<Identifier>,
    /// The build metadata.
    pub build: Vec<Identifier>,
}

/// The kind of difference between two versions.
#[derive(Debug, Clone, Copy, PartialEq, Eq, Hash)]
pub enum VersionDiff {
    /// The first number differs.
    Major,
    /// The second number differs.
    Minor,
    /// The third number differs.
    Patch,
    /// The first number differs, and the higher version is a pre-release.
    PreMajor,
    /// The second number differs, and the higher version is a pre-release.
    PreMinor,
    /// The third number differs, and the higher version is a pre-release.
    PrePatch,
    /// Two pre-releases of the same three numbers differ.
    PreRelease,
}

/// The kind of difference between two versions.
pub type ReleaseType = VersionDiff;

impl fmt::Display for VersionDiff {
    fn fmt(&self, f: &mut fmt::Formatter<'_>) -> fmt::Result {
        f.write_str(match self {
            Self::Major => "major",
            Self::Minor => "minor",
            Self::Patch => "patch",
            Self::PreMajor => "premajor",
            Self::PreMinor => "preminor",
            Self::PrePatch => "prepatch",
            Self::PreRelease => "prerelease",
        })
    }
}

impl Version {
    /// A version of its components.
    pub fn new(
        major: u64,
        minor: u64,
        patch: u64,
        pre_release: Vec<Identifier>,
        build: Vec<Identifier>,
    ) -> Version {
        let numbers = [major, minor, patch];
        if pre_release.is_empty() && build.is_empty() {
            return Version::release(numbers);
        }
        let (pre_text, is_spelled) = text_of(&pre_release);
        let (build_text, is_build_spelled) = text_of(&build);
        let lists = Lists {
            pre_text: pre_text.into_boxed_str(),
            build_text: build_text.into_boxed_str(),
            is_spelled,
            is_build_spelled,
            pre_release: OnceLock::from(pre_release),
            build: OnceLock::from(build),
        };
        Version {
            numbers,
            lists: Some(Box::new(lists)),
        }
    }

    /// Reads a version leniently, as the crate nodejs-semver does: one `v` or `V` may be in front,
    /// and what follows the version is ignored.
    ///
    /// ```
    /// # use nodejs_semver::Version;
    /// assert_eq!(Version::parse("v1.2.3-rc.1 oops")?.to_string(), "1.2.3-rc.1");
    /// assert!(Version::parse("1.2").is_err());
    /// # Ok::<(), nodejs_semver::SemverError>(())
    /// ```
    pub fn parse<S: AsRef<str>>(input: S) -> Result<Version, SemverError> {
        ffi::read(Reading::Port, input.as_ref()).map_err(|_| SemverError)
    }

    /// Reads a version as npm does: the whole text, or an error. The crate nodejs-semver has no
    /// such call.
    pub fn parse_npm<S: AsRef<str>>(input: S) -> Result<Version, SemverError> {
        ffi::read(Reading::Npm, input.as_ref()).map_err(|_| SemverError)
    }

    #[inline]
    pub(crate) fn release(numbers: [u64; 3]) -> Version {
        Version {
            numbers,
            lists: None,
        }
    }

    /// The version of some texts that spell their lists, of which one may be empty.
    pub(crate) fn of_texts(numbers: [u64; 3], pre_release: &str, build: &str) -> Version {
        let lists = Lists {
            pre_text: pre_release.into(),
            build_text: build.into(),
            is_spelled: true,
            is_build_spelled: true,
            pre_release: OnceLock::new(),
            build: OnceLock::new(),
        };
        Version {
            numbers,
            lists: Some(Box::new(lists)),
        }
    }

    #[inline]
    pub(crate) fn numbers(&self) -> [u64; 3] {
        self.numbers
    }

    /// The text of the pre-release.
    #[inline]
    pub(crate) fn pre_text(&self) -> &str {
        self.lists.as_ref().map_or("", |it| &it.pre_text)
    }

    /// Whether its text spells the pre-release.
    #[inline]
    pub(crate) fn is_spelled(&self) -> bool {
        self.lists.as_ref().map_or(true, |it| it.is_spelled)
    }

    /// The version as the library takes one, with its build, if its texts spell it.
    pub(crate) fn kept_whole(&self) -> Option<Kept<'_>> {
        let build = match &self.lists {
            Some(lists) if lists.is_build_spelled => Text::of(&lists.build_text),
            Some(_) => return None,
            None => Text::EMPTY,
        };
        self.is_spelled().then(|| Kept {
            build,
            ..self.kept()
        })
    }

    /// The version as the library takes one, without its build. Its text spells it.
    #[inline]
    pub(crate) fn kept(&self) -> Kept<'_> {
        let [major, minor, patch] = self.numbers;
        Kept {
            numbers: [major, minor, patch],
            pre_release: Text::of(self.pre_text()),
            build: Text::EMPTY,
        }
    }

    /// The version as it is printed. An identifier may have no characters.
    fn shown(&self) -> Shown<'_> {
        let lists = self.lists.as_deref();
        let has_build = |it: &&Lists| match it.build.get() {
            Some(list) => !list.is_empty(),
            None => !it.build_text.is_empty(),
        };
        Shown {
            numbers: self.numbers,
            pre_release: self.is_prerelease().then(|| self.pre_text()),
            build: lists.filter(has_build).map(|it| &*it.build_text),
        }
    }

    /// The first number.
    #[inline]
    pub fn major(&self) -> u64 {
        self.numbers[0]
    }

    /// The second number.
    #[inline]
    pub fn minor(&self) -> u64 {
        self.numbers[1]
    }

    /// The third number.
    #[inline]
    pub fn patch(&self) -> u64 {
        self.numbers[2]
    }

    /// The identifiers of the pre-release.
    pub fn pre_release(&self) -> &[Identifier] {
        self.lists.as_ref().map_or(&[], |it| it.pre_release())
    }

    /// The identifiers of the build metadata.
    pub fn build(&self) -> &[Identifier] {
        self.lists.as_ref().map_or(&[], |it| it.build())
    }

    /// Whether the version is a pre-release.
    pub fn is_prerelease(&self) -> bool {
        // A list of one empty identifier has an empty text.
        self.lists
            .as_ref()
            .is_some_and(|it| !it.pre_text.is_empty() || !it.is_spelled)
    }

    /// The components, by value.
    pub fn into_parts(self) -> VersionParts {
        let [major, minor, patch] = self.numbers;
        let (pre_release, build) = match self.lists {
            None => (Vec::new(), Vec::new()),
            Some(lists) => {
                lists.pre_release();
                lists.build();
                let Lists {
                    pre_release, build, ..
                } = *lists;
                (
                    pre_release.into_inner().unwrap_or_default(),
                    build.into_inner().unwrap_or_default(),
                )
            }
        };
        VersionParts {
            major,
            minor,
            patch,
            pre_release,
            build,
        }
    }

    /// Whether a range accepts this version: [`Range::satisfies`].
    pub fn satisfies(&self, range: &Range) -> bool {
        range.satisfies(self)
    }

    /// Whether a range accepts this version, pre-releases included or not:
    /// [`Range::satisfies_with_prerelease`].
    pub fn satisfies_with_prerelease(&self, range: &Range, include_prerelease: bool) -> bool {
        range.satisfies_with_prerelease(self, include_prerelease)
    }

    /// The kind of difference to another version, or `None` if they are equal.
    ///
    /// ```
    /// # use nodejs_semver::{Version, VersionDiff};
    /// let kind = Version::from((1, 2, 3)).diff(&Version::parse("1.3.0-rc.1")?);
    /// assert_eq!(kind, Some(VersionDiff::PreMinor));
    /// # Ok::<(), nodejs_semver::SemverError>(())
    /// ```
    pub fn diff(&self, other: &Version) -> Option<VersionDiff> {
        let asked = match self.is_spelled() && other.is_spelled() {
            true => ffi::kind(&self.kept(), &other.kept()),
            // The kind is decided by the numbers, by which of both is higher, and by whether each
            // is a pre-release.
            false => {
                let (one, two) = (self.with_plain_pre(other), other.with_plain_pre(self));
                ffi::kind(&one.kept(), &two.kept())
            }
        };
        Some(match asked {
            Ok(1) => VersionDiff::Major,
            Ok(2) => VersionDiff::Minor,
            Ok(3) => VersionDiff::Patch,
            Ok(4) => VersionDiff::PreMajor,
            Ok(5) => VersionDiff::PreMinor,
            Ok(6) => VersionDiff::PrePatch,
            Ok(7) => VersionDiff::PreRelease,
            _ => return None,
        })
    }

    /// The version with a pre-release of one number, in the same order to the other one.
    fn with_plain_pre(&self, other: &Version) -> Version {
        let is_greater = self.cmp(other) == Ordering::Greater;
        let pre_release = match self.is_prerelease() {
            true => vec![Identifier::Numeric(u64::from(is_greater))],
            false => Vec::new(),
        };
        let [major, minor, patch] = self.numbers;
        Version::new(major, minor, patch, pre_release, Vec::new())
    }

    /// Whether two versions of the same three numbers have the same pre-release.
    fn is_tie(&self, other: &Version) -> bool {
        match self.is_spelled() && other.is_spelled() {
            true => self.pre_text() == other.pre_text(),
            false => self.pre_release() == other.pre_release(),
        }
    }

    /// The order of two versions of the same three numbers.
    fn cmp_tie(&self, other: &Version) -> Ordering {
        match (self.is_prerelease(), other.is_prerelease()) {
            (true, true) => self.cmp_pre_release(other),
            // A pre-release is below its release.
            (one, two) => two.cmp(&one),
        }
    }

    /// The order of two pre-releases of the same three numbers.
    fn cmp_pre_release(&self, other: &Version) -> Ordering {
        let own = || self.pre_release().cmp(other.pre_release());
        match self.is_spelled() && other.is_spelled() {
            true if self.pre_text() == other.pre_text() => Ordering::Equal,
            true => ffi::order(&self.kept(), &other.kept()).unwrap_or_else(|_| own()),
            false => own(),
        }
    }
}

/// The order of the three numbers.
#[inline]
pub(crate) fn cmp_numbers(one: &[u64; 3], other: &[u64; 3]) -> Ordering {
    let ([a, b, c], [d, e, f]) = (one, other);
    match a.cmp(d) {
        Ordering::Equal => b.cmp(e).then_with(|| c.cmp(f)),
        order => order,
    }
}

impl Ord for Version {
    #[inline]
    fn cmp(&self, other: &Version) -> Ordering {
        match cmp_numbers(&self.numbers, &other.numbers) {
            Ordering::Equal => self.cmp_tie(other),
            order => order,
        }
    }
}

impl PartialOrd for Version {
    #[inline]
    fn partial_cmp(&self, other: &Version) -> Option<Ordering> {
        Some(self.cmp(other))
    }
}

impl PartialEq for Version {
    #[inline]
    fn eq(&self, other: &Version) -> bool {
        self.numbers == other.numbers
            && match (&self.lists, &other.lists) {
                (None, None) => true,
                _ => self.is_tie(other),
            }
    }
}

impl Eq for Version {}

impl Hash for Version {
    fn hash<H: Hasher>(&self, state: &mut H) {
        // Equal lists have equal texts.
        (self.numbers, self.pre_text()).hash(state);
    }
}

impl fmt::Display for Version {
    fn fmt(&self, f: &mut fmt::Formatter<'_>) -> fmt::Result {
        let mut line = Line::new(f);
        line.add_version(&self.shown())?;
        line.end()
    }
}

impl fmt::Debug for Version {
    fn fmt(&self, f: &mut fmt::Formatter<'_>) -> fmt::Result {
        f.debug_struct("Version")
            .field("major", &self.major())
            .field("minor", &self.minor())
            .field("patch", &self.patch())
            .field("pre_release", &self.pre_release())
            .field("build", &self.build())
            .finish()
    }
}

impl FromStr for Version {
    type Err = SemverError;

    fn from_str(text: &str) -> Result<Version, SemverError> {
        Version::parse(text)
    }
}

/// Conversions of three numbers, and of three with a pre-release of one number.
macro_rules! of_tuples {
    ($($number:ty)*) => { $(
        impl From<($number, $number, $number)> for Version {
            fn from((major, minor, patch): ($number, $number, $number)) -> Version {
                Version::new(major as u64, minor as u64, patch as u64, Vec::new(), Vec::new())
            }
        }

        impl From<($number, $number, $number, $number)> for Version {
            fn from((major, minor, patch, pre): ($number, $number, $number, $number)) -> Version {
                let pre_release = vec![Identifier::Numeric(pre as u64)];
                Version::new(major as u64, minor as u64, patch as u64, pre_release, Vec::new())
            }
        }
    )* };
}

of_tuples!(u8 u16 u32 u64 usize i8 i16 i32 i64 isize);
