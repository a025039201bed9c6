"""npm's versions and ranges, over a proved C library.

>>> "1.9.0" in Range("^1.2.3")
True
>>> max(["1.9.0", "1.10.0"], key=Version)
'1.10.0'
>>> str(Range("^1.2") & Range("<1.5"))
'>=1.2.0 <1.5.0-0'

Texts are read as npm reads them, and others are rejected with an error that has the text, the
reason and the place. With `lenient=True` a text is read as by the Rust crate nodejs-semver, which
ignores what it does not understand. A value of another type is a TypeError, in each place.
"""
from __future__ import annotations

from typing import Any, ClassVar, Iterable, List, Literal, Optional, Tuple, TypeVar, Union

from . import _native
from ._errors import InvalidIncrement, InvalidRange, InvalidVersion, SemverError, increment, index

__version__ = "1.0.0"
__all__ = [
    "InvalidIncrement", "InvalidRange", "InvalidVersion", "MAX_SAFE_INTEGER", "Range",
    "SemverError", "Version", "clean", "coerce", "ignored_words", "key", "valid",
]

# The greatest number that a text may have.
MAX_SAFE_INTEGER = 9007199254740991

Kind = Literal[
    "major", "minor", "patch", "premajor", "preminor", "prepatch", "prerelease"]
Level = Literal[
    "major", "minor", "patch", "premajor", "preminor", "prepatch", "prerelease", "pre", "release"]
Identifier = Union[int, str]
Bound = Optional[Tuple[Literal[">", ">=", "<", "<="], "Version"]]

_KINDS: Tuple[Optional[Kind], ...] = (
    None, "major", "minor", "patch", "premajor", "preminor", "prepatch", "prerelease")
_BASES = {"0": 0, "1": 1, "none": 2}


def _text(value: str) -> str:
    if not isinstance(value, str):
        raise TypeError(f"a str is expected, not {type(value).__name__}")
    return value


def _flag(value: bool) -> bool:
    if not isinstance(value, bool):
        raise TypeError(f"a bool is expected, not {type(value).__name__}")
    return value


def _identifiers(joined: str) -> Tuple[Identifier, ...]:
    """The identifiers of a text. Digits alone are a number, up to 64 bits."""
    found = joined.split(".") if joined else []
    return tuple(int(it) if it.isdigit() and int(it) < 2**64 else it for it in found)


class Version(_native.Version):
    """A version: `Version(text, *, lenient=False)`. A Version in place of the text is taken as it
    is.

    Versions cannot be changed. They are ordered by precedence, and equal ones have the same hash;
    build metadata does not count. A text that is no version is an InvalidVersion.

    >>> sorted(map(Version, ["1.10.0", "1.9.0", "1.9.0-rc.1"]))
    [Version('1.9.0-rc.1'), Version('1.9.0'), Version('1.10.0')]
    >>> version = Version("1.2.3-beta.4+linux")
    >>> version.major, version.minor, version.patch, version.prerelease, version.build
    (1, 2, 3, ('beta', 4), ('linux',))
    >>> Version("1.2.3+a") == Version("1.2.3+b")
    True
    >>> Version("1.02.3")
    Traceback (most recent call last):
    npm_semver.InvalidVersion: '1.02.3': a number with a leading zero at 3
    """

    __slots__ = ()

    @classmethod
    def of(
        cls, major: int, minor: int, patch: int, prerelease: str = "", build: str = ""
    ) -> Version:
        """Returns the version of its parts. Numbers have up to 64 bits, and identifiers are joined
        by dots. Others are an InvalidVersion or a ValueError.

        >>> Version.of(1, 2, 3, "rc.1")
        Version('1.2.3-rc.1')
        """
        return cls._from(major, minor, patch, prerelease, build)

    @property
    def prerelease(self) -> Tuple[Identifier, ...]:
        """The identifiers of its pre-release, which are numbers and texts."""
        return _identifiers(self._pre)

    @property
    def build(self) -> Tuple[str, ...]:
        """The identifiers of its build metadata."""
        return tuple(self._build.split(".")) if self._build else ()

    @property
    def is_prerelease(self) -> bool:
        """Whether it has a pre-release."""
        return bool(self._pre)

    def without_build(self) -> Version:
        """Returns the version without its build metadata.

        >>> Version("1.2.3-rc.1+linux").without_build()
        Version('1.2.3-rc.1')
        """
        return type(self)._from(self.major, self.minor, self.patch, self._pre, "")

    def compare(self, other: Version) -> int:
        """Returns -1, 0 or 1.

        >>> Version("1.2.3-rc.1").compare(Version("1.2.3"))
        -1
        """
        return self._order(other)

    def compare_build(self, other: Version) -> int:
        """Returns -1, 0 or 1. Of equal versions the build metadata decides.

        >>> Version("1.2.3+a").compare_build(Version("1.2.3+b"))
        -1
        """
        return self._order_with_builds(other)

    def diff(self, other: Version) -> Optional[Kind]:
        """Returns the kind of difference, or None between equal versions.

        >>> Version("1.2.3").diff(Version("1.3.0-beta"))
        'preminor'
        """
        return _KINDS[self._kind(other)]

    def inc(
        self, level: Level, identifier: str = "", base: Literal["0", "1", "none"] = "0"
    ) -> Version:
        """Returns the next version by a level. A new pre-release has the identifier, if there is
        one, and counts from the base.

        >>> Version("1.2.3").inc("minor")
        Version('1.3.0')
        >>> Version("1.2.3").inc("prerelease", "beta")
        Version('1.2.4-beta.0')
        >>> Version("1.2.3").inc("premajor", "rc", "none")
        Version('2.0.0-rc')
        >>> Version("1.2.3").inc("sideways")
        Traceback (most recent call last):
        npm_semver.InvalidIncrement: '1.2.3': bad argument, by 'sideways'
        """
        if _text(base) not in _BASES:
            raise ValueError(f"a base is 0, 1 or none, not {base!r}")
        status, found = self._next(level, identifier, _BASES[base])
        if found is None:
            raise increment(str(self), level, identifier, status)
        return found

    def __repr__(self) -> str:
        return f"{type(self).__name__}({str(self)!r})"

    def __copy__(self) -> Version:
        return self

    def __deepcopy__(self, memo: Any) -> Version:
        return self

    def __reduce__(self) -> Any:
        return type(self)._from, (self.major, self.minor, self.patch, self._pre, self._build)


_native.make(Version)
Given = TypeVar("Given", str, Version)
AnyVersion = Union[str, Version]


class Range(_native.Range):
    """A range: `Range(text, *, include_prerelease=False, lenient=False)`.

    Ranges cannot be changed. A version is a Version, or a str, which is read as npm reads it. A
    pre-release is in a range only if the range names a pre-release of the same three numbers, or
    includes pre-releases.

    >>> caret = Range("^1.2.3-beta.2")
    >>> "1.2.3-beta.4" in caret, "1.3.0-rc.1" in caret, "1.3.0" in caret
    (True, False, True)
    >>> "1.3.0-rc.1" in Range("^1.2", include_prerelease=True)
    True
    >>> print(Range("^1.2") | Range("3"))
    >=1.2.0 <2.0.0-0||>=3.0.0 <4.0.0-0
    >>> print(Range("^1.2") - Range("1.5.0"))
    >=1.2.0 <1.5.0||>1.5.0 <2.0.0-0
    >>> Range("^1.2") <= Range("^1"), Range("^1") <= Range("^1.2")
    (True, False)
    >>> Range("^1") & Range("^2") == Range.NOTHING
    True

    `r <= s` asks whether s accepts each version that r accepts. Ranges are equal where they have
    the same intervals; `accepts_same` asks whether they accept the same versions. Both ranges of
    an operation include pre-releases, or neither does: else it is a ValueError.

    >>> Range(">=1.0.0, <2.0.0")
    Traceback (most recent call last):
    npm_semver.InvalidRange: '>=1.0.0, <2.0.0': '>=1.0.0,' is malformed at 0
    """

    __slots__ = ()
    # The range that accepts no version, which npm writes `<0.0.0-0`.
    NOTHING: ClassVar[Range]

    @property
    def intervals(self) -> Tuple[Tuple[Bound, Bound], ...]:
        """Its intervals, each with the bound below and the one above, or None for no bound.

        >>> Range("^1.2 || >3").intervals[1]
        (('>=', Version('4.0.0')), None)
        """
        def bound(told: Tuple[int, Any], signs: Tuple[Any, Any]) -> Bound:
            kind, version = told
            return (signs[kind - 1], version) if kind else None

        both = self._bounds()
        return tuple((bound(low, (">=", ">")), bound(up, ("<=", "<"))) for low, up in both)

    def filter(self, versions: Iterable[Given]) -> List[Given]:
        """Returns those of some versions that it accepts, in their order.

        >>> Range("^1").filter(["0.9.0", "1.2.0", "1.0.0"])
        ['1.2.0', '1.0.0']
        """
        return self._filter(versions)

    def max(self, versions: Iterable[Given]) -> Optional[Given]:
        """Returns the greatest of some versions that it accepts, the first of equal ones, or None.

        >>> Range("^1").max(["1.2.0", "1.10.0", "2.0.0"])
        '1.10.0'
        """
        return self._max(versions)

    def min(self, versions: Iterable[Given]) -> Optional[Given]:
        """Returns the smallest of some versions that it accepts, the first of equal ones, or
        None.
        """
        return self._min(versions)

    def min_version(self) -> Optional[Version]:
        """Returns the smallest version that it accepts, or None.

        >>> Range(">1.0.0 <1.0.1-5").min_version()
        Version('1.0.1-0')
        """
        return self._min_version()

    def least_beyond(self, other: Range) -> Optional[Version]:
        """Returns the smallest version that it accepts and the other does not, or None.

        >>> Range("^1").least_beyond(Range("^1.2"))
        Version('1.0.0')
        """
        return self._least_beyond(other)

    def allows_any(self, other: Range) -> bool:
        """Returns whether the intervals of both have something in common.

        >>> Range("^1").allows_any(Range("<1.5")), Range("^1").allows_any(Range("^2"))
        (True, False)
        """
        return self._meets(other)

    def accepts_same(self, other: Range) -> bool:
        """Returns whether both accept the same versions, however they are written.

        >>> Range("^1").accepts_same(Range("1.x")), Range("1 || 2").accepts_same(Range(">=1 <3"))
        (True, True)
        """
        if not isinstance(other, Range):
            raise TypeError(f"a Range is expected, not {type(other).__name__}")
        return self <= other and other <= self

    def outside(self, version: AnyVersion) -> Optional[Literal["<", ">"]]:
        """Returns `<` for a version below the whole range, `>` for one above it, and else None.

        >>> caret = Range("^1.2")
        >>> caret.outside("2.0.0"), caret.outside("1.0.0"), caret.outside("1.3.0")
        ('>', '<', None)
        """
        is_above, is_below = self._outside(version, True), self._outside(version, False)
        # Of a pre-release between the bounds that is not accepted both are said.
        return None if is_above == is_below else ">" if is_above else "<"

    def explain(self) -> str:
        """Returns what it accepts, in words: the range as it is read, and a line for each interval.

        >>> print(Range("^1.2.3-beta || >=3.1").explain())
        >=1.2.3-beta <2.0.0-0||>=3.1.0
        from 1.2.3-beta on, below 2.0.0-0, and of pre-releases those of 1.2.3
        from 3.1.0 on, and no pre-release
        """
        text = str(self)
        lines = ["no version"] if text == "<0.0.0-0" else map(self._line, self.intervals)
        return "\n".join([text, *lines])

    def _line(self, interval: Tuple[Bound, Bound]) -> str:
        low, up = interval
        if low and up and low[0] == ">=" and up[0] == "<=" and str(low[1]) == str(up[1]):
            return f"{low[1]} alone"
        below = (f"from {low[1]} on" if low[0] == ">=" else f"after {low[1]}") if low else ""
        above = f"{'up to' if up[0] == '<=' else 'below'} {up[1]}" if up else ""
        bounds = ", ".join(it for it in (below, above) if it) or "all versions"
        if self.include_prerelease:
            return f"{bounds}, and all pre-releases there"
        # Below 2.0.0-0 there is no pre-release of 2.0.0.
        named = [low[1]] if low else []
        named += [up[1]] if up and not (up[0] == "<" and up[1].prerelease == (0,)) else []
        names = dict.fromkeys(f"{it.major}.{it.minor}.{it.patch}" for it in named if it.prerelease)
        if not names:
            return f"{bounds}, and no pre-release"
        return f"{bounds}, and of pre-releases those of {' and '.join(names)}"

    def __repr__(self) -> str:
        flag = ", include_prerelease=True" if self.include_prerelease else ""
        return f"{type(self).__name__}({str(self)!r}{flag})"

    def __copy__(self) -> Range:
        return self

    def __deepcopy__(self, memo: Any) -> Range:
        return self

    def __reduce__(self) -> Any:
        return type(self)._from, (self._bounds(), self.include_prerelease)


Range.NOTHING = Range("<0.0.0-0")


def coerce(text: str, *, rtl: bool = False, include_prerelease: bool = False) -> Optional[Version]:
    """Returns the version that any text has in it, or None. With `rtl` it is looked for from the
    right. With `include_prerelease` it has the pre-release and the build metadata that follow its
    numbers.

    >>> coerce("release 1.2 of 3"), coerce("release 1.2 of 3", rtl=True), coerce("latest")
    (Version('1.2.0'), Version('3.0.0'), None)
    """
    found = _native.coerce(text, _flag(rtl), _flag(include_prerelease))
    return None if found is None else Version(found)


def clean(text: str) -> Optional[Version]:
    """Returns the version of a text with whitespace or any of `v` and `=` in front, without its
    build metadata, or None.

    >>> clean("  =v1.2.3+linux "), clean("1.2")
    (Version('1.2.3'), None)
    """
    found = _native.clean(text)
    return None if found is None else Version(found)


def valid(text: str) -> bool:
    """Returns whether npm reads a text as a version.

    >>> valid("1.2.3"), valid("1.2")
    (True, False)
    """
    try:
        Version(_text(text))
        return True
    except InvalidVersion:
        return False


def key(version: AnyVersion) -> bytes:
    """Returns bytes that compare as versions do by precedence, to sort by, or to keep in a
    database.

    >>> sorted(["1.10.0", "1.9.0", "1.9.0-rc.1"], key=key)
    ['1.9.0-rc.1', '1.9.0', '1.10.0']
    >>> key("1.10.0-rc.2").hex()
    '010a0002726300010200'
    """
    return Version(version).key


def ignored_words(text: str) -> List[Tuple[int, int, Literal["malformed", "without bounds"]]]:
    """Returns the words of a range text that the lenient reading ignores: where each begins and
    ends, and why.

    >>> ignored_words(">=1.0.0, <2.0.0")
    [(0, 8, 'malformed')]
    """
    return [(index(text, start), index(text, end), "without bounds" if kind else "malformed")
            for start, end, kind in _native.ignored_words(text)]
