"""What the package raises where a text is rejected. The compiled part calls the functions here."""
from __future__ import annotations

from typing import Optional

from . import _native

NOT_UTF8 = 3
# What npm's reading finds wrong with a version text, and what the lenient one does, by the numbers
# of the C header.
NPM_FLAWS = (
    "a sign is not expected here", "a number with a leading zero",
    "a number above 9007199254740991", "a pre-release begins with a hyphen",
    "a digit is expected here", "a dot is expected here",
    "a letter, a digit or a hyphen is expected here", "the version ends before this",
    "a version has at most 256 characters",
)
LENIENT_FLAWS = (
    "a digit is expected here", "a dot is expected here", "a number above 9007199254740991",
    "the version ends before this", "a version has at most 256 bytes",
)


class SemverError(ValueError):
    """A text is rejected: `text` is the whole text, `reason` says why, and `place` is the index in
    it where what is wrong begins, or None where the whole text is."""

    __module__ = "npm_semver"

    def __init__(self, text: str, reason: str, place: Optional[int] = None) -> None:
        super().__init__(text, reason, place)
        self.text, self.reason, self.place = text, reason, place

    def __str__(self) -> str:
        where = "" if self.place is None else f" at {self.place}"
        return f"{self.text!r}: {self.reason}{where}"


class InvalidVersion(SemverError):
    """A text is no version."""

    __module__ = "npm_semver"


class InvalidRange(SemverError):
    """A text is no range. `place` is where the first word begins that is malformed, and `end` where
    it ends."""

    __module__ = "npm_semver"

    def __init__(
        self, text: str, reason: str, place: Optional[int] = None, end: Optional[int] = None
    ) -> None:
        super().__init__(text, reason, place)
        self.args, self.end = (text, reason, place, end), end


class InvalidIncrement(SemverError):
    """There is no next version: `text` is the version, and `reason` says why."""

    __module__ = "npm_semver"


def index(text: str, place: int) -> int:
    """The index in a str of a place in its bytes."""
    return len(text.encode()[:place].decode(errors="ignore"))


def not_utf8(text: str) -> SemverError:
    """The error for a str with a surrogate, which no text in UTF-8 has."""
    try:
        text.encode()
    except UnicodeEncodeError as error:
        return SemverError(text, "a surrogate", error.start)
    return SemverError(text, _native.message(NOT_UTF8))


def version(text: str, is_lenient: bool, status: int) -> SemverError:
    """The error for a text that is no version."""
    if status == NOT_UTF8:
        return InvalidVersion(*not_utf8(text).args)
    flaw = _native.version_flaw(text, is_lenient)
    if flaw is None:
        return InvalidVersion(text, _native.message(status))
    kind, place = flaw
    reason = (LENIENT_FLAWS if is_lenient else NPM_FLAWS)[kind]
    return InvalidVersion(text, reason, index(text, place))


def range_(text: str, includes: bool, is_lenient: bool, status: int) -> SemverError:
    """The error for a text that is no range."""
    if status == NOT_UTF8:
        return InvalidRange(*not_utf8(text).args)
    if is_lenient:
        ignored = _native.ignored_words(text)
        places = ignored[0][:2] if ignored else None
    else:
        flaw = _native.range_flaw(text, includes)
        places = None if flaw is None else flaw[2:]
    if places is None:
        return InvalidRange(text, _native.message(status))
    begins, ends = (index(text, it) for it in places)
    word = text[begins:ends]
    reason = f"{word!r} is malformed" if word else "a word is missing"
    return InvalidRange(text, reason, begins, ends)


def parts(major: int, minor: int, patch: int, pre: str, build: str) -> SemverError:
    """The error for parts that no version has."""
    text = f"{major}.{minor}.{patch}" + (f"-{pre}" if pre else "") + (f"+{build}" if build else "")
    return InvalidVersion(text, "an identifier is malformed, or a number with a leading zero")


def failed(status: int) -> Exception:
    """The error for a status that kept values do not get."""
    return SemverError("", _native.message(status))


def increment(text: str, level: str, identifier: str, status: int) -> SemverError:
    """The error for an increment that there is not."""
    given = f", by {level!r}" + (f" with {identifier!r}" if identifier else "")
    return InvalidIncrement(text, _native.message(status) + given)


