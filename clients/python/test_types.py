"""What mypy has to say of a program that uses npm_semver: tools/c_clients runs mypy --strict on it. Each line with an ignore is an error
that mypy has to find: an ignore that is not needed is an error too."""
from typing import List, Optional, Tuple, Union

from npm_semver import InvalidRange, Range, Version, clean, coerce, key, valid
from npm_semver.compat import NpmSpec

version, caret = Version("1.2.3"), Range("^1.2", include_prerelease=True)
numbers: Tuple[int, int, int] = (version.major, version.minor, version.patch)
identifiers: Tuple[Union[int, str], ...] = version.prerelease
ordered: List[Version] = sorted([version, Version.of(1, 2, 3)])
following: Version = version.inc("prerelease", "beta", "none")
is_in: List[bool] = ["1.2.3" in caret, version in caret, caret <= Range("^1"), valid("1")]
both: Range = (caret & caret | caret) - Range.NOTHING
best: Optional[str] = caret.max(["1.2.3"])
least: Optional[Version] = caret.min(ordered)
smallest: Optional[Version] = caret.min_version()
found: Tuple[Optional[Version], Optional[Version], bytes] = (coerce("v1", rtl=True), clean("v1"), key(version))
selected: Optional[Version] = NpmSpec("^1").select(ordered)
try:
    Range("latest")
except InvalidRange as error:
    told: Tuple[str, str, Optional[int], Optional[int]] = (error.text, error.reason, error.place, error.end)

Version(5)  # type: ignore[arg-type]
Version(None)  # type: ignore[arg-type]
Range(b"^1")  # type: ignore[arg-type]
Range("^1", lenient=1)  # type: ignore[arg-type]
version.inc("sideways")  # type: ignore[arg-type]
version.inc("major", None)  # type: ignore[arg-type]
version.major = 2  # type: ignore[misc]
version < "1.2.3"  # type: ignore[operator]
caret & "^1"  # type: ignore[operator]
5 in caret  # type: ignore[operator]
caret.max([5])  # type: ignore[type-var]
coerce("v1", True)  # type: ignore[misc]
key([])  # type: ignore[arg-type]
