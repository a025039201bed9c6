"""NpmSpec as the package semantic_version has it, so that a program changes one import:

>>> from npm_semver import Version
>>> from npm_semver.compat import NpmSpec
>>> spec = NpmSpec(">=0.1.1 <0.3.0")
>>> spec.match(Version("0.2.0")), Version("0.3.0") in spec
(True, False)
>>> spec.select(Version(it) for it in ["0.1.0", "0.2.9", "0.2.10", "0.3.0"])
Version('0.2.10')
>>> list(spec.filter(["0.1.1", "0.1.0"]))
['0.1.1']

A version is a Version of this package, one of semantic_version, or a str; another type is a
TypeError. A text that is no range is an InvalidRange, which is a ValueError. A range is read as
npm reads it, also where semantic_version does otherwise.
"""
from __future__ import annotations

import sys
from typing import Any, Iterable, Iterator, List, Optional, TypeVar, Union

from . import Range, Version

__all__ = ["NpmSpec"]

Given = TypeVar("Given")


def _version(value: Any) -> Union[str, Version]:
    """What a Range takes for a version of any of the kinds."""
    other = sys.modules.get("semantic_version")
    if other is not None and isinstance(value, other.Version):
        return str(value)
    if not isinstance(value, (str, Version)):
        raise TypeError(f"a version is expected, not {type(value).__name__}")
    return value


class NpmSpec:
    """A range by the names of semantic_version. `range` is the Range."""

    __slots__ = ("expression", "range")

    def __init__(self, expression: str) -> None:
        self.range = Range(expression)
        self.expression = expression

    def match(self, version: Any) -> bool:
        """Returns whether it accepts a version."""
        return _version(version) in self.range

    def __contains__(self, version: Any) -> bool:
        return self.match(version)

    def filter(self, versions: Iterable[Given]) -> Iterator[Given]:
        """Returns those of some versions that it accepts, in their order."""
        return iter(self._accepted(versions))

    def select(self, versions: Iterable[Given]) -> Optional[Given]:
        """Returns the greatest of some versions that it accepts, the first of equal ones, or
        None.
        """
        return max(self._accepted(versions), key=lambda it: Version(_version(it)), default=None)

    def _accepted(self, versions: Iterable[Given]) -> List[Given]:
        if isinstance(versions, (str, bytes, bytearray)):
            raise TypeError(f"a list of versions is expected, not {type(versions).__name__}")
        return [it for it in versions if self.match(it)]

    def __eq__(self, other: object) -> bool:
        if not isinstance(other, NpmSpec):
            return NotImplemented
        return self.range == other.range

    def __hash__(self) -> int:
        return hash(self.range)

    def __str__(self) -> str:
        return self.expression

    def __repr__(self) -> str:
        return f"{type(self).__name__}({self.expression!r})"
