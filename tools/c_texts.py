"""The functions of the C library about texts, called by ctypes. The tools that compare their answers with others use it; programs take the
Python package."""
import ctypes
import os
from ctypes import POINTER, byref, c_bool, c_char, c_char_p, c_int32, c_size_t, c_uint8, c_uint32

(OK, NOTHING, TOO_SMALL, NOT_UTF8, BAD_VERSION, BAD_RANGE, BAD_ARGUMENT, BAD_IDENTIFIER, NOT_A_PRERELEASE, OVERFLOW,
 NO_MEMORY, TOO_LONG) = range(12)
MESSAGES = {NOT_UTF8: "not UTF-8", BAD_VERSION: "bad version", BAD_RANGE: "bad range", BAD_ARGUMENT: "bad argument",
            BAD_IDENTIFIER: "bad identifier", NOT_A_PRERELEASE: "not a prerelease", OVERFLOW: "overflow", TOO_LONG: "too long"}
KINDS = (None, "major", "minor", "patch", "premajor", "preminor", "prepatch", "prerelease")
# How texts are read.
LENIENT, NPM = 0, 1


class SemverError(ValueError):
    """A text is rejected. `status` says why, and `index` which of several versions, if that is known."""

    def __init__(self, status, index=None):
        super().__init__(MESSAGES[status])
        self.status, self.index = status, index


class Text(ctypes.Structure):
    _fields_ = [("at", c_char_p), ("len", c_size_t)]


TEXT, TEXTS, FLAG, PLACE = (c_char_p, c_size_t), (POINTER(Text), c_size_t), (c_bool,), (POINTER(c_size_t),)
PRINTED, YES = (POINTER(c_char), c_size_t, *PLACE), (POINTER(c_bool),)
# The parameters of each function that is asked, without the front of its name. The first parameter of each is the reading.
PARAMETERS = {
    "version_print": TEXT + PRINTED,
    "version_compare": TEXT + TEXT + (POINTER(c_int32),),
    "version_diff": TEXT + TEXT + (POINTER(c_uint32),),
    "version_inc": TEXT + TEXT + TEXT + (c_uint32,) + PRINTED,
    "versions_sort": TEXTS + (POINTER(c_size_t), c_size_t) + PLACE,
    "range_print": TEXT + PRINTED,
    "range_satisfies": TEXT + TEXT + FLAG + YES,
    "range_satisfies_each": TEXT + TEXTS + FLAG + (POINTER(c_uint8), c_size_t),
    "range_max_satisfying": TEXT + TEXTS + PLACE,
    "range_min_satisfying": TEXT + TEXTS + PLACE,
    "range_outside": TEXT + TEXT + FLAG + FLAG + YES,
    "range_min_version": TEXT + PRINTED,
    "range_intersect": TEXT + TEXT + PRINTED,
    "range_difference": TEXT + TEXT + PRINTED,
    "range_least_beyond": TEXT + TEXT + PRINTED,
    "range_allows_any": TEXT + TEXT + YES,
}


def text(value):
    """A text as its bytes and their number. What a str has that UTF-8 has not makes bytes that are rejected."""
    value = value.encode("utf-8", "surrogatepass")
    return value, len(value)


def texts(values):
    """Some texts as an array and their number."""
    found = [Text(*text(it)) for it in values]
    return (Text * len(found))(*found), len(found)


class Library:
    """The functions over the shared object at a path, each with one reading."""

    def __init__(self, path, reading=NPM):
        library = ctypes.CDLL(os.path.realpath(path))
        self.reading, self.calls = reading, {}
        for name, parameters in PARAMETERS.items():
            call = getattr(library, f"nodejs_semver_{name}")
            call.restype, call.argtypes = c_uint32, (c_uint32, *parameters)
            self.calls[name] = call

    def _ask(self, name, *given, index=None):
        """The status of an answer."""
        status = self.calls[name](self.reading, *given)
        if status == NO_MEMORY:
            raise MemoryError
        if status in MESSAGES:
            raise SemverError(status, None if index is None else index.value)
        return status

    def _text(self, name, *given):
        """The text that a function writes, or None. Most texts fit into the first buffer."""
        room, length = ctypes.create_string_buffer(256), c_size_t()
        status = self._ask(name, *given, room, 256, byref(length))
        if status == TOO_SMALL:
            room = ctypes.create_string_buffer(length.value)
            status = self._ask(name, *given, room, length.value, byref(length))
        return room.raw[:length.value].decode() if status == OK else None

    def _value(self, kind, name, *given):
        answer = kind()
        self._ask(name, *given, byref(answer))
        return answer.value

    def version(self, version):
        return self._text("version_print", *text(version))

    def compare(self, version, other):
        return self._value(c_int32, "version_compare", *text(version), *text(other))

    def diff(self, version, other):
        return KINDS[self._value(c_uint32, "version_diff", *text(version), *text(other))]

    def inc(self, version, word, identifier, base):
        """The next version by a word. The base is 0, 1, or 2 for no number."""
        return self._text("version_inc", *text(version), *text(word), *text(identifier), base)

    def range(self, range_text):
        return self._text("range_print", *text(range_text))

    def satisfies(self, version, range_text, include_prerelease=False):
        return self._value(c_bool, "range_satisfies", *text(range_text), *text(version), include_prerelease)

    def outside(self, version, range_text, above):
        return self._value(c_bool, "range_outside", *text(range_text), *text(version), above, False)

    def intersect(self, one, other):
        return self._text("range_intersect", *text(one), *text(other))

    def difference(self, one, other):
        return self._text("range_difference", *text(one), *text(other))

    def allows_any(self, one, other):
        return self._value(c_bool, "range_allows_any", *text(one), *text(other))

    def min_version(self, range_text):
        return self._text("range_min_version", *text(range_text))

    def least_beyond(self, one, other):
        return self._text("range_least_beyond", *text(one), *text(other))

    def best(self, name, versions, range_text):
        """The best of some versions by a function, or None."""
        index = c_size_t(len(versions))
        status = self._ask(name, *text(range_text), *texts(versions), byref(index), index=index)
        return versions[index.value] if status == OK else None

    def sorted(self, versions):
        order, index = (c_size_t * len(versions))(), c_size_t(len(versions))
        self._ask("versions_sort", *texts(versions), order, len(versions), byref(index), index=index)
        return [versions[at] for at in order]

    def satisfies_each(self, asked, versions, include_prerelease):
        """The answers for an array of texts, as `texts` makes it: 0, 1, or 2 for a text that is no version."""
        answers = (c_uint8 * versions[1])()
        self._ask("range_satisfies_each", *text(asked), *versions, include_prerelease, answers, versions[1])
        return list(answers)
