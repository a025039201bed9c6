"""The test of the Python package: python3 test_npm_semver.py FOLDER, where tools/python_package.py built it."""
import concurrent.futures
import copy
import doctest
import inspect
import itertools
import os
import pickle
import sys
import unittest

if len(sys.argv) < 2:
    sys.exit(__doc__)
sys.path.insert(0, os.path.abspath(sys.argv.pop(1)))
import npm_semver
from npm_semver import (
    InvalidIncrement, InvalidRange, InvalidVersion, Range, SemverError, Version, clean, coerce, compat, ignored_words, key, valid)

TOP = os.path.realpath(os.path.join(os.path.dirname(os.path.realpath(__file__)), "../.."))
CHAIN = ("1.0.0-alpha", "1.0.0-alpha.1", "1.0.0-alpha.beta", "1.0.0-beta", "1.0.0-beta.2", "1.0.0-beta.11", "1.0.0-rc.1", "1.0.0", "1.0.1-0",
         "1.0.1", "1.1.0", "2.0.0")
version, caret, spec = Version("1.2.3"), Range("^1"), compat.NpmSpec("^1")
# A right value for each parameter by its name; `other` is one of the class that the method is of.
RIGHT = {
    "text": "1.2.3", "version": version, "versions": [version], "level": "minor", "identifier": "rc", "base": "0", "rtl": False, "major": 1,
    "minor": 2, "patch": 3, "prerelease": "rc.1", "build": "b", "expression": "^1", "lenient": False, "include_prerelease": False,
}
WRONG = (None, 5, 5.0, [], b"", {}, (), object(), bytearray(b"1.2.3"), b"1.2.3", True, [None], [5], [b"1.2.3"], type)
# The constructors, whose parameters the compiled part reads.
CONSTRUCTORS = {Version: (("text",), ("lenient",)), Range: (("text",), ("include_prerelease", "lenient"))}


def debian_semantic_version():
    """The package semantic_version, which Debian has for its own Python alone, or None."""
    for path in ([], ["/usr/lib/python3/dist-packages"]):
        sys.path += path
        try:
            import semantic_version
            return semantic_version
        except ImportError:
            pass
        finally:
            del sys.path[len(sys.path) - len(path):]
    return None


def is_right(name, value):
    """Whether a value is of the type of a parameter."""
    if name in ("major", "minor", "patch"):
        return isinstance(value, int) and not isinstance(value, bool)
    if name in ("lenient", "include_prerelease", "rtl"):
        return isinstance(value, bool)
    if name == "versions":
        return value in ([], {}, ()) and not isinstance(value, bytes)
    return False


def calls():
    """Each public function and method, with right values for its parameters: (name, call, names of places, of them named)."""
    for owner, names in CONSTRUCTORS.items():
        yield owner.__name__, owner, *names
    found = [(it.__name__, it, None) for it in vars(npm_semver).values() if inspect.isfunction(it) and it.__module__ == "npm_semver"]
    for owner, one in ((Version, version), (Range, caret), (compat.NpmSpec, spec)):
        for name, it in vars(owner).items():
            if inspect.isfunction(it) or isinstance(it, classmethod):
                found.append((f"{owner.__name__}.{name}", getattr(one, name), one))
    for name, call, _ in found:
        if name.split(".")[-1].startswith("_") and name != "NpmSpec.__contains__":
            continue
        places, named = [], []
        for it in inspect.signature(call).parameters.values():
            (named if it.kind == it.KEYWORD_ONLY else places).append(it.name)
        yield name, call, places, named
    yield "NpmSpec", compat.NpmSpec, ("expression",), ()
    yield "Range.__contains__", caret.__contains__, ("version",), ()


class Test(unittest.TestCase):
    def rejected(self, kind, call, *given, **named):
        with self.assertRaises(kind) as caught:
            call(*given, **named)
        return caught.exception

    def test_types(self):
        """In each place of each call a value of another type is a TypeError."""
        asked = 0
        for name, call, places, named in calls():
            owner = version if name.startswith("Version.") else caret
            right = [owner if it == "other" else RIGHT[it] for it in places]
            if name in ("Range", "NpmSpec", "ignored_words"):
                right[0] = "^1"
            if name != "ignored_words":
                call(*right)
            for place, wrong in itertools.product(range(len(places)), WRONG):
                if not is_right(places[place], wrong):
                    with self.subTest(call=name, place=places[place], value=wrong):
                        self.assertRaises(TypeError, call, *right[:place], wrong, *right[place + 1:])
                        asked += 1
            for one, wrong in itertools.product(named, WRONG):
                if not is_right(one, wrong):
                    with self.subTest(call=name, place=one, value=wrong):
                        self.assertRaises(TypeError, call, *right, **{one: wrong})
                        asked += 1
        self.assertGreater(asked, 500)

    def test_operators_of_types(self):
        for wrong in (*WRONG, "1.2.3", version):
            for call in (lambda: caret & wrong, lambda: caret | wrong, lambda: caret - wrong, lambda: wrong - caret, lambda: caret <= wrong,
                         lambda: caret > wrong):
                self.assertRaises(TypeError, call)
            if wrong is not version:
                for call in (lambda: version < wrong, lambda: version >= wrong, lambda: wrong <= version):
                    self.assertRaises(TypeError, call)
                self.assertEqual([version == wrong, caret == wrong, version != wrong], [False, False, True])
        self.assertRaises(TypeError, Version)
        self.assertRaises(TypeError, Version, "1.2.3", False)
        self.assertRaises(TypeError, Range, "1", loose=True)
        for it, name in ((version, "major"), (version, "other"), (caret, "text"), (caret, "include_prerelease")):
            self.assertRaises(AttributeError, setattr, it, name, 1)

    def test_doctests(self):
        for module, fewest in ((npm_semver, 30), (compat, 5)):
            found = doctest.testmod(module)
            self.assertEqual(found.failed, 0)
            self.assertGreater(found.attempted, fewest)

    def test_version(self):
        one = Version("v1.2.34-abc.123.99999999999999999999+1")
        self.assertEqual((one.major, one.minor, one.patch), (1, 2, 34))
        self.assertEqual((one.prerelease, one.build), (("abc", 123, "99999999999999999999"), ("1",)))
        self.assertEqual((str(one), repr(Version("1.2.3-a+b"))), ("1.2.34-abc.123.99999999999999999999+1", "Version('1.2.3-a+b')"))
        self.assertEqual([one.is_prerelease, Version("1.2.3+a").is_prerelease, str(Version("1.2.3-a+b").without_build())], [True, False, "1.2.3-a"])
        self.assertEqual(str(Version("1.2.3-" + "a" * 250)), "1.2.3-" + "a" * 250)
        self.assertEqual([str(Version("v1.2.3 oops", lenient=True)), Version(one) is one], ["1.2.3", True])
        self.assertEqual([valid("1.2.3"), valid("1.2"), valid("\ud800")], [True, False, False])
        for it in (copy.copy(one), copy.deepcopy(one), *(pickle.loads(pickle.dumps(one, at)) for at in range(pickle.HIGHEST_PROTOCOL + 1))):
            self.assertEqual((str(it), type(it)), (str(one), Version))

    def test_parts(self):
        self.assertEqual(str(Version.of(1, 2, 2**64 - 1, "x" * 600, "y.1")), f"1.2.{2**64 - 1}-{'x' * 600}+y.1")
        for wrong in ("01", "0" * 600 + "1", "a..b", "a+b", "a.", "\xe9", "\ud800", "a b"):
            self.rejected(InvalidVersion, Version.of, 1, 2, 3, wrong)
            self.rejected(InvalidVersion, Version.of, 1, 2, 3, "", wrong)
        for wrong in (-1, 2**64, 10**40):
            self.rejected(ValueError, Version.of, 1, wrong, 3)

    def test_subclass(self):
        class Own(Version):
            pass
        self.assertEqual([type(it) for it in (Own("1.2.3"), Own(version), Own("1.2.3").inc("major"), pickle.loads(pickle.dumps(Version(Own("1.2.3")))))],
                         [Own, Own, Own, Version])
        self.assertIn(Own("1.2.3"), caret)

    def test_order(self):
        chain = [Version(it) for it in CHAIN]
        for (at, one), (place, other) in itertools.product(enumerate(chain), repeat=2):
            self.assertEqual((one < other, one <= other, one == other, one != other, one >= other, one > other),
                             (at < place, at <= place, at == place, at != place, at >= place, at > place))
            self.assertEqual(one.compare(other), (at > place) - (at < place))
            self.assertEqual((one.key < other.key, one.key == other.key), (at < place, at == place))
        self.assertEqual([sorted(chain[::-1]), max(chain)], [chain, chain[-1]])
        one, other = Version("1.2.3-a+x"), Version("1.2.3-a+y")
        self.assertEqual([one, hash(one), len({one, other}), one.compare_build(other)], [other, hash(other), 1, -1])
        self.assertEqual([Version("1.2.3").diff(Version("1.3.0-beta")), one.diff(other)], ["preminor", None])

    def test_keys(self):
        with open(f"{TOP}/crates/core_tests/data/keys.txt", encoding="utf-8") as file:
            rows = [line.rstrip("\n").split("\t") for line in file]
        self.assertGreater(len(rows), 90)
        for text, wanted in rows:
            self.assertEqual((text, key(text).hex()), (text, wanted))

    def test_inc(self):
        self.assertEqual([str(Version("1.2.3").inc("prerelease", "beta")), str(Version("1.2.3+b").inc("minor"))], ["1.2.4-beta.0", "1.3.0+b"])
        self.assertEqual([str(version.inc("premajor", "rc", it)) for it in ("0", "1", "none")], ["2.0.0-rc.0", "2.0.0-rc.1", "2.0.0-rc"])
        self.rejected(ValueError, version.inc, "minor", "", "2")
        for given, reason in ((("sideways",), "bad argument"), (("prerelease", "a_b"), "bad identifier"), (("release",), "not a prerelease")):
            error = self.rejected(InvalidIncrement, version.inc, *given)
            self.assertEqual((error.text, error.place), ("1.2.3", None))
            self.assertIn(reason, error.reason)
        last = Version("9007199254740991.0.0").inc("major")
        self.assertEqual((last.major, last in Range(">1"), pickle.loads(pickle.dumps(last))), (9007199254740992, True, last))
        self.assertEqual(last.inc("major").major, 9007199254740993)
        self.assertIn("overflow", self.rejected(InvalidIncrement, Version.of(2**64 - 1, 0, 0).inc, "major").reason)
        self.assertEqual(str(Version("2.2.1-099999999999999999999", lenient=True).inc("patch")), "2.2.1")

    def test_errors(self):
        """An error carries the text, the reason and the place."""
        for text, place, reason in [
                ("1.2", 3, "a dot"), ("", 0, "a digit"), ("1.2.3 oops", 6, "ends before"), ("1.02.3", 3, "leading zero"), ("=1.2.3", 0, "sign"),
                ("1.2.9007199254740992", 19, "above"), ("1.2.3beta", 5, "hyphen"), ("1.2.3-" + "a" * 251, 256, "256"), ("1.2.3-\ud800", 6, "surrogate"),
                ("1.2.3-\xe9", 6, "a letter")]:
            error = self.rejected(InvalidVersion, Version, text)
            self.assertEqual((error.text, error.place), (text, place))
            self.assertIn(reason, str(error))
            self.assertEqual(pickle.loads(pickle.dumps(error)).args, error.args)
        for text, place, end in [("latest", 0, 6), (">=1.0.0, <2.0.0", 0, 8), ("1 || foo", 5, 8), ("\xe9\xe9 1", 0, 2), ("1 \xe9\xe9", 2, 4)]:
            error = self.rejected(InvalidRange, Range, text)
            self.assertEqual((error.text, error.place, error.end), (text, place, end))
            self.assertEqual(pickle.loads(pickle.dumps(error)).end, end)
        self.assertEqual(self.rejected(InvalidRange, Range, "\ud800").place, 0)
        for call, text, place in ((Version, "1.x", 2), (Range, "foo", 0)):
            self.assertEqual(self.rejected(SemverError, call, text, lenient=True).place, place)
        self.assertEqual([issubclass(it, SemverError) for it in (InvalidVersion, InvalidRange, InvalidIncrement)], [True] * 3)
        self.rejected(InvalidVersion, lambda: "oops" in caret)

    def test_range(self):
        own, versions = Range("^1.2"), [Version(it) for it in ("1.2.0", "1.4.0+a", "2.0.0", "1.4.0+b", "1.5.0-rc")]
        self.assertEqual([it in own for it in versions], [True, True, False, True, False])
        self.assertEqual([str(it) in own for it in versions], [True, True, False, True, False])
        wide = Range("^1.2", include_prerelease=True)
        self.assertEqual([versions[4] in wide, wide.include_prerelease, own.include_prerelease, "1.0.0-a" in Range("1.x", include_prerelease=True)],
                         [True, True, False, True])
        self.assertEqual([str(it) for it in own.filter(versions)], ["1.2.0", "1.4.0+a", "1.4.0+b"])
        self.assertEqual([str(own.max(versions)), str(own.min(versions)), str(wide.max(versions))], ["1.4.0+a", "1.2.0", "1.5.0-rc"])
        self.assertEqual([Range("^7").max(versions), own.max([]), own.max(iter(["1.2.9", versions[0], "v1.10.0"]))], [None, None, "v1.10.0"])
        self.assertEqual([own.outside(it) for it in (versions[2], "1.0.0", "1.3.0", "1.5.0-rc")], [">", "<", None, None])
        self.assertEqual([str(own), repr(Range("1.2.3")), repr(wide)],
                         [">=1.2.0 <2.0.0-0", "Range('1.2.3')", "Range('>=1.2.0-0 <2.0.0-0', include_prerelease=True)"])
        self.assertEqual([own, hash(own), len({own, Range(">=1.2.0 <2.0.0-0")})], [Range("1.2 - 1"), hash(Range("1.2 - 1")), 1])
        self.assertNotEqual(own, Range("^1"))
        self.assertEqual(str(Range(">=1.0.0, <2.0.0", lenient=True)), "<2.0.0")
        long = " || ".join(f"1.0.{n}" for n in range(90))
        self.assertEqual([str(Range(long)), Range(long).filter(["1.0.89", "1.0.90"])], [long.replace(" ", ""), ["1.0.89"]])
        for one in (own, wide, Range(long), Range("* || 1.0.0-a"), Range.NOTHING, Range("~1.9007199254740991", lenient=True)):
            for it in (copy.copy(one), copy.deepcopy(one), *(pickle.loads(pickle.dumps(one, at)) for at in range(pickle.HIGHEST_PROTOCOL + 1))):
                self.assertEqual((it, str(it), it.include_prerelease), (one, str(one), one.include_prerelease))

    def test_iterables_that_fail(self):
        def failing():
            yield "1.2.3"
            raise KeyError("lost")
        for call in (caret.filter, caret.max, caret.min, spec.filter, spec.select):
            self.assertRaises(KeyError, call, failing())
            self.assertRaises(InvalidVersion, call, ["1.2.3", "oops"])

    def test_range_operations(self):
        own = Range("^1.2")
        self.assertEqual([str(own & Range("<1.5")), own & Range("^2"), str(own - Range("1.5.0"))],
                         [">=1.2.0 <1.5.0-0", Range.NOTHING, ">=1.2.0 <1.5.0||>1.5.0 <2.0.0-0"])
        self.assertEqual([str(own | Range("2.0.0")), own - Range("*")], [">=1.2.0 <2.0.0-0||2.0.0", Range.NOTHING])
        self.assertEqual([own <= Range("^1"), Range("^1") <= own, own < Range("^1"), own < own, own <= own, Range("^1") > own, own >= Range("1.2.3")],
                         [True, False, True, False, True, True, True])
        self.assertEqual([Range("^1").least_beyond(own), own.least_beyond(Range("^1"))], [Version("1.0.0"), None])
        self.assertEqual([Range("1 || 2").accepts_same(Range(">=1 <3")), own.allows_any(Range("^2"))], [True, False])
        self.assertEqual([str(Range(">1.0.0 <1.0.1-5").min_version()), Range.NOTHING.min_version()], ["1.0.1-0", None])
        self.assertEqual(own.intervals, (((">=", Version("1.2.0")), ("<", Version("2.0.0-0"))),))
        # What npm's reading of the printed text would drop is kept.
        both = Range("*") | Range("1.0.0-a")
        self.assertEqual([Version("1.0.0-a") in both, Version("1.0.0-b") in both, Version("5.0.0") in both], [True, False, True])
        self.assertTrue((both & Range("<2")).allows_any(Range("1.0.0-a")) and Range("1.0.0-a") <= both)
        # And so is a bound past the greatest number, of which no text can be read.
        tilde = Range("~1.9007199254740991", lenient=True)
        self.assertEqual([it in Range(">=1") - tilde for it in ("1.9007199254740991.7", "2.0.0", "1.0.0")], [False, True, True])
        self.assertEqual([type(it) for it in (own & own, own | own, own - own)], [Range] * 3)

    def test_nothing(self):
        none, own = Range.NOTHING, Range("^1.2")
        self.assertEqual([own & none, none & own, none - own], [none] * 3)
        self.assertEqual([own | none, none | own, own - none], [own] * 3)
        self.assertEqual([none <= own, own <= none, "0.0.0" in none, none.explain()], [True, False, False, "<0.0.0-0\nno version"])
        wide = Range("^1", include_prerelease=True)
        self.assertTrue((wide - wide).include_prerelease)
        for call in (lambda: wide & own, lambda: wide | own, lambda: own - wide, lambda: own <= wide, lambda: own.least_beyond(wide),
                     lambda: own.allows_any(wide), lambda: own.accepts_same(wide)):
            self.assertRaises(ValueError, call)

    def test_explain(self):
        for text, wanted in [("1.2.3", "1.2.3 alone"), ("*", "all versions, and no pre-release"),
                             (">1.2.3 <=2.0.0", "after 1.2.3, up to 2.0.0, and no pre-release"),
                             (">=1.0.0-a <2.0.0-b", "from 1.0.0-a on, below 2.0.0-b, and of pre-releases those of 1.0.0 and 2.0.0")]:
            self.assertEqual(Range(text).explain().split("\n")[1], wanted)
        self.assertEqual(Range("1 - 2", include_prerelease=True).explain(),
                         ">=1.0.0-0 <3.0.0-0\nfrom 1.0.0-0 on, below 3.0.0-0, and all pre-releases there")

    def test_texts(self):
        self.assertEqual([str(clean(" =v1.2.3+b ")), clean("1.2"), clean("\ud800")], ["1.2.3", None, None])
        self.assertEqual([str(coerce("a 1.2 b 3")), str(coerce("a 1.2 b 3", rtl=True)), coerce("x")], ["1.2.0", "3.0.0", None])
        self.assertEqual(str(coerce("v1.2.3-rc.1", include_prerelease=True)), "1.2.3-rc.1")
        self.rejected(SemverError, coerce, "1.2.3\ud800")
        self.assertEqual(ignored_words("\xe9 1.2.3 || ^*"), [(0, 1, "malformed"), (11, 13, "without bounds")])
        self.assertEqual(ignored_words("foo " * 100), [(4 * n, 4 * n + 3, "malformed") for n in range(100)])

    def test_threads(self):
        """Several threads ask the same versions and ranges."""
        versions, own = [Version(f"1.{n % 40}.{n % 7}-rc.{n}") for n in range(2000)], Range("^1.3.0-rc.7 || 1.9.x", include_prerelease=True)
        def ask(_):
            return len(own.filter(versions)), str(own.max(versions)), [hash(it) for it in sorted(versions)[:50]]
        with concurrent.futures.ThreadPoolExecutor(4) as pool:
            first, *others = pool.map(ask, range(8))
        self.assertEqual(others, [first] * 7)

    def test_references(self):
        """No call loses or takes a reference too many."""
        texts, other = ["1.2.3", "1.3.0-rc.1+b", "2.0.0"], Range("1.5 - 3")
        kept = [Version(it) for it in texts]
        def ask():
            caret.filter(texts), caret.max(kept), caret.min(texts), caret.outside(kept[0]), caret & other, caret | other, caret - other, caret <= other
            kept[0] < kept[1], hash(Version("1.2.3-a")), kept[1].inc("minor"), str(other), other.intervals, pickle.loads(pickle.dumps(other))
            caret.least_beyond(other), other.min_version(), coerce("1.2"), clean("1.2.3"), key("1.2.3"), kept[1].diff(kept[0]), caret == other
            for call in (lambda: Version("1.x"), lambda: Range("oops"), lambda: "x" in caret, lambda: 5 in caret, lambda: Version.of(1, 2, 3, "01")):
                self.assertRaises((ValueError, TypeError), call)
        watched = [*texts, *kept, caret, other, Version, Range, Range.NOTHING]
        ask()
        before = [sys.getrefcount(it) for it in watched]
        for _ in range(200):
            ask()
        grown = [now - then for now, then in zip(map(sys.getrefcount, watched), before)]
        self.assertTrue(all(abs(it) < 100 for it in grown), grown)

    @unittest.skipUnless(debian_semantic_version(), "semantic_version is not here")
    def test_beside_semantic_version(self):
        other = debian_semantic_version()
        versions = [f"{a}.{b}.{c}{pre}" for a, b, c in itertools.product((0, 1, 2), (0, 1, 3), (0, 2)) for pre in ("", "-alpha.1", "-rc")]
        specs = ("^1.1", "~1.1.0", ">=0.1.1 <0.3.0", "1.x", "*", "1 - 2", ">1.1.0", "<=1.3", "^0.1.0", "^0.0.2", "1.1.0 || 2.3.2", "^1.1.0-alpha.1",
                 "~0.3", "=1.1.2", "1.1.0 - 2.1.2", ">=1.1.0-rc")
        for text in specs:
            own, its = compat.NpmSpec(text), other.NpmSpec(text)
            kept = [other.Version(it) for it in versions]
            self.assertEqual((text, [it in own for it in kept]), (text, [it in its for it in kept]))
            self.assertEqual((own.select(kept), list(own.filter(kept)), str(own)), (its.select(kept), list(its.filter(kept)), str(its)))
        # Where the two differ, the answer is npm's.
        beta = other.Version("2.0.0-beta")
        self.assertEqual([beta in compat.NpmSpec("<2.0.0"), beta in other.NpmSpec("<2.0.0")], [False, True])


if __name__ == "__main__":
    unittest.main()
