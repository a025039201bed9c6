"""What the package of the Node client has: the files of clients/node that it needs, those that it
shares with the page in web/, and the paths that node-semver has beside its index, as
functions/valid."""
import os
import re

from repository import TOP, files

# What is no part of the package.
TESTS = {"beside.js", "test.js"}
SHARED = ("library.js", "reasons.js")
# The files of node-semver's folders, by which a program may ask for one function alone.
PATHS = {
    "functions": ("clean cmp coerce compare compare-build compare-loose diff eq gt gte inc lt lte major "
                  "minor neq parse patch prerelease rcompare rsort satisfies sort valid"),
    "ranges": ("gtr intersects ltr max-satisfying min-satisfying min-version outside simplify "
               "subset to-comparators valid"),
    "classes": "comparator range semver",
}
# Of these the name in the index is another one than the file's.
NAMES = {"ranges/simplify": "simplifyRange", "ranges/valid": "validRange",
         "classes/comparator": "Comparator", "classes/range": "Range", "classes/semver": "SemVer"}


def bytes_of(path):
    with open(os.path.join(TOP, path), "rb") as file:
        return file.read()


def name_of(path):
    """Returns the name in the index of what a file of node-semver has."""
    return NAMES.get(path) or re.sub(r"-(\w)", lambda it: it[1].upper(), path.split("/")[1])


def package_files(addon, module):
    """Returns the content of each file of the package, by its path there. `addon` and `module` are
    those of nodejs_semver.node and nodejs_semver.wasm, or None where it has none."""
    kinds = (".js", ".d.ts", "package.json")
    own = [it for it in files("clients/node/*") if it.endswith(kinds)]
    found = {os.path.basename(it): bytes_of(it) for it in [*own, *(f"web/{it}" for it in SHARED)]}
    found = {name: it for name, it in found.items() if name not in TESTS}
    found |= {it: bytes_of(it) for it in ("LICENSE", "NOTICE")}
    for path in (f"{folder}/{it}" for folder, names in PATHS.items() for it in names.split()):
        found[f"{path}.js"] = f'module.exports = require("../index.js").{name_of(path)};\n'.encode()
    found["preload.js"] = b'module.exports = require("./index.js");\n'
    built = {"nodejs_semver.node": addon, "nodejs_semver.wasm": module}
    return found | {name: it for name, it in built.items() if it is not None}
