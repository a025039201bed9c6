#!/usr/bin/env python3
"""Builds the Python package npm_semver in a folder, over the library that tools/c_library made in another one.

  tools/python_package.py FOLDER LIBRARY

FOLDER/npm_semver is then the package, for Python 3.10 and each later one: put FOLDER on the path. It needs cc and the header Python.h, which
Debian has in python3-dev. The module has the library in it."""
import glob
import os
import shutil
import subprocess
import sys
import sysconfig

TOP = os.path.realpath(os.path.join(os.path.dirname(os.path.realpath(__file__)), ".."))
SOURCE, NATIVE = f"{TOP}/clients/python/npm_semver", f"{TOP}/clients/python/native"
# What the compiled module is called, by CPython's stable interface.
MODULE = "_native.abi3.so"
FILES = ("__init__.py", "_errors.py", "_native.pyi", "compat.py", "py.typed")


def headers():
    """Returns the folder of Python.h, or None where this machine has none."""
    found = [sysconfig.get_path("include"), *(f"/usr/include/python3.{minor}" for minor in range(10, 20))]
    return next((it for it in found if os.path.exists(f"{it}/Python.h")), None)


def missing():
    """Returns what the build needs and this machine lacks, or None."""
    if sys.version_info < (3, 10):
        return "Python 3.10"
    return "cc" if not shutil.which("cc") else None if headers() else "Python.h"


def build(folder, library):
    """Builds the package. Returns what the compiler says where it fails, and else nothing."""
    made = f"{folder}/npm_semver"
    os.makedirs(made, exist_ok=True)
    for name in FILES:
        shutil.copyfile(f"{SOURCE}/{name}", f"{made}/{name}")
    done = subprocess.run(
        ["cc", "-std=c11", "-shared", "-fPIC", "-O2", "-fvisibility=hidden", "-Wall", "-Wextra", "-Werror", f"-I{headers()}", f"-I{library}",
         "-o", f"{made}/{MODULE}", *sorted(glob.glob(f"{NATIVE}/*.c")), f"{library}/libnodejs_semver.a", "-Wl,--exclude-libs,ALL"],
        stdin=subprocess.DEVNULL, stdout=subprocess.PIPE, stderr=subprocess.STDOUT, text=True, check=False)
    return f"{done.stdout}cc: exit status {done.returncode}" if done.returncode else ""


def main(words):
    if len(words) != 2:
        sys.exit(__doc__)
    if lacks := missing():
        sys.exit(f"npm_semver is not built, without {lacks}")
    if said := build(*words):
        sys.exit(said)
    print(f"{words[0]}/npm_semver")


if __name__ == "__main__":
    main(sys.argv[1:])
