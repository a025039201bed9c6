#!/usr/bin/env python3
"""Writes crates/core_tests/data/keys.txt: versions and their keys, by the table of docs/KEYS.md alone. `--check` only compares the file."""
import os
import re
import sys

FILE = os.path.join(os.path.dirname(os.path.abspath(__file__)), "../crates/core_tests/data/keys.txt")


def number(n):
    mark, size = (251, 2) if n < 2**16 else (252, 4) if n < 2**32 else (253, 8)
    return bytes([n]) if n < 251 else bytes([mark]) + n.to_bytes(size, "big")


def identifier(text):
    if re.fullmatch("[0-9]+", text) and int(text) < 2**64:
        return b"\1" + number(int(text))
    return b"\2" + text.encode().replace(b"\0", b"\0\xff") + b"\0"


def key(version):
    numbers, _, pre = version.partition("+")[0].partition("-")
    ids = b"".join(map(identifier, pre.split("."))) + b"\0" if pre else b"\3"
    return b"".join(number(int(it)) for it in numbers.split(".")) + ids


EDGES = [0, 1, 9, 10, 127, 128, 250, 251, 255, 256, 65535, 65536, 2**24, 2**32 - 1, 2**32, 2**40, 2**53 - 1]
TEXTS = ("a A z Z - -- 0a 00a -1 alpha beta rc rc.1 rc.2 rc.10 alpha.beta alpha.1.x 0 1 0.0 1.2.3 x.0 x.0.0 x-y x-y.z 18446744073709551615 "
         "18446744073709551616 99999999999999999999a a.250 a.251 a.65535 a.65536 a.4294967295 a.4294967296").split()
VERSIONS = [f"{n}.0.0" for n in EDGES] + [f"1.{n}.0-{n}" for n in EDGES] + [f"1.2.{n}-a.{n}" for n in EDGES]
VERSIONS += [f"1.2.3-{text}" for text in TEXTS] + ["1.2.3", "1.2.3+build", "1.2.3-rc.1+build.5", "1.10.0-rc.2", "0.0.0-0", "1.2.4"]
ROWS = "".join(f"{version}\t{key(version).hex()}\n" for version in VERSIONS)

if __name__ == "__main__":
    if sys.argv[1:] != ["--check"]:
        open(FILE, "w").write(ROWS)
    sys.exit(open(FILE).read() != ROWS and "crates/core_tests/data/keys.txt differs: run tools/key_vectors.py")
