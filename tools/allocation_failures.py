#!/usr/bin/env python3
"""Runs the built programs with one allocation after another failing, until a run meets no failure.

    tools/allocation_failures.py

`sweeps`, with nothing to read, prints a line for each call: each one must be the line of `stdout`, or say `memory` in place of
what the call returned, or that the values could not be made. A call that is promised to allocate nothing must make no request:
neither one that is refused nor one whose refusal it ignores. `semver_lines` must write a beginning of its answers, whole
ones, and exit with 1, or write them all and exit with 0. Prints how many requests each call makes.
"""
import collections, os, pathlib, re, shutil, subprocess, sys, tempfile

TOP = pathlib.Path(__file__).resolve().parent.parent
# The lines of calls that never allocate.
NEVER = [
    "Version::parse: 1.2.3 from 1.2.3", "Version::parse: nothing from 1.2", "Version::parse: nothing from 1.2-a.1.b",
    "version_loose: 1.2.3 from 1.2.3", "version_loose: nothing from 1.2", "version_loose: nothing from 1.2-a.1.b",
    "version_fast: 1.2.3 from 1.2.3", "version_fast: nothing from 1.2", "version_fast: nothing from 1.2-a.1.b",
    *(f"VersionRef::parse: {text} from {text}" for text in ["1.2.3-a.1.b+c.2.d", "1.2.3"]),
    *(f"VersionRef::parse: nothing from {text}" for text in ["1.2", "1.2-a.1.b"]),
    "VersionRef::pre_release: 3 from 1.2.3-a.1.b+c.2.d", "VersionRef::pre_release: 0 from 1.2.3",
    "VersionRef::diff: Some(Patch) from 1.2.3-a.1.b+c.2.d", "VersionRef::diff: None from 1.2.3",
    "VersionRef::to_version: 1.2.3 from 1.2.3", "VersionRef::to_version: 1.2.3-0 from 1.2.3-0",
    "Version::from_texts: 1.2.3-0 from 0",
    "Version::from_key: 1.2.3 from 1.2.3", "Version::from_key: nothing from 1.2.3-a without its end",
    "scan::identifiers: nothing from 1.2.3-a.1.b+c.2.d", "Version::new: 7.8.9 from 1.2.3",
    "Version::into_parts: VersionParts { major: 1, minor: 2, patch: 3, pre_release: [], build: [] } from 1.2.3",
    "Version::copy: 1.2.3 from 1.2.3", "Version::with_pre: 1.2.3-4 from 4", "Identifier::copy: 2 from 2",
    "Range::any: * from *",
    "IncrementError::copy: increment would overflow a version component"
    " from increment would overflow a version component",
    "Identifier::copy_list: [] from 1.2.3", "IdentifierRefs::to_list: [] from 1.2.3",
    "Range::parse: nothing from foo", "range_loose: nothing from foo", "range_fast: nothing from foo",
    "Range::parse: * from ||", "range_fast: nothing from ||", "Range::parse: >=1.2.3 <2.0.0-0 from ^1.2.3",
    "RangeRef::parse: >=1.2.3-a.1.b <2.0.0-0 from ^1.2.3-a.1.b", "RangeRef::parse: nothing from foo", "RangeRef::parse: * from ||",
    *(f"{call}: {answer} from >=1.2.3-a.1.b <2.0.0-0" for call, answer in [
        ("RangeRef::satisfies", "true"), ("RangeRef::satisfies_with_prerelease", "true"), ("VersionRef::satisfies", "false"),
        ("VersionRef::satisfies_with_prerelease", "true"), ("RangeRef::outside", "false"), ("RangeRef::allows_all", "true"),
        ("RangeRef::allows_any", "true"), ("RangeRef::eq", "true"), ("RangeRef::max_satisfying", "true"),
        ("RangeRef::min_satisfying", "true"),
    ]),
]

# The beginning of the first line that `sweeps` prints behind those of the calls, where it has something to read.
BEHIND = "1 to 40 identifiers: "

# The calls whose line has another name: the call fails before the one that the line names.
FOLLOWED_BY = {
    "inc fake": "IncrementError::copy",
    "version_to_value": "version_from_value",
    "range_to_value": "range_from_value",
}

LINES = b"""cmp;1.0.0-a;2.0.0-b
sat;^1.2.3-a || 2.x || 3.x;1.2.3-b+c
and;^1.2.3-a || 2.x || 3.x;>=1.3.0-b
minus;^1.2.3-a || 2.x || 3.x;1.3.0-b || 2.5.0
least;>1.2.3-a || 2.x || 3.x
beyond;^1.2.3-a || 2.x || 3.x;^1.3.0-b
range;^1.2.3-a || 2.x || 3.x
max;*;1.2.3-a;1.2.3+b;1.3.0
inc;1.2.3-a.1.b+c.2.d;prerelease;beta
diff;1.2.3-a;1.3.0-b
out;^1.2.3-a;3.0.0-b;>
foo;1.2.3
and;1.x;foo
"""
ANSWERS = b"""less
true
>=1.3.0-b <2.0.0-0||>=2.0.0 <3.0.0-0||>=3.0.0 <4.0.0-0
>=1.2.3-a <1.3.0-b||>1.3.0-b <2.0.0-0||>=2.0.0 <2.5.0||>2.5.0 <3.0.0-0||>=3.0.0 <4.0.0-0
1.2.3-a.0
1.2.3-a
>=1.2.3-a <2.0.0-0||>=2.0.0 <3.0.0-0||>=3.0.0 <4.0.0-0
1.3.0
1.2.3-beta.0+c.2.d
preminor
true
bad line
bad range
"""

def run(shim, program, at=0, log=False, text=b""):
    env = {**os.environ, "LD_PRELOAD": str(shim), "REFUSE_AT": str(at)}
    if log:
        env["REFUSE_LOG"] = "1"
    done = subprocess.run([program], input=text, env=env, stdout=subprocess.PIPE, stderr=subprocess.PIPE)
    return done.returncode, done.stdout, done.stderr

def call_of(line):
    return line.split(": ")[0]

# What is wrong with a run of which one allocation failed: one line differs from those wanted, and those that follow from it
# are missing. Counts the failure of a call in `requests`.
def fault_of(lines, wanted, requests):
    same = 0
    while same < len(lines) and lines[same] == wanted[same]:
        same += 1
    if same == len(lines):
        return None if lines == wanted else "lines are missing"
    line, behind = lines[same], lines[same + 1:]
    missing = wanted[same:len(wanted) - len(behind)]
    if behind != wanted[len(wanted) - len(behind):] or not missing:
        return f"wrong lines behind: {line}"
    if line.endswith(": no values"):
        return None
    if ": memory from " not in line:
        return f"wrong line: {line}"
    call, borrowed = line.split(": memory from ", 1)
    requests[call] += 1
    name = FOLLOWED_BY.get(call, call)
    if any(not call_of(w).startswith(name) for w in missing):
        return f"no such line: {line}"
    if call == "Version::new":
        # It hands back its parts: new numbers and the lists that `into_parts` returned for the same text.
        parts = borrowed.replace("major: 7, minor: 8, patch: 9", "major: 1, minor: 2, patch: 3")
        kept = parts != borrowed and f"Version::into_parts: {parts} from {missing[0].split(' from ')[1]}" in wanted
    else:
        kept = call == "inc fake" or all(w.endswith(" from " + borrowed) for w in missing)
    if not kept:
        return f"what was borrowed or handed back has changed: {line}"
    if missing[0] in NEVER:
        return f"allocates: {missing[0]}"
    return None

def faults_of_counts(wanted, counts):
    """What is wrong with the numbers of requests up to each line: a call that is promised to make none makes one."""
    if len(counts) != len(wanted) + 1:
        return ["not one count of requests for each line"]
    made = [after - before for before, after in zip([0, *counts], counts)]
    return [f"makes {n} requests: {line}" for line, n in zip(wanted, made) if n and line in NEVER]

def lines_of_calls(wanted):
    calls, found, _ = wanted.partition(BEHIND)
    if not found:
        sys.exit(f"`stdout` has no line that begins: {BEHIND}")
    return calls

def check_calls(shim, program, wanted):
    _, ample, log = run(shim, program, log=True)
    if ample.decode() != wanted:
        sys.exit("with ample memory the lines are not those of `stdout`")
    wanted = wanted.splitlines()
    *_, log = counts = [int(count) for count in log.split()]
    requests = collections.Counter()
    bad = [f"`stdout` has no line: {line}" for line in NEVER if line not in wanted]
    bad += faults_of_counts(wanted, counts)
    for at in range(1, log + 1):
        status, out, _ = run(shim, program, at)
        fault = fault_of(out.decode().splitlines(), wanted, requests)
        if status != 0 or fault:
            bad.append(f"request {at}: status {status}, {fault}")
    _, out, _ = run(shim, program, log + 1)
    if out != ample:
        bad.append("a run that meets no failure differs")
    return log, requests, bad

def check_lines(shim, program):
    status, ample, log = run(shim, program, log=True, text=LINES)
    log = int(log.split()[-1])
    if status != 0 or ample != ANSWERS:
        sys.exit("with ample memory `semver_lines` does not write its answers")
    bad = []
    for at in range(1, log + 1):
        status, out, said = run(shim, program, at, text=LINES)
        whole = ample.startswith(out) and (not out or out.endswith(b"\n"))
        if said or not whole or status != (0 if out == ample else 1):
            bad.append(f"request {at} of semver_lines: status {status}, {out!r}")
    return log, bad

def main():
    cc = shutil.which("cc")
    if not cc:
        sys.exit("allocation failures are not tested: there is no C compiler `cc` (apt-get install gcc)")
    with tempfile.TemporaryDirectory() as folder:
        shim = pathlib.Path(folder) / "refuse.so"
        subprocess.run([cc, "-O1", "-shared", "-fPIC", TOP / "tools/refuse.c", "-o", shim], check=True)
        crate = TOP / "crates/sweeps"
        count, requests, bad = check_calls(shim, crate / "out/sweeps", lines_of_calls((crate / "stdout").read_text()))
        more, faults = check_lines(shim, TOP / "crates/semver_lines/out/semver_lines")
    for call, n in sorted(requests.items()):
        print(f"{call}: {n} requests refused in turn")
    for line in NEVER:
        print(f"no request: {line}")
    for line in bad + faults:
        print(line)
    print(f"{count} requests of the calls and {more} of semver_lines refused in turn: {len(bad + faults)} wrong")
    sys.exit(bool(bad + faults))

main()
