"""The crates of crates.txt, the libraries that `rt ci` built of them, and the toolchain's prover called over these.

`rt ci` proves each library once and leaves it in the crate's out/rlib for the crates above. `rt check` and `rt lib` take no library from
there, and would prove all of them anew. So tools that need a library after `rt ci`, or beside it, call the prover itself over it."""
import functools
import os
import re
import shutil
import subprocess
import tempfile
import threading
import time

import edits
from bodiless import contracts, root_of
from repository import TOP, crate_lines, text_of, write

# The file to which the gate writes what `rt ci` says, beside which it runs these tools.
SAYS = "RT_CI_SAYS"
ENDED = r"^\d+ passed, \d+ failed"
PARTS = ("src", "specs", "proofs")
# How many seconds `rt ci` may take to say that a crate is kept, once those below it are there.
WAIT = 30
# How many KiB are to be free beside `rt ci` for another check to begin.
ROOM = 3_000_000


@functools.lru_cache(maxsize=None)
def kit():
    """The folder of the toolchain."""
    said = subprocess.run(["rt", "doc"], stdout=subprocess.PIPE, text=True, check=True).stdout
    return os.path.dirname(said.splitlines()[0])


class Crate:
    """A crate of crates.txt."""

    def __init__(self, name, is_static, uses, lower):
        self.line, self.name, self.is_static = f"{name}{' staticlib' if is_static else ''}: {' '.join(uses)}", name, is_static
        self.deps = [lower[it] for it in uses if it in lower]
        self.of_kit = ["std", *[it for it in uses if it not in lower]]

    def below(self):
        """Returns the crates of the repository that it stands on, the lowest first."""
        return list(dict.fromkeys(it for dep in self.deps for it in [*dep.below(), dep]))

    def files(self):
        """Returns all files that its proof reads, but those of the crates below."""
        walked = [found for part in PARTS for found in os.walk(f"{TOP}/crates/{self.name}/{part}")]
        return sorted(f"{at}/{name}" for at, _, names in walked for name in names)

    def words(self, command, folder, libraries):
        """Returns the words of the prover's command for the crate in a folder, over libraries that stand in another one."""
        words = [f"{kit()}/bin/rattle", command, "--crate-name", self.name, root_of(folder), "-L", f"dependency={kit()}/rlibs", "-L", f"dependency={libraries}"]
        for it in self.of_kit:
            words += ["--extern", f"{it}={kit()}/rlibs/{it}.rlib"]
        for it in self.deps:
            words += ["--extern", f"{it.name}={libraries}/{it.name}.rlib"]
        words += ["--antt-project", f"{kit()}/rattle/logic/antt-project.json", "--logic-built", f"{kit()}/logic_built"]
        return [*words, *["--crate-type", "staticlib"] * self.is_static]


@functools.lru_cache(maxsize=None)
def crates():
    """Returns the crates by their names, low to high, as crates.txt lists them."""
    found = {}
    for name, (is_static, uses) in crate_lines().items():
        found[name] = Crate(name, is_static, uses, found)
    return found


class Libraries:
    """The libraries, each in a folder as NAME.rlib: those that `rt ci` built of the files as they stand, and where there is none,
    those that `rt lib` builds in a copy. Where contracts are enough, a library that `rt ci` is still to prove is made of these alone."""

    def __init__(self, room, are_contracts_enough=False):
        self.room, self.folder, self.are_contracts_enough = room, f"{room}/libraries", are_contracts_enough
        self.locks, self.copying = {it: threading.Lock() for it in crates()}, threading.Lock()
        os.makedirs(self.folder)

    def below(self, crate):
        """Puts the libraries below a crate into the folder, and returns that."""
        for it in crate.below():
            with self.locks[it.name]:
                if not os.path.exists(f"{self.folder}/{it.name}.rlib"):
                    found = self.of_contracts(it) or built(it) or self.proved(it)
                    shutil.copytree(found, f"{self.folder}/new-{it.name}", copy_function=link)
                    os.rename(f"{self.folder}/new-{it.name}", f"{self.folder}/{it.name}.rlib")
        return self.folder

    def of_contracts(self, crate):
        """Builds a library of the contracts alone, beside `rt ci`, or None. What is the lowest, or is kept, need not be waited for, and what
        `rt ci` proves first is taken."""
        if not self.are_contracts_enough or SAYS not in os.environ or not all(built(it) for it in crate.deps) or not crate.deps:
            return None
        time.sleep(WAIT)
        if said_of(crate):
            return None
        folder = f"{self.room}/contracts/crates/{crate.name}"
        with self.copying:
            if not os.path.exists(f"{self.room}/contracts"):
                edits.copied(f"{self.room}/contracts")
        for file, text in contracts(crate.name, folder).items():
            write(f"{folder}/{file}", text) if text is not None else os.remove(f"{folder}/{file}")
        made = f"{self.room}/contracts/{crate.name}.rlib"
        words = [*crate.words("build", folder, self.folder), "--jobs", "1", "-o", made]
        with tempfile.TemporaryFile("w+", errors="replace") as said:
            ran = subprocess.Popen(words, cwd=folder, stdin=subprocess.DEVNULL, stdout=said, stderr=subprocess.STDOUT)
            while ran.poll() is None:
                if said_of(crate):
                    # The real one is there first.
                    ran.kill()
                    ran.wait()
                    return None
                time.sleep(1)
            said.seek(0)
            if ran.returncode:
                print(f"no library of the contracts of {crate.name} alone:\n{said.read()[-2000:]}", flush=True)
                return None
        return made

    def proved(self, crate):
        """Builds a library in a copy, with `rt lib`, which takes over what checks in other checkouts on this machine proved."""
        with self.copying:
            if not os.path.exists(f"{self.room}/copy"):
                edits.copied(f"{self.room}/copy")
        folder = f"{self.room}/copy/crates/{crate.name}"
        ran = subprocess.run(["rt", "lib"], cwd=folder, stdin=subprocess.DEVNULL, stdout=subprocess.PIPE, stderr=subprocess.STDOUT, text=True, check=False)
        if ran.returncode:
            raise SystemExit(f"{crate.name} is not proved as it stands:\n{ran.stdout[-2000:]}")
        return f"{folder}/out/rlib/{crate.name}.rlib"


def said_of(crate):
    """Returns what `rt ci` said of a crate, or that it has ended, or None."""
    return re.search(rf"^rt: {crate.name} (proved$|is kept: |NOT PROVED)|{ENDED}", text_of(os.environ[SAYS]), re.M)


def wait_for_room():
    """Waits while `rt ci`, beside which this runs, leaves too little memory for another check."""
    free = lambda: int(re.search(r"^MemAvailable: +(\d+)", text_of("/proc/meminfo"), re.M)[1])
    while SAYS in os.environ and not re.search(ENDED, text_of(os.environ[SAYS]), re.M) and free() < ROOM:
        time.sleep(5)


def built(crate):
    """Returns the folder of a library that `rt ci` built of the files as they stand, or None. Beside `rt ci` it waits for it."""
    found = f"{TOP}/crates/{crate.name}/out/rlib/{crate.name}.rlib"
    if SAYS in os.environ:
        while not (said := said_of(crate)):
            time.sleep(1)
        if not (said[1] or "").startswith(("proved", "is kept")):
            raise SystemExit(f"{crate.name} is not proved as it stands")
        return found
    files = [f"{TOP}/crates.txt", *[it for low in [*crate.below(), crate] for it in low.files()]]
    made = f"{found}/format"
    return found if os.path.exists(made) and os.path.getmtime(made) > max(map(os.path.getmtime, files)) else None


def link(one, other):
    """Gives a file of what was proved a second name, where it can: such a file is made anew, and never written into."""
    try:
        os.link(one, other)
    except OSError:
        shutil.copy2(one, other)
