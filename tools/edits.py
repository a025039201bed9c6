"""The wrong bodies of the crates: files crates/NAME/wrong_bodies/CALL__MISTAKE.edit.

The head of an edit has a line '# mistake: ..', what is wrong; a line '# rejected by: ..', the function at which the prover stops with the
clauses of it that are left open, and behind 'for' the public call that it serves, with its clauses; and a line '# example: ..' where a line
of the program shows the mistake: `LINE`: `WRONG`, not `RIGHT`. `tools/wrong_bodies --list` prints these heads.

Below the head an edit has lines 'file: PATH', 'old: TEXT' and 'new: TEXT'. Each old text stands in its file once, and the new one takes its
place; a further pair applies to what the earlier ones made. A line 'also: FUNCTION: GOAL' names a goal that the body leaves open beside
those by which it is rejected, and that need not be tried: the folder of the function's proof files, and the goal."""
import copy
import functools
import glob
import os
import re
import shutil
import subprocess

from repository import HEADER, TOP, text_of

# What the name of a twin ends with: a function beside another one, with a body of its own.
TWIN = re.compile(r"_twin\d+\b")
BLOCK = re.compile(r"^(?:impl\b.*?(?=\{|where|$)|(?:pub(?:\([^)]*\))? )?trait \w+)", re.M)


def bounds_of(text, head):
    """Returns where the item of a function begins, with its attributes, and where it ends, by the match of its head in a text in rt fmt's
    layout. An item begins behind a blank line, or at the front of a block."""
    end = re.search(rf"^{head[1]}}}$", text[head.start() :], re.M)
    return max(text.rfind(it, 0, head.start()) for it in ("\n\n", "{\n")) + 2, head.start() + end.end() if end else len(text)


def copied(room):
    """Copies the files of the repository, as they stand, into a folder."""
    listed = ["git", "-C", TOP, "ls-files", "-z", "--cached", "--others", "--exclude-standard"]
    names = subprocess.run(listed, stdout=subprocess.PIPE, check=True).stdout.decode().split("\0")
    for name in filter(None, names):
        if os.path.exists(f"{TOP}/{name}"):
            os.makedirs(os.path.dirname(f"{room}/{name}"), exist_ok=True)
            shutil.copyfile(f"{TOP}/{name}", f"{room}/{name}")
    # The toolchain looks for the top of a repository.
    os.makedirs(f"{room}/.git", exist_ok=True)


class Place:
    """A function of a crate: the modules it stands in, and the type and the trait of its impl block."""

    def __init__(self, crate, folder, file, above):
        """The place of the last function that begins in a text, which is the front of a file."""
        head = HEADER.findall(above)[-1]
        self.name, block = head[1], BLOCK.findall(above) if head[0] else []
        self.module = [it for it in file[len("src/") : -len(".rt")].split("/") if it not in ("lib", "main")]
        self.crate, self.owner, self.trait, self.has_arguments = crate, "", "", False
        if block:
            words = re.sub(r"^(?:impl|.*?\btrait)\b|<[^<>]*(?:<[^<>]*>[^<>]*)*>", "", block[-1]).strip().split(" for ")
            self.owner = words[-1].strip().split("::")[-1]
            self.trait = words[0].strip().split("::")[-1] if len(words) > 1 else ""
            self.has_arguments = bool(self.trait) and f"{self.trait}<" in block[-1]
        if self.owner and not self.trait:
            # A check names the methods of a type by the module of that type.
            self.module = self.home_of(self.owner, folder)

    def home_of(self, owner, folder):
        declared = re.compile(rf"^(?:pub(?:\([^)]*\))? )?(?:struct|enum|trait|union) {owner}\b", re.M)
        for path in sorted(glob.glob(f"{folder}/src/**/*.rt", recursive=True)):
            if declared.search(text_of(path)):
                home = os.path.relpath(path, f"{folder}/src")[: -len(".rt")].split("/")
                return [it for it in home if it not in ("lib", "main")]
        return self.module

    def __eq__(self, other):
        return str(self) == str(other)

    def __hash__(self):
        return hash(str(self))

    def __str__(self):
        return "::".join(filter(None, [*self.module, f"{self.owner}{self.trait}", self.name]))

    def head_in(self, text, folder, file):
        """Returns the match of the head of this function in the text of a file, or None."""
        heads = (it for it in HEADER.finditer(text) if it[2] == self.name)
        return next((it for it in heads if Place(self.crate, folder, file, text[: it.end()]) == self), None)

    def proofs(self):
        """The folder of the proof files of the function, below proofs/."""
        return "/".join(filter(None, [*self.module, f"{self.owner}{self.trait}", self.name]))

    def only(self):
        """The word for `rt check --only`: the function, or the impl block of a trait."""
        words = [self.crate, *self.module, f"{self.owner}{self.trait}"]
        return "::".join(filter(None, words if self.trait else [*words, self.name]))

    def is_named(self, path):
        """Whether a check names by this path the function, or a closure in it."""
        head = re.escape("::".join([self.crate, *self.module])) + "::(?:fn::)?"
        owner = rf"{self.owner}{self.trait and rf'{self.trait}[A-Za-z0-9]*'}::" if self.owner else ""
        return re.match(rf"{head}{owner}{self.name}(?:$|::)", path) is not None


class Edit:
    """A wrong body: its pairs of texts, and the functions that they stand in."""

    def __init__(self, crate, path):
        self.crate, self.path, self.name = crate, path, os.path.basename(path)[: -len(".edit")]
        self.pairs, self.places, self.also, self.head, file, old = [], [], [], {}, "", ""
        for line in filter(None, text_of(path).splitlines()):
            key, _, value = line.partition(": ")
            if key.startswith("# "):
                self.head[key[2:]] = value
            elif key == "file":
                file = value
            elif key == "old":
                old = value
            elif key.rstrip(":") == "new":
                self.pairs.append((file, old, value))
            elif key == "also":
                self.also.append(tuple(value.split(": ")))
        texts = {}
        for file, old, new in self.pairs:
            text = texts.setdefault(file, text_of(f"{self.folder(TOP)}/{file}"))
            if text.count(old) != 1:
                raise SystemExit(f"{os.path.relpath(path, TOP)}: the text stands {text.count(old)} times: {old}")
            self.places += [it for it in [self.place_of(file, text, old)] if it and it not in self.places]
            texts[file] = text.replace(old, new)
        self.is_alone = not self.places

    def __str__(self):
        return f"{self.crate}/{self.name}"

    def __eq__(self, other):
        return str(self) == str(other)

    def __hash__(self):
        return hash(str(self))

    def folder(self, top):
        return f"{top}/crates/{self.crate}"

    def holes(self, place):
        """Returns the goals of a function that the body leaves open too, and that need not be tried."""
        return [goal for folder, goal in self.also if folder == place.proofs()]

    def place_of(self, file, text, old):
        """The function that a text stands in, or None where it stands beside the functions."""
        above = text[: text.index(old)] + old
        heads = [*HEADER.finditer(above)]
        if not file.endswith(".rt") or not heads:
            return None
        closed = re.search(rf"^{heads[-1][1]}}}$", above[heads[-1].start() : text.index(old)], re.M)
        return None if closed else Place(self.crate, self.folder(TOP), file, above)

    def applied(self, texts, folder):
        """Returns the texts, by their paths in the crate, with this edit made; None where it meets another edit's change."""
        texts = dict(texts)
        for file, old, new in self.pairs:
            if texts.setdefault(file, text_of(f"{folder}/{file}")).count(old) != 1:
                return None
            texts[file] = texts[file].replace(old, new)
        return texts

    def changes_head(self):
        """Whether the edit changes the head of a function, which its callers see."""
        return any(HEADER.match(new) for _, _, new in self.pairs)

    def beside(self, texts, folder, number):
        """Returns this edit as one of a twin of its function, and the texts with the twin behind that function: what has the edited body
        under a name of its own, with proof files of its own. None where a twin would not be the same but for its name: for a method of a
        trait, a function that calls itself, one that a definition or a lemma names, and an edit of more than one function or file."""
        files, place = {file for file, _, _ in self.pairs}, self.places[0] if len(self.places) == 1 else None
        if not place or place.trait or len(files) > 1 or modules_of(place).search(beside_functions(folder)):
            return None
        file, edited = *files, self.applied({}, folder)
        head = place.head_in(edited[file], folder, file)
        text = texts.get(file) or text_of(f"{folder}/{file}")
        other = place.head_in(text, folder, file)
        begin, end = bounds_of(edited[file], head) if head else (0, 0)
        as_it_is = text_of(f"{folder}/{file}")
        is_within = as_it_is.startswith(edited[file][:begin]) and as_it_is.endswith(edited[file][end:])
        if not head or not other or not is_within or os.path.isdir(f"{folder}/proofs/{os.path.dirname(place.proofs())}/+{place.name}"):
            return None
        twin, it = copy.copy(place), copy.copy(self)
        twin.name, it.places = f"{place.name}_twin{number}", [twin]
        it.also = [(twin.proofs() if at == place.proofs() else at, goal) for at, goal in self.also]
        item = f"{edited[file][begin : head.start(2)]}{twin.name}{edited[file][head.end(2) : end]}"
        behind = bounds_of(text, other)[1]
        return it, {**texts, file: f"{text[:behind]}\n\n{item}{text[behind:]}", **twin_proofs(folder, place, twin)}


def modules_of(place):
    """What names the modules that the prover makes of a function."""
    return re.compile(rf"\b(proofs|contracts)\.{re.escape(place.proofs().replace('/', '.'))}(?![\w-])")


@functools.lru_cache(maxsize=None)
def beside_functions(folder):
    """The text of the definitions and lemmas of a crate: of all its files of antt but the proof files of functions."""
    paths = [path for part in ("specs", "proofs") for path in glob.glob(f"{folder}/{part}/**/*.antt", recursive=True)]
    return "\n".join(text_of(it) for it in paths if os.path.basename(it) not in ("Invariants.antt", "Answers.antt", "Proof.antt"))


def twin_proofs(folder, place, twin):
    """Returns the proof files of a function, by their paths in the crate, as those of its twin."""
    found, home = {}, f"{folder}/proofs/{place.proofs()}"
    for path in glob.glob(f"{home}/**/*.antt", recursive=True):
        file = f"proofs/{twin.proofs()}/{os.path.relpath(path, home)}"
        found[file] = modules_of(place).sub(rf"\1.{twin.proofs().replace('/', '.')}", text_of(path))
    return found


def edits():
    """Returns the wrong bodies of all crates, by crate and name."""
    paths = sorted(glob.glob(f"{TOP}/crates/*/wrong_bodies/*.edit"))
    return {str(it): it for it in (Edit(os.path.relpath(path, TOP).split("/")[1], path) for path in paths)}


def rows(bodies=None):
    """Returns for each wrong body the example, or nothing, and what rejects it, as its head says."""
    return [(name, it.head.get("example", ""), it.head.get("rejected by", "")) for name, it in (bodies or edits()).items()]
