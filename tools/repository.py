"""What the tools read of the repository: its files, its crates, and the items, contracts and definitions of these."""
import functools
import glob
import os
import re
import shutil
import subprocess
import sys

TOP = os.path.realpath(os.path.join(os.path.dirname(os.path.realpath(__file__)), ".."))
# The head of a function, in rt fmt's layout: its indent and its name.
HEADER = re.compile(r"^( *)(?:#\[[^\n]*\] )?(?:pub(?:\([^)]*\))? )?(?:final )?(?:const )?(?:unsafe )?(?:extern \"C\" )?fn (\w+)", re.M)


def text_of(path):
    """Returns the text of a file, by its path, which begins at the top of the repository or is a whole one."""
    with open(os.path.join(TOP, path), encoding="utf-8") as file:
        return file.read()


def write(path, text):
    with open(os.path.join(TOP, path), "w", encoding="utf-8") as file:
        file.write(text)


def files(pattern):
    """Returns the paths from the top of the repository that a pattern names, in order."""
    return sorted(os.path.relpath(path, TOP) for path in glob.glob(f"{TOP}/{pattern}", recursive=True))


# ---- what stands beside the repository

@functools.lru_cache(maxsize=None)
def npm_folder():
    """Returns the folder of the npm that is installed, as npm says, or None where npm is missing."""
    if not shutil.which("npm"):
        return None
    done = subprocess.run(["npm", "root", "-g"], stdin=subprocess.DEVNULL, stdout=subprocess.PIPE,
                          text=True, check=True)
    return f"{done.stdout.strip()}/npm"


def node_semver():
    """Returns the folder of the node-semver that npm has, or None where npm is missing."""
    npm = npm_folder()
    return npm and f"{npm}/node_modules/semver"


def node_semver_or_exit(given):
    """Returns a folder that is given, else that of npm's node-semver. Without either it ends the program."""
    return given or node_semver() or sys.exit("npm is missing: name the folder of a node-semver by --semver")


# The line of a page below which a tool makes all.
MADE = "<!-- All below is made by {}. -->\n"


def by_hand(path):
    """Returns what stands in a page by hand: all above the line below which a tool makes it."""
    return re.split(r"^<!-- All below is made by \S+ -->$", text_of(path), flags=re.M)[0]


@functools.lru_cache(maxsize=None)
def crate_lines():
    """Returns the lines of crates.txt: for each crate, low to high, whether it is a static library, and what it stands on."""
    found = {}
    for line in text_of("crates.txt").splitlines():
        if re.match(r"\w", line):
            head, _, below = line.partition(":")
            found[head.split()[0]] = ("staticlib" in head.split(), below.split())
    return found


def crates():
    """Returns the names of the crates, as crates.txt lists them."""
    return list(crate_lines())


def sources(crate):
    return files(f"crates/{crate}/src/**/*.rt")


def specs(crate):
    return files(f"crates/{crate}/specs/**/*.antt")


def is_library(crate):
    return os.path.exists(f"{TOP}/crates/{crate}/src/lib.rt")


def is_of_tests(crate):
    """Whether a crate is there to test others: `sweeps` is a program that asks all calls."""
    return crate == "sweeps" or any("#[test]" in text_of(it) for it in sources(crate))


# ---- the items of a source

class Clause:
    """A clause of a contract: the kind, the label or nothing, what it says, and the comment above it."""

    def __init__(self, kind, label, text, comment):
        self.kind, self.label, self.text, self.comment = kind, label, text, comment


class Item:
    """An item of a source: a function, a type, a constant, a trait, or an impl block, which holds its functions."""

    def __init__(self, crate, path, module, kind, name):
        self.crate, self.path, self.module, self.kind, self.name = crate, path, module, kind, name
        self.doc, self.head, self.clauses, self.inner, self.attributes = [], "", [], [], []
        self.is_public, self.is_method, self.ghosts, self.body, self.owner, self.trait = False, False, [], "", "", ""

    def sentence(self):
        """The first sentence of its comment, on one line."""
        first = []
        for line in self.doc:
            if not line:
                break
            first.append(line)
        text = without_links(" ".join(first))
        end = re.search(r"(?<!\bi\.e)(?<!\be\.g)[.!?](?= [A-Z`(]|$)|:$", text)
        return text[: end.end()] if end else text

    def examples(self):
        """The examples in Rust in its comment."""
        return re.findall(r"^```rust\n(.*?)^```$", "\n".join(self.doc) + "\n", re.M | re.S)


def without_links(text):
    """Returns the text of a comment without the addresses of its links."""
    return re.sub(r"\[(`[^`]*`)\](?:\([^)]*\))?", r"\1", text)


def closed(text, at):
    """Returns the place behind the brace that closes the one at a place; texts and letters between quotes do not count."""
    depth = 0
    for it in re.finditer(r'"(?:[^"\\]|\\.)*"|b?\'(?:[^\'\\]|\\.)\'|//[^\n]*|[{}]', text[at:]):
        depth += {"{": 1, "}": -1}.get(it[0], 0)
        if depth == 0 and it[0] == "}":
            return at + it.end()
    return len(text)


CLAUSE = re.compile(r"((?:\s|//[^\n]*)*)\b(ensures\*?|requires\*?)(?: (\w+))? \{")


def clauses_at(text, at):
    """Returns the clauses that begin at a place behind the head of a function, and the place behind them."""
    found = []
    while it := CLAUSE.match(text, at):
        comment = " ".join(re.findall(r"// ?(.*)", it[1]))
        at = closed(text, it.end() - 1)
        found.append(Clause(it[2], it[3] or "", text[it.end() : at - 1].strip(), comment))
    return found, at


def doc_above(lines, at):
    """Returns the lines of the comment above an item, without its marks, and its attributes."""
    doc, attributes, last = [], [], at
    indent = len(lines[at]) - len(lines[at].lstrip())
    while last and lines[last - 1].strip() and not (indent and len(lines[last - 1]) - len(lines[last - 1].lstrip()) < indent):
        last -= 1
    for line in lines[last:at]:
        if (told := re.match(r" */// ?(.*)", line)) and not attributes:
            doc.append(told[1])
        elif re.match(r" *(?:#\[|\S)", line) and not re.match(r" *//", line):
            attributes.append(line.strip())
    return doc, attributes


ITEM = re.compile(r"^(pub(?:\([^)]*\))? )?(struct|enum|union|trait|type|const|static|mod) (\w+)")
IMPL = re.compile(r"^(?:unsafe )?impl\b")


def function_at(text, start, item):
    """Reads a function from the place of its head: its head, its clauses and how its body begins."""
    at = text.index("\n", start)
    # A head over several lines goes on to the line that begins with its parenthesis.
    if not re.search(r"[;{}]$|\)$|\) -> .*$", text[start:at]):
        at = text.index("\n", re.compile(rf"^{' ' * (4 if item.is_method else 0)}\S", re.M).search(text, at).start())
    item.head = re.sub(r" ?(?:\{\}?|;)$", "", text[start:at])
    if len(item.head) < at - start:
        item.body = re.search(r"(?:\{\}?|;)$", text[start:at])[0]
        return
    item.clauses, at = clauses_at(text, at)
    item.body = re.compile(r"\s*(\{\}?|;)").match(text, at)[1]


def items(crate, path):
    """Returns the items at the top of a source. Those in an impl block or a trait are its inner ones."""
    text = text_of(path)
    module = tuple(it for it in path.split("/src/")[1][: -len(".rt")].split("/") if it not in ("lib", "main"))
    lines, places, at = text.split("\n"), [], 0
    for line in lines:
        places.append(at)
        at += len(line) + 1
    found, block = [], None
    for number, line in enumerate(lines):
        head = HEADER.match(line)
        if IMPL.match(line) or (ITEM.match(line) and not line.startswith(" ")):
            it = ITEM.match(line)
            block = Item(crate, path, module, it[2] if it else "impl", it[3] if it else "")
            block.is_public = bool(it and it[1] == "pub ")
            if not it:
                whole = line
                while not whole.rstrip().endswith(("{", "{}")):
                    number += 1
                    whole += " " + lines[number].strip()
                block.head = re.sub(r"\s*\{\}?$", "", whole)
                words = re.sub(r"^(?:unsafe )?impl(?:<[^<>]*(?:<[^<>]*>[^<>]*)*>)? ", "", block.head).split(" where ")[0]
                block.trait, _, block.owner = words.rpartition(" for ")
            else:
                end = text.find("\n", places[number])
                first = text[places[number] : end]
                if first.endswith("{"):
                    block.head = text[places[number] : closed(text, places[number] + first.index("{"))]
                elif first.endswith((";", "{}")):
                    block.head = first
                else:
                    block.head = text[places[number] : text.index(";", places[number]) + 1]
            block.doc, block.attributes = doc_above(lines, number)
            found.append(block)
        elif head:
            item = Item(crate, path, module, "fn", head[2])
            item.is_method = bool(head[1])
            item.is_public = re.match(r" *(?:#\[[^\n]*\] )?pub (?!\()", line) is not None
            item.doc, item.attributes = doc_above(lines, number)
            function_at(text, places[number], item)
            if head[1] and block is not None:
                item.owner, item.trait = (block.owner, block.trait) if block.kind == "impl" else (block.name, "")
                block.inner.append(item)
            elif not head[1]:
                found.append(item)
        elif block is not None and (ghost := re.match(r"    ghost (\w+)\s*[:=]", line)):
            end = closed(text, text.index("{", places[number])) if "{" in text[places[number] :] else len(text)
            comment, _ = doc_above(lines, number)
            block.ghosts.append((ghost[1], text[places[number] : end].strip(), " ".join(comment)))
    return found


@functools.lru_cache(maxsize=None)
def all_items(crate):
    """Returns the items of all sources of a crate."""
    return [it for path in sources(crate) for it in items(crate, path)]


def functions_of(crate):
    """Returns all functions of a crate, those of blocks and traits too."""
    return [one for it in all_items(crate) for one in ([it] if it.kind == "fn" else it.inner)]


# ---- what a crate makes public

@functools.lru_cache(maxsize=None)
def module_heads(crate):
    """Returns for each module of a crate whether it is public, and the comment at its head."""
    found = {(): (True, head_of(f"crates/{crate}/src/{'lib' if is_library(crate) else 'main'}.rt"))}
    left = [()]
    while left:
        module = left.pop(0)
        path = f"crates/{crate}/src/{'/'.join(module) or ('lib' if is_library(crate) else 'main')}.rt"
        if not os.path.exists(os.path.join(TOP, path)):
            continue
        for mark, name in re.findall(r"^(pub(?:\([^)]*\))? )?mod (\w+);", text_of(path), re.M):
            inner = (*module, name)
            file = f"crates/{crate}/src/{'/'.join(inner)}.rt"
            is_there = os.path.exists(os.path.join(TOP, file))
            found[inner] = (found[module][0] and mark == "pub ", head_of(file) if is_there else "")
            left.append(inner)
    return found


def head_of(path):
    """Returns the comment at the head of a source."""
    return "\n".join(it.rstrip() for it in re.findall(r"^//! ?(.*)$", text_of(path), re.M))


def leaves_of_use(text):
    """Returns each path of an import in Rust, with the name that it gets: its groups in braces may nest."""
    text = re.sub(r"\s+", " ", text)
    while "{" in text:
        text = re.sub(r"([\w:]+)::\{ ?([^{}]*?),? ?\}", lambda it: ", ".join(f"{it[1]}::{one.strip()}" for one in it[2].split(",")), text)
    return [(it.split(" as ")[0].strip(), (it.split(" as ")[-1].strip() if " as " in it else it.strip().split("::")[-1])) for it in text.split(",")]


@functools.lru_cache(maxsize=None)
def exports(crate):
    """Returns what the modules of a crate pass on: the module, the name there, and the whole path of what is passed on."""
    found = []
    for module in module_heads(crate):
        path = f"crates/{crate}/src/{'/'.join(module) or ('lib' if is_library(crate) else 'main')}.rt"
        if os.path.exists(os.path.join(TOP, path)):
            for use in re.findall(r"^pub use ([^;]*);", text_of(path), re.M):
                for target, name in leaves_of_use(use):
                    found.append((module, name, re.sub(r"^crate::", f"{crate}::", target)))
    return found


# What the comment of an item, or the head of a module, says where it is public for other crates here, and promises nothing to callers.
OWN = "for the crates of this repository"


def is_for_us(crate, item):
    """Whether the comment of an item, or the head of its crate or of a module that it is in, says that it is for the crates of this
    repository."""
    heads = [module_heads(crate)[item.module[:end]][1] for end in range(len(item.module) + 1) if item.module[:end] in module_heads(crate)]
    return any(OWN in re.sub(r"\s+", " ", text) for text in [" ".join(item.doc), *heads])


def offered_paths(crate, item):
    """Returns the public paths by which callers know an item at the top of a module."""
    return [] if is_for_us(crate, item) else public_paths(crate, item)


def public_paths(crate, item):
    """Returns the public paths of an item at the top of a module, the shortest first."""
    own = "::".join([crate, *item.module, item.name])
    found = [own] if item.is_public and module_heads(crate).get(item.module, (False, ""))[0] else []
    found += ["::".join([crate, *module, name]) for module, name, target in exports(crate)
              if target == own and module_heads(crate)[module][0]]
    return sorted(dict.fromkeys(found), key=lambda it: (it.count("::"), it))


# ---- definitions

def defined(path):
    """Returns the words that a file of specs/ defines for others."""
    return set(re.findall(r"^(?:abbrev |unfoldable )*pub (?:data |record )?([^\s:(]+)", text_of(path), re.M))


def constructors(path):
    """Returns the words of the data types that a file of specs/ defines."""
    return {name for names in re.findall(r"^  ([\w ]+) :", text_of(path), re.M) for name in names.split()}


def is_statement(path):
    return re.search(r"^-- Statement", text_of(path), re.M) is not None


def bare_characters(path):
    """Returns how many characters the lines have that are no comments and no imports."""
    return sum(len(line) for line in text_of(path).splitlines() if not re.match(r"\s*(--|(?:pub )?(?:use|mod) |$)", line))


def statement_characters(crate):
    """Returns how many characters the definitions of a crate have that a reader of its contracts has to believe."""
    return sum(bare_characters(path) for path in specs(crate) if is_statement(path))


# The words of a statement file's import from elsewhere; the Prelude's, types and constants that code declares are not counted.
FOREIGN_IMPORT = re.compile(r"^use ((?:Rattle\.)?(?!Rattle\b)[\w.]+)\.\{([^}]*)\}", re.M)


@functools.lru_cache(maxsize=None)
def toolchain_words():
    """Returns the words of the toolchain beside its Prelude that the statement uses, by the modules that define them."""
    found = {}
    for path in (path for crate in crates() for path in specs(crate) if is_statement(path)):
        for module, names in FOREIGN_IMPORT.findall(text_of(path)):
            crate = module.removeprefix("Rattle.").split(".")[0]
            if crate not in crates() and ".declared." not in module and module != "Rattle.std.specs.Prelude":
                found.setdefault(module, set()).update(name.split(" as ")[0].strip() for name in names.split(","))
    return found


@functools.lru_cache(maxsize=None)
def spec_file(module):
    """Returns the file of a module of specs/, which may be one that the Lib.antt of its crate passes on."""
    crate, _, *path = module.split(".")[1:]
    file, library = f"crates/{crate}/specs/{'/'.join(path)}.antt", f"crates/{crate}/specs/Lib.antt"
    if os.path.exists(f"{TOP}/{file}") or not os.path.exists(f"{TOP}/{library}"):
        return file
    for passed, name in re.findall(r"^pub use (\S+)(?: as (\w+))?$", text_of(library), re.M):
        if path == [name or passed.split(".")[-1]]:
            return spec_file(passed)
    return file


def own_file(module):
    """Returns the file of a module of specs/ of the repository, and None for a module of the toolchain or a declaration."""
    name = re.match(r"Rattle\.(\w+)\.specs\.(?!(?:declared|contracts)\b)", module)
    return spec_file(module) if name and name[1] in crates() else None


def leaves(item):
    """Returns the whole path of each thing that an import of definitions brings. Its groups in braces may nest."""
    while "{" in item:
        item = re.sub(r"([^\s{},]+)\.\{([^{}]*)\}", lambda it: ", ".join(f"{it[1]}.{one.strip()}" for one in it[2].split(",")), item)
    return [one.strip() for one in item.split(",")]


@functools.lru_cache(maxsize=None)
def passed_on(module):
    """Returns the module of each word that a file passes on, where it defines nothing itself."""
    file = own_file(module)
    if not file or bare_characters(file):
        return {}
    words = (word for item in re.findall(r"^pub use (Rattle\..*\})$", text_of(file), re.M) for word in leaves(item))
    return {word.rpartition(".")[2]: word.rpartition(".")[0] for word in words}


@functools.lru_cache(maxsize=None)
def imported(path):
    """Returns the module of each word of specs/ that a source imports for its clauses: the one that defines it."""
    text, words = text_of(path), {}
    for item in re.findall(r"ghost use (Rattle\.[^;]*\});", text):
        words.update((it.split(" as ")[-1].rpartition(".")[2], it.split(" as ")[0].rpartition(".")[0]) for it in leaves(item))
    words.update((name, module) for module, name in re.findall(r"ghost use (Rattle\.[\w.]+) as (\w+);", text))
    return {word: passed_on(module).get(word, module) for word, module in words.items()}
