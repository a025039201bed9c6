"""What a crate sees of the crates below it: of the libraries of their contracts alone, each declaration that it names, and each that one of
these names, and so on. A definition or a lemma is named where it is imported, or in its own file; a name of Rust anywhere. Comments and the
lines that say how something is inlined do not count, and neither does a function that is not public, unless it is a constant one or a
member of a trait: no crate above can call it. A type that is not public counts only where what is seen names it. Of a struct with a Model
its private fields do not count, nor how its value is made of them: a crate above sees the value alone.

So what is added to a crate below changes nothing for a crate that does not name it, and neither does a body, a proof or the contract of a
private function there. Of a lemma its statement alone counts: what cites it goes by that, unless some proof opens it."""
import functools
import re

from bodiless import all_texts, contracts, ungrouped
from libraries import crates
from repository import TOP

WORD = re.compile(r"[^\W\d][\w'-]*")
# What counts for nothing: comments, in Rust and in antt, and attributes about inlining.
IDLE = re.compile(r"^ *(?://|-- |--$|#\[(?:inline|cold)\b).*\n?", re.M)
# A block of an impl or a trait: whether it is one of a trait, and the type.
BLOCK = re.compile(r"(?:pub(?:\([^)]*\))? )?(impl|trait)\b(.*)")
ITEM = re.compile(r"^(?: *)(?:pub(?:\([^)]*\))? )?(?:final )?(?:const )?(?:unsafe )?(?:extern \"C\" )?(?:fn|struct|enum|union|type|const|static|ghost) (\w+)", re.M)
# A function that only its own crate can call; a constant one may stand in a type.
PRIVATE = re.compile(r"^ *(?:pub\([^)]*\) )?(?:unsafe )?fn ", re.M)
TRAIT = re.compile(r"^pub trait (\w+)", re.M)
OWN_TRAIT = re.compile(r"^(?:pub\([^)]*\) )?trait (\w+)", re.M)
OWN_TYPE = re.compile(r"^(?:pub\([^)]*\) )?(?:struct|enum|union|type) ", re.M)
# A struct with a Model, and what of the Model speaks of its private fields.
MODELLED = re.compile(r"^impl\b[^{\n]*\bModel for (\w+)", re.M)
FIELD = re.compile(r"^    (?:pub\([^)]*\) )?(?!pub\b)\w+: .*\n?", re.M)
OF_FIELDS = re.compile(r"^    ghost (?:view|invariant|use)\b.*(?:\n {8}.*)*\n?", re.M)
DECLARED = re.compile(r"^ *(?:abbrev |unfoldable |opaque |pub |record |data |ruleset )*([^\W\d][\w'-]*)")
VARIANT = re.compile(r"^  (?:pub )?((?:[^\W\d][\w'-]* )+)(?::|$)", re.M)
# A lemma: its name and statement, and what follows of its proof.
LEMMA = re.compile(r"((?: *)(?:pub )?([^\W\d][\w'-]*) :(?:.*)(?:\n(?! *\2 | *unfolding ).*)*)\n *(?:\2 |unfolding )")
# What is opened, in antt and by an attribute.
OPENED = re.compile(r"\bunfolding\b[ (]([^)\n]*)")
SKIPPED = re.compile(r"(?:pub(?:\([^)]*\))? )?(?:ghost )?(?:use|mod)\b|#!\[|unsafe extern")


def words(text):
    """Returns the names of a text, those with a hyphen in parts too."""
    found = set(WORD.findall(text))
    return found | {part for it in found for part in it.split("-")}


def crate_of(file):
    return file.partition("/")[0]


class Piece:
    """A declaration of a file: it is seen where one of its names is said, and all that it needs beside; without names it always is. A member
    of a type is said where it stands behind a dot or a path."""

    def __init__(self, file, text, names=(), needs=()):
        self.file, self.text, self.names, self.needs = file, text, set(names), set(needs)
        # A type that only its own crate can name.
        self.is_own = OWN_TYPE.search(text) is not None

    def is_seen(self, said, called, by_crates):
        """Whether these words name it: those of all that is seen, those behind a dot or a path, and those of each crate's own pieces."""
        words_here = by_crates.get(crate_of(self.file), set()) if self.is_own else called if self.needs else said
        return (not self.names or bool(self.names & words_here)) and self.needs <= said


def without_fields(part):
    """Returns the declaration of a struct without its private fields."""
    head, brace, fields = part.partition("{\n")
    return head + brace + FIELD.sub("", fields)


def of_rust(file, text, own=(), modelled=(), traits=()):
    """Returns the pieces of a file of Rattle, in rt fmt's layout: a member of an impl block needs its type, and that of a trait's impl no name.
    The given traits are their crate's own, which no other crate can name; neither they nor their impls are pieces. The structs that are
    given have a Model. An impl of one of the last traits, which are the repository's, is seen only where its trait is named too."""
    found, owner, is_trait, is_hidden, is_model = [], None, False, False, False
    for part in filter(None, (it.strip("\n") for it in IDLE.sub("", text).split("\n\n"))):
        if not part.startswith((" ", "}")):
            owner, is_model = None, MODELLED.match(part) is not None
            if block := BLOCK.match(part):
                head = re.sub(r"<[^<>]*(?:<[^<>]*>[^<>]*)*>", "", block[2])
                owner = WORD.findall(head.split(" for ")[-1].split("where")[0])[:1]
                is_trait = block[1] == "trait" or " for " in head
                of_trait = {*WORD.findall(head.split(" for ")[0])[:1]} if is_trait else set()
                is_hidden = bool({*own} & of_trait)
                if is_hidden:
                    continue
                if " for " in head and of_trait & {*traits}:
                    owner = [*owner, *of_trait]
                    found.append(Piece(file, part.removesuffix("\n}"), (), owner))
                    continue
                if not is_trait:
                    # The first member stands right below the head.
                    part, _, first = part.partition("{\n")
                    if first and not PRIVATE.search(first):
                        found.append(Piece(file, first.removesuffix("\n}"), ITEM.findall(first)[:1], owner))
                part = OF_FIELDS.sub("", part) if is_model else part
                found.append(Piece(file, part.removesuffix("\n}"), owner))
                continue
            if not SKIPPED.match(part) and not PRIVATE.search(part):
                name = ITEM.findall(part)[:1]
                found.append(Piece(file, without_fields(part) if {*name} & {*modelled} else part, name))
        elif is_model and OF_FIELDS.match(part):
            continue
        elif not is_hidden and part.strip() != "}" and (is_trait or not PRIVATE.search(part)):
            # Which member is the last one of its block makes no difference.
            found.append(Piece(file, part.removesuffix("\n}"), () if is_trait else ITEM.findall(part)[:1], owner or ()))
    return found


def stated(part, opened):
    """Returns a lemma without its proof, which is shut to all that cite it; a definition that is open, or is opened somewhere, as it stands."""
    head = LEMMA.match(part)
    return part[: head.end(1)] if head and head[2] not in opened else part


def of_antt(file, text, opened):
    """Returns the pieces of a file of definitions or lemmas. A data type is seen by its cases too."""
    found = []
    for part in filter(None, (it.strip("\n") for it in IDLE.sub("", text).split("\n\n"))):
        part = "\n".join(it for it in part.split("\n") if not SKIPPED.match(it))
        part = stated(part, opened) if "/proofs/" in file else part
        if part.strip():
            names = DECLARED.findall(part)[:1]
            cases = [name for it in VARIANT.findall(part) for name in it.split()] if re.match(r"(?:pub )?data ", part) else []
            found.append(Piece(file, part, [] if part.startswith("infix") else [*names, *cases]))
    return found


IMPORT = re.compile(r"^ *(?:pub )?(?:unfoldable )?(?:pub )?(?:ghost )?use (Rattle\.[^;\n]*)", re.M)
PASSED_ON = re.compile(r"^ *(?:unfoldable )?pub use (Rattle\.[^\n]*)", re.M)
CITED = re.compile(r"\b\w+(?:::\w+)*::proofs(?:::[\w'-]+)+|\b\w+(?:::\w+)*::specs(?:::[\w'-]+)+")
COMMENT = re.compile(r"(?://|(?<!\S)--(?!\S)).*")


def paths(lines):
    """Returns what some lines import, each as its path and the name that it has there."""
    items = [it.strip() for line in lines for it in ungrouped(line).split(",")]
    return [(path.strip().removeprefix("Rattle."), (alias or path.rpartition(".")[2]).strip()) for it in items for path, _, alias in [it.partition(" as ")]]


class Module:
    """A file of a crate below, or of the crate itself: its text, what it declares and imports, and what it passes on."""

    def __init__(self, file, text, declared=()):
        self.declared, self.imported = {}, {}
        for it in declared:
            for name in it.names:
                self.declared.setdefault(name, []).append(it)
        cited = [(it.replace("::", "."), it.rpartition("::")[2]) for it in CITED.findall(text)] if file.endswith(".rt") else []
        for path, name in paths(IMPORT.findall(text)) + cited:
            self.imported.setdefault(name, set()).add(path)
        self.passed_on = [(path, name) for path, name in paths(PASSED_ON.findall(text))]


class Below:
    """The definitions and lemmas of the crates below a crate, by the paths of their modules."""

    def __init__(self, crate):
        names = [below.name for below in crates()[crate].below()]
        self.pieces = [it for name in names for it in pieces(name)]
        declared = {}
        for it in self.pieces:
            declared.setdefault(it.file, []).append(it)
        self.modules = {file: Module(file, text, declared.get(file, ())) for name in names for file, text in texts(name).items()}
        self.at = {file.removesuffix(".antt").replace("/", "."): it for file, it in self.modules.items() if file.endswith(".antt")}

    def found(self, path):
        """Returns the pieces that a path names, through the modules that pass it on."""
        module, _, name = path.rpartition(".")
        it, found = self.at.get(module), []
        if it:
            found = list(it.declared.get(name, ()))
            for passed, alias in it.passed_on:
                found += self.found(passed) if alias == name and passed != path else []
        return found

    def named(self, module, text):
        """Returns the pieces that a text of a module names, by what the module imports and declares."""
        for word in set(WORD.findall(text)):
            yield from module.declared.get(word, ())
            for path in module.imported.get(word, ()):
                yield from self.found(path)
                if path in self.at:
                    # A module with a name of its own.
                    for name in set(re.findall(rf"(?<![\w.]){word}\.([^\W\d][\w'-]*)", text)):
                        yield from self.found(f"{path}.{name}")


@functools.lru_cache(maxsize=None)
def texts(crate):
    """Returns the texts of the library of a crate's contracts alone, by their paths with the crate's name."""
    folder = f"{TOP}/crates/{crate}"
    left = {**all_texts(folder), **contracts(crate, folder)}
    return {f"{crate}/{file}": left[file] for file in sorted(left) if left[file] is not None}


@functools.lru_cache(maxsize=None)
def pieces(crate):
    """Returns the pieces of the library of a crate's contracts alone, in the order of its files."""
    own, modelled = ({name for text in texts(crate).values() for name in kind.findall(text)} for kind in (OWN_TRAIT, MODELLED))
    traits = {name for it in [crates()[crate], *crates()[crate].below()] for text in texts(it.name).values() for name in TRAIT.findall(text)}
    found = []
    for file, text in texts(crate).items():
        found += of_rust(file, text, own, modelled, traits) if file.endswith(".rt") else of_antt(file, text, opened())
    return found


@functools.lru_cache(maxsize=None)
def opened():
    """Returns the names of all definitions that some proof of the repository opens."""
    every = [text for it in crates() for text in all_texts(f"{TOP}/crates/{it}").values()]
    return {name for text in every for said in OPENED.findall(text) for name in WORD.findall(said)}


def called(file, text):
    """Returns the names behind a dot or a path in a text of Rattle."""
    return set(re.findall(r"(?:\.|::)([^\W\d]\w*)", text)) if file.endswith(".rt") else set()


def seen(crate):
    """Returns what a crate sees of those below it, as (file, text)."""
    below, own = Below(crate), {file: COMMENT.sub("", text) for file, text in all_texts(f"{TOP}/crates/{crate}").items()}
    rust = [it for it in below.pieces if it.file.endswith(".rt")]
    # The names of the crate's own modules are none of what is below.
    modules = re.compile(rf"\b{crate}\.(?:specs|proofs)\.(?:[\w'-]+\.)*|^(?:pub )?mod \w+", re.M)
    said = {name for text in own.values() for name in words(modules.sub("", text))}
    calls = {name for file, text in own.items() for name in called(file, text)}
    # What is to be read: texts, each with the module that it is of.
    taken, left, by_crates = set(), [(Module(file, text), text) for file, text in own.items()], {}
    now = {it for it in below.pieces if not it.names and not it.needs}
    while now or left:
        taken |= now
        for it in now:
            said |= words(it.text)
            by_crates.setdefault(crate_of(it.file), set()).update(words(it.text))
            calls |= called(it.file, it.text)
            left.append((below.modules[it.file], it.text))
        now = {it for module, text in left for it in below.named(module, text)} | {it for it in rust if it.is_seen(said, calls, by_crates)}
        now, left = now - taken, []
    return [(it.file, it.text) for it in below.pieces if it in taken]
