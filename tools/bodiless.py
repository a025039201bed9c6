"""A crate in which functions have no bodies: each calls a function that is declared and stands nowhere, from whose contract all follows. A
function is checked against the contracts of those that it calls, and not against their bodies. So a check of some functions in such a
crate leaves the same goals of theirs open as one in the crate as it stands, and nothing else is to be proved for it. A library for the
crates above is made of contracts alone in the same way."""
import glob
import os
import re

from edits import Place
from repository import HEADER, TOP, text_of

BODY = "let _ = crate::never(0);\n{}    unreachable!()"
# What calls a function, or imports some.
NAMED = re.compile(r"(?<!fn )\b\w+\(|^(?:pub(?:\([^)]*\))? )?use [^;]*;", re.M)
GROUP = re.compile(r"((?:\w+(?:\.|::))+)\{([^{}]*)\}")
TACTIC = re.compile(r"^ *#\[tactic\((?:[^\n]*|\n.*?\n *)\)\]\n", re.M | re.S)
CYCLE = re.compile(r" *#\[cycle\((\w+)\)\]")
NEVER = 'unsafe extern "C" {\n    pub(crate) safe fn never(x: u8) -> u8\n        ensures { ⊥ };\n}\n'


def body_at(lines, head, indent, heads):
    """Returns the lines of the braces around the body of a function in rt fmt's layout, the same for an empty one, or None where it has none."""
    for at in range(head, len(lines)):
        line = lines[at]
        if at > head and at in heads:
            return None
        if line.startswith(indent) and not line[len(indent) :].startswith(" "):
            if line == f"{indent}{{}}":
                return at, at
            if line.endswith("{"):
                return at, lines.index(f"{indent}}}", at)
            if line.endswith((";", "}")):
                return None
    return None


def without_bodies(text, crate, folder, file, kept, named=None):
    """Returns a file's text without the bodies of its functions, and these. Those of the places in kept stay, and so do constant functions,
    which types may need, and methods of traits with arguments, whose proofs stand in folders of other names. If names are given that are still
    called or imported, private functions of a module with other names go, and the attributes that say how the others are proved."""
    lines, places, end, made = text.split("\n"), [], -1, []
    heads = {text.count("\n", 0, it.start(2)): it for it in HEADER.finditer(text)}
    for at, line in enumerate(lines):
        if at > end:
            made.append(line)
            body = body_at(lines, at, heads[at][1], heads) if at in heads and "const fn" not in line else None
            if body and body[0] == body[1] and named is None:
                # An empty one costs nothing where only other functions are checked.
                body = None
            place = Place(crate, folder, file, text[: heads[at].end()]) if body else None
            if place and place not in kept and not place.has_arguments:
                places.append(place)
                end, above = body[1], len(made) - 1
                while above and made[above - 1]:
                    above -= 1
                made[above:] = [it for it in made[above:] if not CYCLE.fullmatch(it)]
                if named is not None:
                    made[above:] = TACTIC.sub("", "\n".join(made[above:])).split("\n")
                if named is None or heads[at][1] or "pub" in heads[at][0] or place.name in named:
                    indent, is_empty = heads[at][1], body[0] == body[1]
                    made += [*lines[at + 1 : body[0] + (not is_empty)], *[f"{indent}{{"] * is_empty, f"{indent}    {BODY.format(indent)}", f"{indent}}}"]
                else:
                    # Its head goes, with its attributes and comment.
                    del made[above:]
    return "\n".join(made), places


def cycles(text, crate, folder, file):
    """Returns by their names the cycles of a file, functions that call each other and are proved together, each as the places of these."""
    found = {}
    for it in HEADER.finditer(text):
        if name := CYCLE.search(text, text.rfind("\n\n", 0, it.start()) + 1, it.start()):
            found.setdefault(name[1], []).append(Place(crate, folder, file, text[: it.end()]))
    return found


def root_of(folder):
    """The root file of a crate, by its path in it."""
    return next(it for it in ("src/main.rt", "src/lib.rt") if os.path.exists(f"{folder}/{it}"))


def gone(folder, pattern):
    """Returns the proof files that a pattern names, each with None for its text."""
    return {os.path.relpath(it, folder): None for it in glob.glob(f"{folder}/{pattern}/**/*.antt", recursive=True)}


def bodiless(crate, folder, texts, kept):
    """Returns the texts of the files of a crate without the bodies of its functions, by their paths in it, but for those of the places in
    kept and of the functions of their cycles; None for a file that goes. The given texts stand for those of their files."""
    texts = dict(texts)
    for path in sorted(glob.glob(f"{folder}/src/**/*.rt", recursive=True)):
        file = os.path.relpath(path, folder)
        text, others = texts.get(file) or text_of(path), []
        for name, members in cycles(text, crate, folder, file).items():
            if any(it in kept for it in members):
                others += members
            else:
                texts.update(gone(folder, f"proofs/**/+{name}"))
        texts[file], places = without_bodies(text, crate, folder, file, [*kept, *others])
        for it in places:
            texts.update(gone(folder, f"proofs/{it.proofs()}"))
    texts[root_of(folder)] += NEVER
    return texts


def lemmas(folder, module=()):
    """Returns the files of lemmas by their modules, as proofs/Lib.antt, where there is one, and the files that it names declare them."""
    found, file = {}, f"{folder}/proofs/{'/'.join(module) or 'Lib'}.antt"
    for name in re.findall(r"^(?:pub )?mod (\w+)", text_of(file), re.M) if os.path.exists(file) else []:
        found[*module, name] = f"proofs/{'/'.join((*module, name))}.antt"
        found.update(lemmas(folder, (*module, name)))
    return found


def all_texts(folder):
    """Returns the texts of all files of a crate that its proof reads, by their paths in it."""
    paths = [path for part in ("src", "specs", "proofs") for path in glob.glob(f"{folder}/{part}/**/*.*t", recursive=True)]
    return {os.path.relpath(path, folder): text_of(path) for path in paths}


def ungrouped(text):
    """Returns a text with each name of a group in an import written out: `a.b, a.c` for `a.{b, c}`."""
    while (spelled := GROUP.sub(lambda it: ", ".join(it[1] + name.strip() for name in it[2].split(",")), text)) != text:
        text = spelled
    return text


def without_lemmas(crate, folder, texts):
    """Returns the given texts of a crate's files, also with those of its lemmas: None for a file that nothing cites, in the crate as these texts
    make it or in another one, and else the text without its lines for such files."""
    files, own = lemmas(folder), {it: text for it, text in {**all_texts(folder), **texts}.items() if text is not None}
    cites = re.compile(rf"\b(?:Rattle\.{crate}\.proofs|(?:crate|{crate})::proofs)((?:(?:\.|::)\w+)+)")
    left = [text for it, text in own.items() if it not in files.values() and it != "proofs/Lib.antt"]
    others = [it for it in glob.glob(f"{TOP}/crates/*") if os.path.basename(it) != crate]
    left += [text for it in others for text in all_texts(it).values() if crate in text]
    cited = set()
    while left:
        for words in cites.findall(ungrouped(left.pop())):
            names = tuple(re.findall(r"\w+", words))
            modules = {names[:it] for it in range(1, len(names) + 1)} & {*files} - cited
            cited |= modules
            left += [own[files[it]] for it in modules]
    texts = {**texts, **{files[it]: None for it in files if it not in cited}}
    for module in [(), *cited]:
        file = files[module] if module else "proofs/Lib.antt"
        if file in own:
            texts[file] = re.sub(r"^(?:pub )?mod (\w+)\n", lambda line: line[0] if (*module, line[1]) in cited else "", own[file], flags=re.M)
    return texts


def contracts(crate, folder):
    """Returns the texts of the files of a library of which the contracts alone are left; None for a file that goes. Private functions go
    that nothing calls or imports any more, and lemmas that nothing cites any more."""
    files = {it: text for it, text in all_texts(folder).items() if it.endswith(".rt")}
    bare = [without_bodies(text, crate, folder, file, ())[0] for file, text in files.items()]
    named = {name for text in bare for it in NAMED.finditer(text) for name in re.findall(r"\w+", it[0])}
    # A folder named with a plus has the proofs of several functions.
    texts = gone(folder, "proofs/**/+*")
    for file, text in files.items():
        texts[file], places = without_bodies(text, crate, folder, file, (), named)
        for it in places:
            texts.update(gone(folder, f"proofs/{it.proofs()}"))
    texts[root_of(folder)] += NEVER
    return without_lemmas(crate, folder, texts)
