"""Wrong edits of the crates' code: what each of them changes, and in which function.

An edit is lines: `file: ` with a file of the crate, then pairs of a line `old: ` with a text that is there once, and a line `new: ` with
what is to stand in its place. tests/edits/CRATE.edits has many, each below a line `## NAME`, and crates/CRATE/must-fail has files of
one each.
"""

import functools
import itertools
import os
import re
from typing import NamedTuple

from usage import Stopped

# What ends the name of a file of edits, and of a file of one edit.
ENDING, SINGLE_ENDING = ".edits", ".edit"

# The first line of what has functions of its own: of an `impl` the trait, if it is of one, and the type, or the name of a trait.
OWNER = re.compile(r"impl(?:<.*?>)? (?:(\w+)(?:<.*?>)? for )?(\w+)|(?:pub )?trait (\w+)")

# The first line of a type.
TYPE = re.compile(r"^(?:pub(?:\([^)]*\))? )?(?:struct|enum) (\w+)", re.MULTILINE)

# The first line of a function.
FUNCTION = re.compile(r'( *)(?:pub(?:\([^)]*\))? )?(?:unsafe )?(?:extern "C" )?fn (\w+)')

# The first line of any item that has a name, of a source or of specs/.
ITEM = re.compile(r"^(?:pub(?:\([^)]*\))? )?(?:(?:const|static|struct|enum|trait|macro_rules!|fn) )?([\w-]+)", re.MULTILINE)


class Change(NamedTuple):
    """A text of a file, and the text to put in its place."""

    path: str
    old: str
    new: str


class Edit(NamedTuple):
    """A wrong edit of a crate."""

    crate: str
    name: str
    changes: tuple

    def __str__(self):
        return f"{self.crate}/{self.name}"


class Function(NamedTuple):
    """A function of a source: its path below the crate as the prover prints it, and where it begins, and its body begins and ends."""

    name: str
    start: int
    body: int
    end: int


def changes_of(text):
    """The changes of an edit's lines, or None where these are of another form."""
    pairs = [line.partition(":") for line in text.rstrip("\n").split("\n")]
    if not re.fullmatch("(file (old new )+)+", "".join(f"{key} " for key, _, _ in pairs)):
        return None
    changes, path, old = [], "", ""
    for key, _, value in pairs:
        value = value.removeprefix(" ")
        if key == "file":
            path = value
        elif key == "old":
            old = value
        else:
            changes.append(Change(path, old, value))
    return tuple(changes)


def texts_of(crate):
    """The edits of tests/edits/CRATE.edits, each as its name and its lines."""
    path = f"tests/edits/{crate}{ENDING}"
    if not os.path.exists(path):
        return []
    before, *found = re.split(r"^## (.*)\n", read(path), flags=re.M)
    names = found[::2]
    if before:
        raise Stopped(f"{path} begins with no line '## NAME'")
    if twice := [name for name in names if names.count(name) > 1]:
        raise Stopped(f"{path} has {twice[0]} twice")
    return list(zip(names, found[1::2]))


def must_fail_texts_of(crate):
    """The edits of crates/CRATE/must-fail, each as its name and its lines."""
    folder = f"crates/{crate}/must-fail"
    names = sorted(os.listdir(folder)) if os.path.isdir(folder) else []
    return [(f"must-fail/{it.removesuffix(SINGLE_ENDING)}", read(f"{folder}/{it}")) for it in names if it.endswith(SINGLE_ENDING)]


def read(path):
    """The text of a file."""
    with open(path, encoding="utf-8", newline="") as file:
        return file.read()


def read_all(with_must_fail):
    """The edits of tests/edits, by crate, and those of crates/*/must-fail, where these are wanted."""
    by_crate = {}
    for crate in sorted(os.listdir("crates")):
        texts = texts_of(crate) + (must_fail_texts_of(crate) if with_must_fail else [])
        if texts:
            by_crate[crate] = [Edit(crate, name, changes_of(text)) for name, text in texts]
    return by_crate


def wrong_with(edit):
    """What keeps an edit from being applied, in words, or None."""
    if edit.changes is None:
        return "wants a line 'file: ', then pairs of a line 'old: ' and a line 'new: '"
    texts = {}
    for path, old, new in edit.changes:
        path = f"crates/{edit.crate}/{path}"
        if not os.path.isfile(path):
            return f"there is no {path}"
        text = texts.get(path) or read(path)
        if text.count(old) != 1:
            return f"its old text has to be once in {path}, and is there {text.count(old)} times: {old}"
        texts[path] = text.replace(old, new)
    return None if all(read(it) != text for it, text in texts.items()) else "it changes nothing"


def put_in(edit, folder):
    """Makes an edit in a copy of its crate."""
    for path, old, new in edit.changes:
        text = read(f"{folder}/{path}")
        with open(f"{folder}/{path}", "w", encoding="utf-8", newline="") as file:
            file.write(text.replace(old, new))


@functools.cache
def sources(crate):
    """The sources of a crate, each by its path."""
    top = f"crates/{crate}"
    paths = [os.path.relpath(f"{folder}/{it}", top) for folder, _, files in os.walk(f"{top}/src") for it in files if it.endswith(".rt")]
    return {path: read(f"{top}/{path}") for path in paths}


@functools.cache
def homes(crate):
    """The types of a crate, each with the source that declares it."""
    return {name: path for path, code in sources(crate).items() for name in TYPE.findall(code)}


def module_of(path):
    """How the names of what a source has begin."""
    module = path.removeprefix("src/").removesuffix(".rt").replace("/", "::")
    return "" if module in ("lib", "main") else f"{module}::"


def functions(path, code, types):
    """The functions that have a body in a source, as `rt fmt` lays it out. The types are those of the crate, with their sources."""
    types = {**types, **dict.fromkeys(TYPE.findall(code), path)}
    lines = code.splitlines(keepends=True)
    places = [0, *itertools.accumulate(len(line) for line in lines)]
    found, owner = [], ""
    for at, line in enumerate(lines):
        if begun := OWNER.match(line):
            of_trait, of_type, trait = begun.groups()
            # (the functions of a type stand where it is declared, and those of a trait for it where they are written)
            home = path if of_trait or trait else types.get(of_type, path)
            owner = f"{module_of(home)}{of_type or trait}{of_trait or ''}::"
        elif (begun := FUNCTION.match(line)) and (body := body_of(lines, at, begun[1])):
            name = (owner if begun[1] else module_of(path)) + begun[2]
            found.append(Function(name, places[at], *(places[it] for it in body)))
    return found


def body_of(lines, at, indent):
    """The first line of the body of the function that begins at a line, indented so, and the line after the last; None without a body."""
    # (a body begins below a line of that indentation: that of its brace, which stands alone below clauses, or ends the signature.
    # Without one the last clause ends so, and what is within a clause is indented further)
    for first in range(at, len(lines)):
        line = lines[first].rstrip()
        if line.endswith(";") and not line.startswith(f"{indent}     "):
            return None
        if line[: len(indent) + 1].strip() and line.endswith(("{", "}")):
            last = first if line.endswith("}") else next(it for it in range(first, len(lines)) if lines[it].startswith(f"{indent}}}"))
            return first + 1, max(first + 1, last)
    return None


def function_of(edit):
    """The one function whose body holds all that an edit changes, or None."""
    holders = {holder(edit.crate, path, code, at, at + len(old), "body") for path, code, at, old in places(edit)}
    names = {it and it.name for it in holders}
    return names.pop() if len(names) == 1 else None


def concerned(edit):
    """The functions that hold what an edit changes, or name the constant, type or definition that holds it."""
    names = []
    for path, code, at, _ in places(edit):
        if own := holder(edit.crate, path, code, at, at, "start"):
            names.append(own.name)
        elif items := ITEM.findall(code[:at]):
            names += mentioning(edit.crate, items[-1])
    return tuple(sorted(set(names)))


def places(edit):
    """Of each change of an edit its file, what stands there before it, where in that it is, and its old text."""
    texts = {path: read(f"crates/{edit.crate}/{path}") for path, _, _ in edit.changes}
    for path, old, new in edit.changes:
        yield path, texts[path], texts[path].index(old), old
        texts[path] = texts[path].replace(old, new)


def holder(crate, path, code, start, end, part):
    """The function of a source that holds this text, from its own `start` or `body` on, or None."""
    own = functions(path, code, homes(crate)) if path.startswith("src/") else []
    return next((it for it in own if getattr(it, part) <= start and end < it.end), None)


def mentioning(crate, word):
    """The functions of a crate whose code or contract has this word."""
    named = re.compile(rf"\b{re.escape(word)}\b")
    return [
        it.name
        for path, code in sources(crate).items()
        for it in functions(path, code, homes(crate))
        if named.search(code[it.start : it.end])
    ]
