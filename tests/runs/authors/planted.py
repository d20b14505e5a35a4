"""Wrong links planted into reStructuredText of others: planted.py --alone|--sphinx FOLDER.., of which each document
is read. Into each third of what seems to be a link a word of its own is written, and before it a ^ or a space. What
docutils reads as a link with that word has to be refused at that place, and nothing else that was planted.
``--sphinx`` is for documents with roles and directives of Sphinx, which docutils leaves out and the package reads
through: there more may be refused. The package is on PYTHONPATH, and so is docutils."""

import glob
import gzip
import os
import re
import subprocess
import sys
import tempfile
from typing import Dict, Iterator, Set, Tuple

import docutils.core
from docutils import nodes

EACH = 3
"""Into which of the links of a text a fault is planted."""

LINK = re.compile(
    r"(?P<enclosed>(?<=<)https?://[\w./-]+(?=>`_)|(?<=: )https?://[\w./-]+$|(?<=:: )[\w./-]+\.(?:png|gif)$)"
    r"|https?://[\w.]+/[\w/-]+",
    re.MULTILINE,
)
"""What seems to be a link: in a reference, a target or an image, within which a space may be written, or bare."""

QUIET = {"report_level": 5, "halt_level": 5, "warning_stream": False, "file_insertion_enabled": False,
         "input_encoding": "unicode", "_disable_config": True}

Place = Tuple[int, int]


def planted(text: str) -> Tuple[str, Dict[str, Place]]:
    """A text with its faults, and where the fault before each word is."""
    count = 0

    def with_fault(found: "re.Match[str]") -> str:
        nonlocal count
        count += 1
        fault = " " if found["enclosed"] and count % 2 else "^"
        return found[0] if count % EACH else "{}/q{}zq{}zq".format(found[0].rstrip("/"), fault, count)

    whole = LINK.sub(with_fault, text)
    places = {}
    for found in re.finditer("[ ^](zq[0-9]+zq)", whole):
        at = found.start()
        places[found[1]] = whole.count("\n", 0, at) + 1, at - whole.rfind("\n", 0, at)
    return whole, places


def words_read(text: str) -> Iterator[str]:
    """The words of the links that docutils reads."""
    tree = docutils.core.publish_doctree(text, settings_overrides=QUIET)
    for node in tree.findall(nodes.Element):
        for name in ("refuri", "uri"):
            yield from re.findall("zq[0-9]+zq", node.get(name, ""))


def texts_of(folder: str) -> Iterator[Tuple[str, str]]:
    """The documents of a folder, each with its text."""
    for name in sorted(glob.glob(os.path.join(folder, "**", "*"), recursive=True)):
        if re.search(r"\.(txt|rst)(\.gz)?$", name) and os.path.isfile(name):
            with (gzip.open if name.endswith(".gz") else open)(name, "rt", encoding="utf-8", errors="replace") as file:
                yield os.path.relpath(name, folder), file.read().lstrip("\ufeff")


def refused_in(folder: str) -> Dict[str, Set[Place]]:
    """The places at which the package refuses something, by their files."""
    words = [sys.executable, "-m", "urlcheck.documents", "-q", "--no-config", folder]
    ran = subprocess.run(words, stdout=subprocess.PIPE, check=False)
    found: Dict[str, Set[Place]] = {}
    for name, line, column in re.findall(r"^(.*?):(\d+):(\d+): error: ", ran.stdout.decode(), re.MULTILINE):
        found.setdefault(os.path.basename(name), set()).add((int(line), int(column)))
    return found


def tried(folder: str, is_sphinx: bool) -> int:
    """How many faults were found in the documents of a folder, all of them at their places."""
    wanted: Dict[str, Tuple[str, Set[Place], Set[Place]]] = {}
    with tempfile.TemporaryDirectory() as room:
        for number, (name, text) in enumerate(texts_of(folder)):
            whole, places = planted(text)
            if places:
                copy = "{}.rst".format(number)
                with open(os.path.join(room, copy), "w", encoding="utf-8", newline="") as file:
                    file.write(whole)
                wanted[copy] = name, set(places.values()), {places[word] for word in words_read(whole)}
        refused = refused_in(room)
    failed = False
    for copy, (name, places, read) in wanted.items():
        seen = refused.get(copy, set())
        missed, more = read - seen, set() if is_sphinx else seen & places - read
        if missed or more:
            failed = True
            said = "FAILED: {}: not refused {}, refused though docutils reads no link there {}"
            print(said.format(name, sorted(missed), sorted(more)))
    if failed:
        sys.exit(1)
    return sum(len(read) for _, _, read in wanted.values())


def main() -> None:
    """Tries each folder, and says how many faults were found."""
    _, kind, *folders = sys.argv
    for folder in folders:
        count = tried(folder, kind == "--sphinx")
        if not count:
            sys.exit("FAILED: no link of {} has a fault".format(folder))
        print("authors: each of {} planted faults was found in {}".format(count, folder))


if __name__ == "__main__":
    main()
