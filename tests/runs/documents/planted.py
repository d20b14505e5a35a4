"""Faults planted into each form of links: planted.py FEWEST. Each document has one; the program has to name its line,
its column and its rule, and nothing else. The place of a fault is counted as it is planted. At least so many documents
are made. The package is on PYTHONPATH."""

import json
import os
import subprocess
import sys
import tempfile
import zipfile
from typing import Dict, Set, Tuple

from forms import FAULTS, FORMS, fits, text_of
from rooms import COMMAND, are_there, end, make

NEEDS = {"md": "markdown_it", "ipynb": "markdown_it", "rst": "docutils", "css": "tinycss2"}
CHAPTER = '<html xmlns="http://www.w3.org/1999/xhtml"><body>\n<p>\u00e9 <img alt="" src="{}"/></p></body></html>'

Place = Tuple[int, int, str]


def place_of(text: str, at: int, rule: str) -> Place:
    """The line and the column of a place, from 1, with its rule."""
    return text.count("\n", 0, at) + 1, at - text.rfind("\n", 0, at), rule


def documents() -> Tuple[Dict[str, str], Dict[str, Set[Place]], Dict[str, str]]:
    """The documents, what has to be said of each, and which form it has."""
    texts: Dict[str, str] = {}
    wanted: Dict[str, Set[Place]] = {}
    forms: Dict[str, str] = {}
    for form_name, form in FORMS.items():
        needed = "tinycss2" if "style" in form.text or "\x00" in form.text else NEEDS.get(form.end, "sys")
        if not are_there((needed,)):
            continue
        for link, at, rule in FAULTS:
            if fits(form, link):
                name = "{:04}.{}".format(len(texts), form.end)
                texts[name], begin = text_of(form, link)
                wanted[name] = {place_of(texts[name], begin + at, rule)}
                forms[name] = "{}: {}".format(form_name, link)
    return texts, wanted, forms


def book(room: str, wanted: Dict[str, Set[Place]], forms: Dict[str, str]) -> None:
    """Writes a book with a chapter for each fault."""
    with zipfile.ZipFile(os.path.join(room, "b.epub"), "w") as file:
        for number, (link, at, rule) in enumerate(FAULTS):
            text = CHAPTER.format(link)
            inner = "OEBPS/{}.xhtml".format(number)
            file.writestr(inner, text)
            name = "b.epub/" + inner
            wanted[name] = {place_of(text, text.index(link) + at, rule)}
            forms[name] = "EPUB: " + link


def seen_in(room: str) -> Dict[str, Set[Place]]:
    """What the program says of each document of a folder."""
    command = [*COMMAND, "-q", "--no-config", "--format", "json", "."]
    ran = subprocess.run(command, cwd=room, stdout=subprocess.PIPE, stderr=subprocess.PIPE, check=False)
    if ran.returncode != 1 or ran.stderr:
        sys.exit("FAILED: planted faults: status {}: {}".format(ran.returncode, ran.stderr.decode()[:1000]))
    found: Dict[str, Set[Place]] = {}
    for line in ran.stdout.decode().splitlines():
        it = json.loads(line)
        name = it["file"][2:] if it["file"].startswith("./") else it["file"]
        found.setdefault(name, set()).add((it["line"], it["column"], it["rule"]))
    return found


def main() -> None:
    """Plants the faults, and says how many were found."""
    fewest = int(sys.argv[1])
    texts, wanted, forms = documents()
    with tempfile.TemporaryDirectory() as room:
        make(room, texts)
        book(room, wanted, forms)
        seen = seen_in(room)
    failed = [
        "{}: said {}, not {}".format(forms[name], sorted(seen.get(name, ())), sorted(it))
        for name, it in wanted.items()
        if seen.get(name) != it
    ]
    failed += ["{} is named, which has no fault".format(name) for name in seen if name not in wanted]
    failed += ["{} documents are fewer than {}".format(len(wanted), fewest)] * (len(wanted) < fewest)
    kinds = len({it.rpartition(": ")[0] for it in forms.values()})
    end(
        "planted faults",
        failed,
        "each of {} in {} forms was found at its place, and nothing else".format(len(wanted), kinds),
    )


if __name__ == "__main__":
    main()
