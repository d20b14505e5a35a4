"""``--fix`` over pages that others wrote, as Debian's packages have them, into which faults are planted by lot:
pages.py FEWEST. Parsers of others read each page before and after; they find the same tree, but for the values that
the program had reported with the text to write. The package is on PYTHONPATH."""

import collections
import gzip
import html
import json
import os
import random
import re
import subprocess
import sys
import tempfile
from typing import Dict, List, NamedTuple, Sequence, Tuple

from rooms import COMMAND, are_there, end, held, make
from trees import PARSERS, Part

SEED = 20261130
MOST_SHOWN = 20
"""How many failures are shown."""

SOURCES: Tuple[Tuple[str, str, str, int], ...] = (
    ("python-django-doc", r"/html/.*\.html$", "html", 150),
    ("ikiwiki", r"/html/.*\.html$", "html", 60),
    ("php-twig-doc", r"\.html$", "html", 60),
    ("python-jinja2-doc", r"\.html$", "html", 15),
    ("docutils-doc", r"\.html$", "html", 40),
    ("ikiwiki", r"\.mdwn$", "md", 110),
    ("libjs-bootstrap4", r"\.md$", "md", 40),
    ("python3-pip", r"\.md$", "md", 20),
    ("php-twig-doc", r"\.(rst\.)?txt$", "rst", 60),
    ("docutils-doc", r"\.txt$", "rst", 25),
    ("python-jinja2-doc", r"\.(rst\.)?txt$", "rst", 13),
    ("docutils-doc", r"\.svg$", "xml", 8),
    ("python3-django", r"\.svg$", "xml", 26),
    ("php-symfony-web-profiler-bundle", r"\.svg$", "xml", 20),
    ("python-django-doc", r"\.css$", "css", 8),
    ("python3-django", r"\.css$", "css", 15),
    ("libjs-bootstrap4", r"\.css$", "css", 15),
)
"""The packages, which files of theirs are pages, the kind, and how many at most."""

PLANTS = {
    "html": re.compile(r"(?<=href=\")(?=[\w./-]{6,}[\"#])|(?<=src=\")(?=[\w./-]{6,}\")|(?<=href=\"http://)(?=[\w.]+/)"),
    "xml": re.compile(r"(?<=</title>)|(?<=>)(?=\s*<(?:path|rect|g|circle)\b)"),
    "css": re.compile(r"(?<=[{;])(?=\s*\n?\s*[a-z-]+:)"),
    "md": re.compile(r"(?<=\n\n)(?=[A-Z][a-z]+ )"),
    "rst": re.compile(r"(?<=\n\n)(?=[A-Z][a-z]+ [a-z])"),
}
"""Where something may be planted."""

NEW = {
    "html": ("{}",),
    "xml": ('<a xmlns:x="http://www.w3.org/1999/xlink" x:href="{}"/>', "<g style=\"fill: url('{}')\"/>"),
    "css": (' background: url("{}");', " background: url('{}');"),
    "md": (
        "See [this](<{}>). ",
        "![that](<{}> 'a title')\n\n",
        '<a href="{}">so</a> ',
        "[sic](my own note) and handlers[i](an event). ",
    ),
    "rst": ("See `this <{}>`__. ", ".. image:: {}\n\n", "`That <{}>`__ and `those <{}>`__. "),
}
"""What is planted, with a link in it."""

LINKS = {
    "html": ("pic {}/", "a{}^b/", "q{}|r/", "x{}\\y/"),
    "xml": ("pic {}.png", "http://h/a{}^b", "http://h/?x={}&amp;y=a b"),
    "css": ("pic {}.png", "http://h/a{}^b"),
    "md": ("my pic {}.png", "http://h/a{}^b", "http://h/?x={}&amp;y=a b"),
    "rst": ("pic{}^.png", "http://h/a{}|b"),
}
"""Links of which each has a fault, and a number by which it is known; in HTML, what comes before the path of one that is there."""

LEFT = ("{{{{ a {} }}}}/", "<?= $a {} ?>", "http://127.0.0.1/a {}", "[% a {} %]/")
"""Links that are never to be changed, with a number."""


STAYS = re.compile("|".join(re.escape(it.format("z")).replace("z", "z[0-9]+z[0-9]+") for it in LEFT))
"""The same as they are planted."""


class Page(NamedTuple):
    """A page of a package."""

    package: str
    kind: str
    text: str


def files_of(package: str, pattern: str) -> List[str]:
    """The files of a package whose path has the pattern, in order; none if it isn't installed."""
    ran = subprocess.run(["dpkg", "-L", package], stdout=subprocess.PIPE, stderr=subprocess.DEVNULL, check=False)
    return sorted(
        it
        for it in ran.stdout.decode().splitlines()
        if re.search(pattern, re.sub(r"\.gz$", "", it)) and os.path.isfile(it)
    )


def read(path: str) -> bytes:
    """The bytes of a file, which may be compressed."""
    with (gzip.open if path.endswith(".gz") else open)(path, "rb") as file:
        return file.read()


def pages() -> List[Page]:
    """The pages: of each source at most so many, by lot."""
    chooser = random.Random(SEED)
    found: List[Page] = []
    for package, pattern, kind, most in SOURCES:
        files = files_of(package, pattern)
        if not files:
            print("documents: pages of {} left out, since it isn't installed".format(package))
        count = 0
        for path in chooser.sample(files, len(files)):
            data = read(path)
            if count < most and len(data) < 150_000 and b"\r" not in data:
                try:
                    found.append(Page(package, kind, data.decode()))
                    count += 1
                except UnicodeDecodeError:
                    continue
    return found


def _front(text: str, number: int) -> List[str]:
    """What is put before a text that has front matter: its first line, and values of which only the first is a link."""
    if not text.startswith("---\n"):
        return []
    values = (
        'z{0}: "http://h/z{0} b"',
        "x{0}: |\n  https://h/ hosts it.",
        "https://h/a b: z{0}",
        'y{0}: "http://h/caf\\u00e9"',
    )
    return ["---\n", "\n".join(values).format(number), "\n"]


def planted(page: Page, number: int, chooser: random.Random) -> str:
    """A page with some faults, each with a number of its label, and with some links that are to stay as they are."""
    places = [it.start() for it in PLANTS[page.kind].finditer(page.text) if it.start() > 3]
    chosen = sorted(chooser.sample(places, min(len(places), 5)))
    pieces = _front(page.text, number)
    at = len(pieces[0]) if pieces else 0
    for count, place in enumerate(chosen):
        label = "z{}z{}".format(number, count)
        links = LEFT if page.kind == "html" and count == 3 else LINKS[page.kind]
        new = chooser.choice(NEW[page.kind])
        pieces += [page.text[at:place], re.sub(r"\{\}", lambda _: chooser.choice(links).format(label), new)]
        at = place
    return "".join(pieces) + page.text[at:]


def run(room: str, *words: str) -> Tuple[str, str]:
    """What the program prints and says of a folder."""
    ran = subprocess.run(
        [*COMMAND, "--no-config", *words, "."], cwd=room, stdout=subprocess.PIPE, stderr=subprocess.PIPE, check=False
    )
    if ran.returncode not in (0, 1, 2):
        sys.exit("FAILED: pages: status {} of {}: {}".format(ran.returncode, words, ran.stderr.decode()[-1000:]))
    return ran.stdout.decode(), ran.stderr.decode()


def offered(room: str) -> Dict[str, List[Tuple[str, str]]]:
    """The links of each page for which a text is offered that is the same URL or only escaped, each with that text."""
    found: Dict[str, List[Tuple[str, str]]] = collections.defaultdict(list)
    for line in run(room, "-q", "--format", "json")[0].splitlines():
        it = json.loads(line)
        if it.get("offered") and it["kind"] in ("same", "escaped"):
            # (what is to be written is said as the document has it; cmark reads no references in HTML)
            old, new = it["text"], html.unescape(it["mended"]) if "&" in it["text"] else it["mended"]
            pairs = {(old, new), (old.replace("&", "&amp;"), new.replace("&", "&amp;"))}
            found[os.path.normpath(it["file"])] += sorted(pairs)
    return found


def is_explained(before: str, after: str, texts: Sequence[Tuple[str, str]]) -> bool:
    """Whether a value is another one with some of these links in place of others."""
    while before != after:
        at = next(
            (it for it, (one, other) in enumerate(zip(before, after)) if one != other), min(len(before), len(after))
        )
        for old, new in texts:
            begin = before.rfind(old, max(at - len(new), 0), at + len(old))
            if begin >= 0 and after.startswith(new, begin):
                before, after = before[begin + len(old) :], after[begin + len(new) :]
                break
        else:
            return False
    return True


def values_of(text: str) -> str:
    """A URL without what the Standard's parser passes over, with its escapes read and ``\\`` as ``/``: for two that are the same URL
    but for escapes it is the same."""
    kept = text.strip("".join(map(chr, range(33)))).translate({9: None, 10: None, 13: None}).replace("\\", "/")
    decoded = re.sub(rb"%([0-9A-Fa-f]{2})", lambda it: bytes([int(it[1], 16)]), kept.encode())
    return re.sub(r"\A([a-z]+)://+", r"\1://", decoded.decode("utf-8", "replace").replace("\\", "/"))


def differences(
    name: str, before: List[Part], after: List[Part], texts: Sequence[Tuple[str, str]]
) -> Tuple[int, List[str]]:
    """How many values differ, and what is wrong with that."""
    if [it[0] for it in before] != [it[0] for it in after]:
        return 0, ["{}: another tree".format(name)]
    changed = [(kind, old, new) for (kind, old), (_, new) in zip(before, after) if old != new]
    wrong = ["{}: {} {!r} became {!r}".format(name, *it) for it in changed if not is_explained(it[1], it[2], texts)]
    return len(changed), wrong[:3]


def compared(
    kind: str, name: str, texts: Tuple[str, str], given: Sequence[Tuple[str, str]], is_sampled: bool
) -> List[str]:
    """What the parsers of a kind find that differs between a page before and after, and shouldn't."""
    failed: List[str] = []
    for parser, module, parts in PARSERS[kind]:
        # (html5lib reads in a second what the others read in a twentieth)
        if not are_there((module,)) or (parser == "html5lib" and not is_sampled):
            continue
        try:
            before = parts(texts[0])
        except Exception as error:
            if kind == "xml":
                return ["{}: it can't be read before: {}".format(name, error)]
            raise
        count, wrong = differences("{} by {}".format(name, parser), before, parts(texts[1]), given)
        failed += wrong + ["{} by {}: no value differs".format(name, parser)] * (not count and not wrong)
    return failed


def main() -> None:
    """Fixes the pages, and says what was compared."""
    fewest = int(sys.argv[1])
    chooser = random.Random(SEED)
    files: Dict[str, str] = {}
    kinds: Dict[str, Page] = {}
    for number, page in enumerate(pages()):
        end_of = {"md": "md", "rst": "rst", "xml": "svg", "css": "css", "html": "html"}[page.kind]
        name = "{}/{:04}.{}".format(page.package, number, end_of)
        files[name], kinds[name] = planted(page, number, chooser), page
    with tempfile.TemporaryDirectory() as room:
        make(room, files)
        texts = offered(room)
        said = run(room, "-q", "--fix")[0]
        after = held(room)
        again = run(room, "--fix")[1]
        later = held(room)
    failed = ["{} isn't there".format(it) for it in files if it not in after] + ["a second run writes something"] * (
        later != after
    )
    failed += ["a second run: " + again[-200:]] * (", 0 fixed" not in again)
    changed = [name for name in files if after[name] != files[name].encode()]
    failed += ["{} is written, though nothing is offered in it".format(it) for it in changed if not texts.get(it)]
    for number, name in enumerate(changed):
        gone = collections.Counter(STAYS.findall(files[name])) - collections.Counter(
            STAYS.findall(after[name].decode())
        )
        failed += ["{}: {!r} was changed".format(name, it) for it in gone]
        pair = (files[name], after[name].decode())
        failed += compared(kinds[name].kind, name, pair, texts.get(name, ()), number % 12 == 0)
        failed += [
            "{}: {!r} isn't {!r}".format(name, *it)
            for it in texts.get(name, ())
            if values_of(it[0]) != values_of(it[1])
        ][:3]
    kept = sum(name not in changed for name in texts)
    if len(failed) > MOST_SHOWN:
        failed[MOST_SHOWN:] = ["and {} more".format(len(failed) - MOST_SHOWN)]
    failed += ["{} pages are fewer than {}".format(len(files), fewest)] * (len(files) < fewest)
    failed += ["only {} of {} pages were written".format(len(changed), len(files))] * (len(changed) * 2 < len(files))
    by = collections.Counter(kinds[it].kind for it in changed)
    end(
        "pages",
        failed,
        "{} of {} pages are fixed, and parsers of others read the same trees ({}); in {} something offered stays, {} links stay wrong".format(
            len(changed),
            len(files),
            ", ".join("{} {}".format(count, kind) for kind, count in sorted(by.items())),
            kept,
            len(said.splitlines()),
        ),
    )


if __name__ == "__main__":
    main()
