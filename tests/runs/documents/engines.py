"""``--fix``, with ``--unsafe-fixes`` and without, over templates that others wrote, as Debian's packages have them,
each read as HTML: engines.py FEWEST. Nothing is written, neither in them as they are nor once each link that shows a
template has a fault next to it. The package is on PYTHONPATH."""

import re
import subprocess
import sys
import tempfile
from typing import Dict, List, Tuple

from pages import files_of, read
from rooms import COMMAND, end, held, make

ENGINES: Tuple[Tuple[str, str, str, str], ...] = (
    ("Django", "python3-django", r"/templates/.*\.html$", r"\{[{%]"),
    ("Django's Jinja2", "python3-django", r"/jinja2/.*\.html$", r"\{[{%]"),
    ("Sphinx", "sphinx-common", r"/themes/.*\.html(_t)?$", r"\{[{%]"),
    ("MkDocs", "mkdocs", r"/themes/.*\.html$|/templates/.*\.xml$", r"\{[{%]"),
    ("Material", "mkdocs-material", r"/material/.*\.html$", r"\{[{%]"),
    ("Twig", "php-symfony-web-profiler-bundle", r"\.twig$", r"\{[{%]"),
    ("PHP", "php-symfony-error-handler", r"/views/.*\.php$", r"<\?"),
    ("Rails", "ruby-railties", r"\.(erb|tt)$", r"<%"),
    ("Action Pack", "ruby-actionpack", r"\.erb$", r"<%"),
    ("Jekyll", "jekyll", r"\.(erb|html|md|markdown)$", r"\{[{%]|<%"),
    ("Jekyll's theme", "jekyll-theme-minima", r"\.(html|md)$", r"\{[{%]"),
    (
        "Hugo",
        "libjs-bootstrap4",
        r"/(extend|components|utilities|content|layout|getting-started|about|migration)/.*\.(md|html)$|/_index\.html$",
        r"\{\{",
    ),
)
"""The engines: what each is called, the package, its templates, and what a link that shows one has."""

MARKERS = {engine: marker for engine, _, _, marker in ENGINES}

VALUE = re.compile(r"(?<=[ \t\n])(href|src|action|content|data|poster|srcset)=(\"[^\"]*\"|'[^']*')")
"""An attribute with its value."""

NAME = {"html": "html", "md": "md", "markdown": "md", "xml": "html"}


def with_faults(text: str, marker: str) -> str:
    """A template in which each attribute that has the marker ends with a fault."""
    return VALUE.sub(lambda it: it[0][:-1] + "/a b" + it[0][-1] if re.search(marker, it[2]) else it[0], text)


def templates() -> Tuple[Dict[str, str], Dict[str, int]]:
    """The templates as they are and with faults, by the names of their copies; and how many each engine has."""
    files: Dict[str, str] = {}
    counts: Dict[str, int] = {}
    for engine, package, pattern, marker in ENGINES:
        found = files_of(package, pattern)
        if not found:
            print("documents: templates of {} left out, since {} isn't installed".format(engine, package))
        for number, path in enumerate(found):
            text = read(path).decode()
            name = "{}/{}.{}".format(engine, number, NAME.get(path.rpartition(".")[2], "html"))
            files["as they are/" + name] = text
            spoiled = with_faults(text, marker)
            if spoiled != text:
                files["with faults/" + name] = spoiled
            counts[engine] = counts.get(engine, 0) + 1
    return files, counts


def written(files: Dict[str, str], words: List[str]) -> List[str]:
    """What a run writes of these files."""
    with tempfile.TemporaryDirectory() as room:
        make(room, files)
        ran = subprocess.run(
            [*COMMAND, "--no-config", *words, "."],
            cwd=room,
            stdout=subprocess.PIPE,
            stderr=subprocess.PIPE,
            check=False,
        )
        now = held(room)
    failed = ["status {}: {}".format(ran.returncode, ran.stderr.decode()[-300:])] * (ran.returncode not in (1, 2))
    seen: Dict[str, List[str]] = {}
    for name, text in files.items():
        seen.setdefault(name.split("/")[1], []).extend(changed(name, text, now[name].decode())[:1])
    # (of each engine one line is enough, with how many there are)
    return failed + ["{} files: {}".format(len(it), it[0]) for it in seen.values() if it]


def changed(name: str, before: str, after: str) -> List[str]:
    """What was changed in a template, but for links that show none of its engine's marks, which are links of their own."""
    if VALUE.sub("", before) != VALUE.sub("", after):
        return ["{}: something else than a link was changed".format(name)]
    marker = MARKERS[name.split("/")[1]]
    pairs = zip(VALUE.finditer(before), VALUE.finditer(after))
    return [
        "{}: {} became {}".format(name, old[0], new[0])
        for old, new in pairs
        if old[0] != new[0] and re.search(marker, old[0])
    ]


def main() -> None:
    """Tries the templates, and says how many stayed as they were."""
    fewest = int(sys.argv[1])
    files, counts = templates()
    failed = written(files, ["--fix"]) + written(files, ["--fix", "--unsafe-fixes"]) if files else []
    failed += ["{} templates are fewer than {}".format(len(files), fewest)] * (len(files) < fewest)
    said = ", ".join("{} {}".format(count, engine) for engine, count in counts.items())
    end(
        "templates",
        failed,
        "nothing is written in {} files with {} templates ({})".format(len(files), sum(counts.values()), said),
    )


if __name__ == "__main__":
    main()
