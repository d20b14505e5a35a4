"""Spoiled copies of the package, in each of which a guard of what is written is taken out: spoils.py [TEXT], of those
whose names have TEXT. The run that is named has to fail then, and to end. What a copy is and how it is tried, the
runs of authors have. The package is on PYTHONPATH, and PROGRAM is the program ``urlcheck``."""

import importlib.util
import os
import sys
from concurrent.futures import ThreadPoolExecutor
from typing import Dict, Tuple

HERE = os.path.dirname(os.path.abspath(__file__))
sys.path.insert(0, os.path.join(HERE, "..", "authors"))

from spoiled import Spoiled, is_found  # noqa: E402

from rooms import are_there, end  # noqa: E402

Edit = Tuple[str, str]

WRITING, FIXING, PROGRAM = "_fixes/writing.py", "_fixes/fixing.py", "documents.py"
GUARDS = "guards.py"
HELD = "    seen = held.st_ino, held.st_size, held.st_mtime_ns\n    return (now.st_ino, now.st_size, now.st_mtime_ns) != seen\n"
DIGEST = "        if digest_of(file.read()) != digest:\n"


def _of_guards(name: str) -> Tuple[str, ...]:
    """A test of what keeps a document whole."""
    return GUARDS, "Guards.test_" + name


def _of_cases(text: str) -> Tuple[str, ...]:
    """The commands whose names have a text."""
    return "cases.py", text


def _of_library(file: str, test: str) -> Tuple[str, ...]:
    """A test of what is found and written, by its file."""
    return os.path.join("..", "library", file), test


SPOILS: Dict[str, Tuple[str, Edit, Tuple[str, ...]]] = {
    # ---- another program that writes meanwhile
    "the digest isn't compared": (WRITING, (DIGEST, "        if not digest:\n"), _of_guards("another_text")),
    "the time isn't compared": (
        WRITING,
        (HELD, "    return (now.st_ino, now.st_size) != (held.st_ino, held.st_size)\n"),
        _of_guards("another_time"),
    ),
    "the size isn't compared": (
        WRITING,
        (HELD, "    return (now.st_ino, now.st_mtime_ns) != (held.st_ino, held.st_mtime_ns)\n"),
        _of_guards("another_size"),
    ),
    "the inode isn't compared": (
        WRITING,
        (HELD, "    return (now.st_size, now.st_mtime_ns) != (held.st_size, held.st_mtime_ns)\n"),
        _of_guards("another_file"),
    ),
    "a new file is left": (WRITING, ("            os.unlink(new)\n", "            pass\n"), _of_guards("another_time")),
    "a signal ends the writing": (
        WRITING,
        ("(signal.SIGINT, signal.SIGTERM, signal.SIGHUP)", "()"),
        _of_guards("a_signal_waits"),
    ),
    "a link out of the folder is followed": (
        WRITING,
        ("if folder is not None and not _is_within(", "if folder is not None and folder == _is_within("),
        _of_guards("a_link_out_of_the_folder"),
    ),
    # ---- what a file has besides its text
    "attributes aren't kept": (
        WRITING,
        ("        _take_attributes(new, path)\n", "        pass\n"),
        _of_cases("attributes"),
    ),
    "the mode isn't kept": (
        WRITING,
        ("os.chmod(new, stat.S_IMODE(held.st_mode))", "os.chmod(new, 0o600)"),
        _of_cases("the mode of a file"),
    ),
    # ---- files that are written besides
    "a report is written over a document": (
        PROGRAM,
        ("    for name in command.files:\n        _refuse(name, written)\n", ""),
        _of_cases("the file that is written"),
    ),
    "a report is read": (
        PROGRAM,
        ("return [it for it in entries if it.folder is None or _identity(it.path) not in written]", "return entries"),
        _of_cases("a report within"),
    ),
    "a device is replaced by a file": (
        WRITING,
        ("(self._held is not None and not stat.S_ISREG(self._held.st_mode))", "False"),
        ("hurt.py", "Hurt.test_what_is_written_stays_what_it_is"),
    ),
    "a baseline forgets what is known": (
        PROGRAM,
        ("baseline.written(kept + seen.compared.new)", "baseline.written(seen.compared.new)"),
        _of_cases("written anew"),
    ),
    "what wasn't read is gone": (
        "_reports/baseline.py",
        ("return file in self._whole and rule in self._whole[file]", "return True"),
        _of_cases("aren't gone"),
    ),
    # ---- what is written in place of links
    "hosts of numbers are written": (
        FIXING,
        ("    if host and _NUMBERS.fullmatch(host[1]):\n", "    if not host:\n"),
        _of_cases("another link"),
    ),
    "a tab hides a host of numbers": (
        FIXING,
        ("_HOST.match(text.translate(_PASSED_OVER))", "_HOST.match(text)"),
        _of_cases("another link"),
    ),
    "a full stop hides a host of numbers": (FIXING, ('[0-9]+))*\\.?")\n', '[0-9]+))*")\n'), _of_cases("another link")),
    "what only looks like a link is written": (
        FIXING,
        ("is_safe = writing.is_certain and", "is_safe ="),
        _of_cases("only looks like a link isn't"),
    ),
    "what isn't offered is written": (
        FIXING,
        ("wrong.mended is None or not wrong.mended.is_offered", "wrong.mended is None"),
        _of_cases("templates aren't"),
    ),
    "an address by the page's scheme is written": (
        "_reports/checker.py",
        ("slot.is_certain and not self._is_relative(link)", "slot.is_certain"),
        _of_cases("another link"),
    ),
    "a fix is counted against the limit of what is read": (
        "_documents/document.py",
        ("self._reading._replace(most=sys.maxsize)", "self._reading"),
        _of_cases("only once it is fixed"),
    ),
    "& is written as it is": (
        "_readers/html_links.py",
        ('        text = text.replace("&", "&amp;")\n', '        text = text.replace("&", "&")\n'),
        _of_cases("same links"),
    ),
    "a block of front matter has links": (
        "_readers/front_matter.py",
        ("        if _BLOCK_SCALAR.match(line, begin):\n", "        if not line:\n"),
        _of_cases("front matter that is valid"),
    ),
    "escapes of front matter aren't read": (
        "_readers/front_matter.py",
        ("    return _ESCAPE.sub(_point, raw)\n", "    return raw\n"),
        _of_cases("front matter"),
    ),
    "what readers see otherwise has a slot": (
        "_readers/source.py",
        (" if self.syntax.read(raw) == self.text else None\n", " if raw else None\n"),
        _of_library("fixing.py", "Fixing.test_spaces_that_docutils_drops"),
    ),
    "a url() with a space is surely one": (
        "_readers/css_links.py",
        ("._replace(is_certain=False)", ""),
        _of_library("fixing.py", "Fixing.test_what_is_uncertain"),
    ),
    # ---- what is a link
    "a rule above a text begins front matter": (
        "_readers/front_matter.py",
        ('    if mark == "---" and not _is_mapping(text[begin:at]):\n', "    if not mark:\n"),
        _of_library("sources.py", "Markdown.test_front_matter"),
    ),
    "a text over lines of front matter is a link": (
        "_readers/front_matter.py",
        ("            if not (is_value or is_awaited):\n", "            if not line:\n"),
        _of_library("sources.py", "Markdown.test_front_matter"),
    ),
    "MDX is Markdown": (
        "_readers/reading.py",
        ('        is_mdx = kind == "mdx"\n', "        is_mdx = not kind\n"),
        _of_library("sources.py", "Markdown.test_mdx"),
    ),
    "any bracket begins a label": (
        "_readers/markdown_links.py",
        ("            if end in inlines.spaced(state.src):\n", "            for end in inlines.spaced(state.src):\n"),
        _of_library("sources.py", "Markdown.test_destinations_with_a_space"),
    ),
    "mathematics is no code": (
        "_readers/spaced_links.py",
        ("if spaced and not (at >= 0 and label.start() < math[at][1]):", "if spaced:"),
        _of_library("sources.py", "Markdown.test_destinations_with_a_space"),
    ),
    "a size is a part of a link": (
        "_readers/spaced_links.py",
        (" or _SIZE.search(text)", ""),
        _of_library("sources.py", "Markdown.test_destinations_with_a_space"),
    ),
    "a block that isn't read isn't told": (
        "_readers/rst_links.py",
        ("_DROPS = 3\n", "_DROPS = 5\n"),
        _of_library("sources.py", "Rst.test_what_is_lost"),
    ),
    "a long line loses its document": (
        "_readers/rst_links.py",
        ('_LONG.sub("", source.text)', "source.text"),
        _of_library("sources.py", "Rst.test_what_is_lost"),
    ),
    # ---- differences and names
    "a difference has no mark": (
        "_fixes/edits.py",
        ("    if has_mark:\n", "    if not edits:\n"),
        _of_cases("a difference for patch"),
    ),
    "a name with a space ends at it": (
        "_reports/names.py",
        ('return name + "\\t" if " " in name else name', "return name"),
        _of_cases("a difference for patch"),
    ),
    "names begin with ./": (
        "_reports/names.py",
        ("name = os.path.normpath(str(self))\n        if", "name = str(self)\n        if"),
        _of_cases("a difference for git"),
    ),
    "a name forges lines of a list": (
        "_reports/names.py",
        ("        if _CONTROL.search(name):\n", "        if not name:\n"),
        _of_cases("names within a book forge no line"),
    ),
    # ---- what is run and read
    "Git runs what a folder names": (
        "_documents/git.py",
        ('"core.fsmonitor=false", ', ""),
        _of_cases("Git runs nothing"),
    ),
    "a folder's own patterns don't count": (
        "_documents/folders.py",
        ("            if config is not above:\n", "            if config is above:\n"),
        _of_cases("excludes is left out"),
    ),
    "a surrogate is kept": ("_readers/source.py", ('_SURROGATE.sub("\\ufffd", text)', "text"), _of_cases("surrogate")),
}
"""The copies: the module, what is written in place of what, and the run that has to fail."""


def main() -> None:
    """Tries each copy, and says how many were found."""
    found = importlib.util.find_spec("urlcheck")
    assert found is not None and found.origin is not None
    package = os.path.dirname(found.origin)
    needed = ("markdown_it", "docutils", "tinycss2")
    if not are_there(needed):
        print("documents: spoiled copies left out, since markdown-it-py, docutils or tinycss2 isn't installed")
        return
    chosen = {name: it for name, it in SPOILS.items() if not sys.argv[1:] or sys.argv[1] in name}
    copies = [
        Spoiled(name, module, *edit, (os.path.join("..", "documents", test[0]), *test[1:]))
        for name, (module, edit, test) in chosen.items()
    ]

    def seen(copy: Spoiled) -> str:
        """What is wrong with a copy, or nothing if it is found."""
        try:
            return "" if is_found(copy, package) else "no run finds that {}".format(copy.name)
        except SystemExit as said:
            return str(said)

    with ThreadPoolExecutor(os.cpu_count()) as pool:
        failed = [it for it in pool.map(seen, copies) if it]
    end("spoiled copies", failed + ["no copy has that name"] * (not copies), "each of {} was found".format(len(copies)))


if __name__ == "__main__":
    main()
