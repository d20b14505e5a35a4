"""Spoiled copies of the package, each of which a test has to find: spoiled.py [TEXT], of those whose names have TEXT. A module
of each copy is changed at one place, and the test that is named has to fail then. The package is on PYTHONPATH."""

import importlib.util
import os
import shutil
import subprocess
import sys
import tempfile
from typing import NamedTuple, Tuple

MOST_SECONDS = 600
"""How many seconds a test may take, of which the longest needs some ten, and some ninety beside much else."""

HERE = os.path.dirname(os.path.abspath(__file__))


class Spoiled(NamedTuple):
    """A copy that is spoiled."""

    name: str
    module: str
    old: str
    """What is there once."""
    new: str
    test: Tuple[str, ...]
    """The file of the test, and which of its tests."""
    needs: Tuple[str, ...] = ()
    """The modules of Python without which it isn't tried."""


SERVER = ("pylsp_jsonrpc", "markdown_it", "docutils", "tinycss2")
PLACES = ("server.py", "Served.test_kinds_and_places")
CHANGES = ("server.py", "Served.test_changes_actions_and_hover")
ADDRESSES = ("server.py", "Served.test_addresses_of_the_rules")
TOGETHER = "documents.py"
CONFIGURED = (TOGETHER, "Together.test_a_configuration_that_is_saved")
UNASKED = (TOGETHER, "Together.test_what_is_written_unasked")
PROJECT = ("builds.py", "Sphinx.test_a_project")
SPHINX = ("builds.py", "Sphinx.test_each_link_at_its_place")
ENDED = ("../library/limits.py", "Limits.test_documents_of_one_process")
GREW = ("../library/limits.py", "Limits.test_a_process_ends_that_grew")
TOKENS = ("../library/documents.py", "Documents.test_tokens_of_html")
SPACED = ("builds.py", "Sphinx.test_a_space_beside_the_same_link")
COMMENTS = ("../library/comments.py", "Comments.test_comments_of_html")

COPIES = (
    Spoiled("a kind is dropped", "_readers/kinds.py", '    "rst": ("rst", "rest"),\n', "", ("expectations.py", "reStructuredText"), ("docutils",)),
    Spoiled("a vocabulary is dropped", "_readers/xml_names.py", '    "opml": OPML,\n', "", ("expectations.py", "OPML")),
    Spoiled("a name of one is dropped", "_readers/xml_names.py", '{PROSE: frozenset(("href", "conref"', '{PROSE: frozenset(("conref"',
            ("expectations.py", "DITA")),
    Spoiled("files that aren't read are no longer said", "_documents/folders.py", "; not read: ", "; read: ", ("expectations.py", "no reader")),
    Spoiled("front matter is text", "_readers/front_matter.py", "if mark not in _ENDS or", "if True or mark not in _ENDS or", ("expectations.py", "front matter is no text"), ("markdown_it",)),
    Spoiled("a destination with a space is passed over", "_readers/spaced_links.py", "            found[label.start()] = spaced\n", "            pass\n",
            ("expectations.py", "destination"), ("markdown_it",)),
    Spoiled("a place is one line off", "_editors/editing.py", "return line, offset - start", "return line + 1, offset - start", PLACES, SERVER),
    Spoiled("UTF-16 is counted in code points", "_editors/editing.py", 'encoding == "utf-32" or text.isascii()', "True",
            ("server.py", "Served.test_units"), SERVER),
    Spoiled("a fix is written elsewhere", "_editors/protocol.py", '{"range": _span(it.whole), "newText"',
            '{"range": _span(it.range), "newText"', CHANGES, SERVER),
    Spoiled("a text as it was before is answered", "_editors/opened.py",
            "return document.changes != changes or self._documents.get(document.uri) is not document", "return False",
            ("server.py", "Served.test_large_texts_and_many_changes"), SERVER),
    Spoiled("a change of a range is put at the line's end", "_editors/editing.py", "self._lines[first][:before] + written",
            "self._lines[first] + written", ("server.py", "Texts.test_changes"), SERVER),
    Spoiled("what was read of Markdown is kept when gfm changes", "_editors/checking.py",
            "if self._read != (asked.name, asked.kind, is_gfm):", "if self._read[0] != asked.name:",
            ("server.py", "Served.test_gfm_that_changes"), SERVER),
    Spoiled("a diagnostic leads nowhere", "_editors/protocol.py", '{"href": address_of(found.rule)}', '{"href": found.rule}', ADDRESSES, SERVER),
    Spoiled("what fails ends the checking", "_editors/opened.py", "except Exception as error:", "except KeyError as error:",
            (TOGETHER, "Together.test_a_check_that_fails"), SERVER),
    Spoiled("a URL that can't be read ends the checking", "language_server.py", "    except ValueError:\n        return urlsplit", "    except KeyError:\n        return urlsplit",
            (TOGETHER, "Together.test_names_of_no_files"), SERVER),
    Spoiled("one text at a time is checked", "_editors/opened.py", "max(2, min(4, os.cpu_count() or 1))", "1",
            (TOGETHER, "Together.test_a_text_that_takes_long"), SERVER),
    Spoiled("an error has a traceback", "_editors/rpc.py", 'if not isinstance(error, dict) or "data" not in error:', "if True:",
            (TOGETHER, "Together.test_no_traceback"), SERVER),
    Spoiled("a configuration that is saved isn't read", "language_server.py", "        self._project = Project()\n        self._opened", "        self._opened", CONFIGURED, SERVER),
    Spoiled("nothing is checked again after a configuration is saved", "language_server.py", "        self._opened.check_again(self._is_otherwise)", "        pass", CONFIGURED, SERVER),
    Spoiled("a client isn't asked to watch", "language_server.py", "if self._client.watches:", "if False:", CONFIGURED, SERVER),
    Spoiled("settings that are taken away stay", "language_server.py", "isinstance(settings, dict) and settings else self._first_options", "isinstance(settings, dict) and settings else self._options",
            (TOGETHER, "Together.test_settings_that_are_taken_away"), SERVER),
    Spoiled("false isn't said", "_editors/settings.py", 'gfm=_flag(given, "gfm", wrong),', 'gfm=_flag(given, "gfm", wrong) or None,', (TOGETHER, "Together.test_settings_go_before_the_project"), SERVER),
    Spoiled("what the command leaves is fixed", "_editors/checking.py", "why_left(link.text, wrong, writing, is_unsafe=False) is None", "True", UNASKED, SERVER),
    Spoiled("edits have no version", "language_server.py", "edits = Edits(uri, number, self._client.has_versions)", "edits = Edits(uri, number, False)", UNASKED, SERVER),
    Spoiled("Sphinx reads only what conf.py changed", "sphinx.py", "    setattr(config, _COUNTS, repr(by))\n", "", PROJECT, ("sphinx",)),
    Spoiled("a build's false isn't said", "sphinx.py", "is_empty_taken=config.urlcheck_no_empty,", "is_empty_taken=config.urlcheck_no_empty or None,", PROJECT, ("sphinx",)),
    Spoiled("Markdown is known by its name", "sphinx.py", 'return "markdown" in getattr(parser, "supported", ())', 'return path.endswith(".md")',
            ("builds.py", "Sphinx.test_markdown_by_another_name"), ("sphinx", "myst_parser")),
    Spoiled("MkDocs's server doesn't watch", "mkdocs.py", "server.watch(self._configured_by)", "pass", ("builds.py", "MkDocs.test_a_server"), ("mkdocs",)),
    Spoiled("a long link is shown whole", "_streams.py", "if len(link) <= _MOST_SHOWN else", "if link else", ("builds.py", "MkDocs.test_a_long_link"), ("mkdocs",)),
    Spoiled("code of Markdown is cut", "_editors/pieces.py", "    while opened is not None:", "    while False:", ("pieces.py",), ("markdown_it",)),
    Spoiled("titles count in their piece alone", "_editors/pieces.py", "if _are_consistent(styles)", "if True", ("pieces.py",), ("docutils",)),
    Spoiled("a piece is taken where it was before", "_editors/pieces.py", "return link._replace(offset=link.offset + by", "return link._replace(offset=link.offset", ("pieces.py",), ("markdown_it",)),
    Spoiled("definitions count in their piece alone", "_editors/pieces.py", "if _DEFINED.search(text):", "if False:", ("pieces.py",), ("markdown_it",)),
    Spoiled("roles count in their piece alone", "_editors/pieces.py", "if _ROLES.search(text):", "if False:", ("pieces.py",), ("docutils",)),
    Spoiled("a message of nonsense ends the server", "_editors/rpc.py", "except (ValueError, RecursionError):", "except KeyError:", ("server.py", "Served.test_nonsense"), SERVER),
    Spoiled("a link is sought from the first line on", "_readers/literals.py", "return source.offset(min(max(line, 1), ",
            "return source.offset(min(1, ", ("builds.py", "Sphinx.test_a_space_beside_the_same_link"), ("sphinx",)),
    Spoiled("the same place is told twice", "_readers/literals.py", "used.add(begin)\n                return given, True", "return given, True",
            SPHINX, ("sphinx",)),
    Spoiled("a space that docutils takes away isn't sought", "_readers/literals.py", '_BREAK.sub("", written)', 're.sub(r"\\s", "", written)',
            ("builds.py", "Sphinx.test_spaces_that_docutils_takes_away"), ("sphinx",)),
    Spoiled("a link is sought outside of its markup", "_readers/literals.py", 'if markup not in ("", link):', "if not link:", SPACED, ("sphinx",)),
    Spoiled("the links of HTML are sought in the whole text", "_readers/literals.py", "return _places(source, text, begin)", "return None",
            SPACED, ("sphinx",)),
    Spoiled("the end of a document isn't written out", "_documents/apart.py", "    pickle.dump(part, pipe)\n    pipe.flush()\n",
            "    pickle.dump(part, pipe)\n    if part is not None:\n        pipe.flush()\n", ENDED),
    Spoiled("a document is blamed for those before it", "_documents/apart.py", "if self._first == self._next or", "if True or", GREW),
    Spoiled("a part is given again", "_documents/apart.py", "if number >= given:", "if True:", GREW),
    Spoiled("a script within a comment of a script is none", "_readers/html_links.py", "is_escaped, at = True, at - 2", "at = at - 2", TOKENS),
    Spoiled("what has a quote in its name is no tag", "_readers/html_links.py", "[^ \\t\\n\\f\\r/>][^ ", "[^ '\\t\\n\\f\\r/>][^ ", TOKENS),
    Spoiled("a broken link counts twice", "_readers/markdown_links.py", "self.inlines.covered.get(content, []) + covered)", "self.inlines.covered.get(content, []))",
            ("../library/sources.py", "Markdown.test_a_broken_link_counts_once"), ("markdown_it",)),
    Spoiled("names have ./ before them in formats for programs", "_reports/names.py", '_HERE.sub("", str(self))', "str(self)",
            ("../library/projects.py", "Several.test_names_of_the_current_folder")),
    Spoiled("a comment beside a link is about the next line", "_readers/comments.py", "for line in own or [after[last]]]", "for line in [_line_after(source, last)]]", COMMENTS),
    Spoiled("an empty line counts after a comment", "_readers/comments.py", "while line <= last and not", "while line < 0 and not", COMMENTS),
    Spoiled("a comment for a rule leaves out all", "_reports/ignoring.py", "any(left.rule in it.rules for it in about)", "about", COMMENTS),
    Spoiled("a comment that isn't needed isn't told", "_reports/ignoring.py", "if comment not in needed:", "if False:", COMMENTS),
    Spoiled("a misspelt comment isn't told", "_readers/comments.py", "if _OURS.match(text) else ()", "if text.strip().startswith('urlcheck: ignore') else ()", COMMENTS),
    Spoiled("links are listed where nothing is said", "_documents/arguments.py", "return not given.list", "return given.check", ("../library/words.py", "Words.test_options_between_documents")),
    Spoiled("a FIFO is waited for", "_fixes/writing.py", "flags | getattr(os, \"O_NONBLOCK\", 0)", "flags", ("../library/losses.py", "Besides.test_no_file")),
    Spoiled("a file is written over that isn't a baseline", "documents.py", "        raise Refusal(\"{}: isn't a baseline", "        Refusal(\"{}: isn't a baseline",
            ("../library/losses.py", "Baselines.test_no_baseline")),
    Spoiled("a baseline keeps what is gone", "_reports/baseline.py", "if it[0] in self._met or not self._is_gone(it[1])", "if True",
            ("../library/losses.py", "Baselines.test_an_update")),
    Spoiled("known faults are fixed", "_documents/document.py", "if known.fingerprint not in self._command.known and not", "if not",
            ("../library/losses.py", "Baselines.test_fixes")),
    Spoiled("Git fetches as the folder says", "_documents/git.py", "env={**os.environ, **_ENVIRONMENT},", "env=None,",
            ("../library/projects.py", "Folders.test_a_partial_clone")),
    Spoiled("front matter isn't counted in MkDocs", "mkdocs.py", "text = source if source is not None and is_written else Source(markdown)", "text = Source(markdown)", ("builds.py", "MkDocs.test_each_link_at_its_place"), ("mkdocs",)),
)


def is_found(copy: Spoiled, package: str) -> bool:
    """Whether the test of a copy fails."""
    with tempfile.TemporaryDirectory() as room:
        shutil.copytree(package, os.path.join(room, "urlcheck"))
        path = os.path.join(room, "urlcheck", copy.module)
        with open(path, encoding="utf-8") as file:
            text = file.read()
        if not copy.old or text.count(copy.old) != 1:
            sys.exit("FAILED: {}: '{}' doesn't stand once in {}".format(copy.name, copy.old, copy.module))
        with open(path, "w", encoding="utf-8") as file:
            file.write(text.replace(copy.old, copy.new))
        paths = os.pathsep.join((room, os.environ.get("PYTHONPATH", "")))
        words = [sys.executable, os.path.join(HERE, copy.test[0]), *copy.test[1:]]
        environment = {**os.environ, "PYTHONPATH": paths}
        try:
            ran = subprocess.run(
                words, env=environment, stdout=subprocess.PIPE, stderr=subprocess.STDOUT, timeout=MOST_SECONDS, check=False
            )
        except subprocess.TimeoutExpired:
            sys.exit("FAILED: {}: the test takes more than {} seconds, and says nothing of it".format(copy.name, MOST_SECONDS))
    # (one that can't begin finds nothing)
    return ran.returncode != 0 and b"ImportError" not in ran.stdout and b"SyntaxError" not in ran.stdout


def main() -> None:
    """Tries each copy, and says how many were found."""
    found = importlib.util.find_spec("urlcheck")
    assert found is not None and found.origin is not None
    package = os.path.dirname(found.origin)
    tried = left = 0
    for copy in [it for it in COPIES if not sys.argv[1:] or sys.argv[1] in it.name]:
        if not all(map(importlib.util.find_spec, copy.needs)):
            left += 1
            continue
        if not is_found(copy, package):
            sys.exit("FAILED: no test finds that {}".format(copy.name))
        tried += 1
    if not tried + left:
        sys.exit("FAILED: no copy has that name")
    print("authors: each of {} spoiled copies was found, {} aren't tried for want of a package".format(tried, left))


if __name__ == "__main__":
    main()
