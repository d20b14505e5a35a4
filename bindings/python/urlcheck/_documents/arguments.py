"""What the words of a command line ask ``urlcheck-documents`` for."""

import argparse
import errno
import os
import re
import sys
import textwrap
from typing import Any, Callable, Dict, List, NamedTuple, Optional, Tuple

from .. import FORMATS, UNITS, Profile, version
from .._fixes.fixing import Fixing
from .._readers.kinds import ENDS, KINDS, kind_of, listed
from .._readers.source import Foreign, decoded
from .._reports import baseline
from .._reports.checker import SOMEWHERE
from .._reports.colours import WHENS
from .._reports.report import own_unit, takes_unit
from .._reports.rules import NoRule, are_rules, nearest, rules_of
from .._streams import flush, reason_of, stop, tell, write
from .argument_parser import Parser, chosen
from .configuration import Configuration, Excluded, Misconfigured
from .folders import meant


class Command(NamedTuple):
    """What is asked for."""

    files: List[str]
    kind: Optional[str]
    """The kind of all documents, whatever their names say."""
    format: str
    """The format of the report."""
    unit: str
    """What columns count."""
    is_unit_left: bool
    """Whether no unit of columns is given, so that the format's counts."""
    fixing: Optional[Fixing]
    """What is written in place of links, if something is."""
    given: Configuration
    """What goes before a project's configuration."""
    stdin_name: Optional[str]
    """The name of the document on standard input."""
    is_by_git: bool
    """Whether a folder's documents are those that Git lists."""
    is_configured: bool
    """Whether a project's configuration counts."""
    jobs: int
    """How many documents are read at once."""
    is_checked: bool
    """Whether links are checked, and not listed."""
    is_quiet: bool
    has_statistics: bool
    """Whether the numbers of faults are wanted in place of the faults."""
    is_zero_for_refused: bool
    """Whether the status is 0 even if links are refused."""
    output: Optional[str]
    """The file that the report is written into, if it isn't standard output."""
    baseline: Optional[str]
    """The file that the faults are to be written into, which are known from then on."""
    known: Dict[str, str]
    """The faults that are known, as a baseline has them."""
    reads: List[str]
    """The files that are read besides documents."""
    colour: str
    """When the report has colours."""
    is_coloured: bool = False
    """Whether it has some."""

    def is_counted(self) -> bool:
        """Whether each fault is wanted besides its report, for what is counted of all or kept as known."""
        return self.has_statistics or self.baseline is not None


Add = Callable[..., Any]
"""What adds an option to a group of them."""

_PROFILES = [it.name.lower() for it in Profile]
_MOST_JOBS = 256

_ABOUT = """\
Checks how the links of HTML, XML, Markdown, reStructuredText, notebooks, books
and feeds are written, and reports each that is refused. Nothing is fetched."""

_SHORT = (
    """\
usage: urlcheck-documents [OPTIONS] FILE..

"""
    + _ABOUT
    + """

  urlcheck-documents site                     check the documents in a folder
  urlcheck-documents --format caret a.html    show each refused link, and what
                                              to write in its place
  urlcheck-documents --gfm README.md          read Markdown as GitHub does
  urlcheck-documents --diff site              show what --fix would write
  urlcheck-documents --fix site               mend the links

--help lists all options.
"""
)
"""What ``-h`` prints."""

_NOTES = """\
In a folder, documents with these extensions are checked:
{}.
Hidden folders and node_modules are left out. The configuration is read from
.urlcheck.toml, or from [tool.urlcheck] of pyproject.toml, in the folder of a
document or above it.

A relative link is checked against the base that its document names, otherwise
against --base, otherwise against {}. To ignore a link, write the
comment 'urlcheck: ignore' on its line or on the line before it.

Exit statuses:
  0  no link is refused
  1  a link is refused
  2  a document can't be read to its end, a folder has no documents, the base is
     refused, or the arguments are wrong
  3  the output can't be written

Examples:
  urlcheck-documents site
  urlcheck-documents --format caret --gfm README.md
  urlcheck-documents --list site | urlcheck lint --located --all -
  gzip -dc sitemap.xml.gz | urlcheck-documents --type xml -
""".format(textwrap.fill(", ".join("." + it for it in ENDS), 79), SOMEWHERE)


def asked(words: List[str]) -> Command:
    """What these words ask for. Raises ``SystemExit`` if they are wrong, and if they asked for help or the version."""
    parser = _parser()
    given = _given(parser, words)
    format = "gnu" if given.format is None else chosen(given.format, list(FORMATS), "format")
    unit = _unit(given.columns, format)
    kind = None if given.kind is None else chosen(given.kind, list(KINDS), "kind", kind_of(given.kind))
    is_checked = _is_checked(parser, given)
    patterns = [name for name in given.ignore if not are_rules(name)]
    known = {} if given.baseline is None else _known(given.baseline)
    return Command(
        files=given.files,
        kind=kind,
        format=format,
        unit=unit,
        is_unit_left=given.columns is None,
        fixing=Fixing(given.unsafe_fixes, given.diff) if given.fix or given.diff else None,
        given=_configured(given, patterns),
        stdin_name=given.stdin_name,
        is_by_git=given.git,
        is_configured=not given.no_config,
        jobs=_jobs(parser, given.jobs),
        is_checked=is_checked,
        is_quiet=given.quiet,
        has_statistics=given.statistics,
        is_zero_for_refused=given.exit_zero or given.write_baseline is not None,
        output=given.output,
        baseline=given.write_baseline,
        known=known,
        reads=patterns,
        colour=chosen(given.color, list(WHENS), "colour choice"),
    )


_OF_CHECKS = "check fix diff unsafe_fixes format select statistics exit_zero baseline write_baseline".split()
"""The options that are about links that are checked."""


def _is_checked(parser: Parser, given: argparse.Namespace) -> bool:
    """Whether links are checked, as they are unless they are listed. (``--check`` says so too, since earlier versions
    needed it.)"""
    for name in _OF_CHECKS if given.list else ():
        if getattr(given, name):
            parser.error("--list checks nothing, so that --{} has no use".format(name.replace("_", "-")))
    if given.unsafe_fixes and not (given.fix or given.diff):
        parser.error("--unsafe-fixes is for --fix and --diff")
    if (given.fix or given.diff) and "-" in given.files:
        parser.error("--fix and --diff are for files, and - is standard input")
    if given.diff and (given.format or given.statistics):
        parser.error("--diff shows what --fix would write, in place of a report")
    if given.statistics and given.format:
        parser.error("--statistics prints counts, so that --format has no use")
    if given.stdin_name is not None and "-" not in given.files:
        parser.error("--stdin-name is for standard input, which - is")
    return not given.list


def _configured(given: argparse.Namespace, patterns: List[str]) -> Configuration:
    """What goes before a project's configuration, with the files of patterns of ignored links. Raises
    ``SystemExit``."""
    profile = None if given.profile is None else chosen(given.profile, _PROFILES, "profile")
    try:
        select = None if given.select is None else rules_of(given.select)
    except NoRule as no_rule:
        raise SystemExit(stop(str(no_rule)))
    return Configuration(
        profile=None if profile is None else Profile[profile.upper()],
        base=given.base,
        ignored=tuple(pattern for name in patterns for pattern in _patterns(name)),
        excluded=tuple(Excluded.by(it) for it in given.exclude),
        format=given.format,
        gfm=given.gfm or None,
        is_empty_taken=given.no_empty or None,
        select=select,
        ignored_rules=rules_of(name for name in given.ignore if are_rules(name)),
    )


def _known(name: str) -> Dict[str, str]:
    """The faults of a baseline. Raises ``SystemExit``."""
    try:
        return baseline.read(name)
    except OSError as error:
        raise SystemExit(stop("{}: can't be read: {}".format(name or "''", reason_of(error))))
    except baseline.NoBaseline as no_baseline:
        raise SystemExit(stop("{}: {}".format(name, no_baseline)))


def with_format(command: Command, project: Configuration) -> Command:
    """A command with the format that a project's configuration names, if none is given. Raises ``Misconfigured``."""
    name = project.format
    if name is None or command.given.format is not None or not command.is_checked:
        return command
    if name not in FORMATS:
        names = " ".join(FORMATS)
        raise Misconfigured("{}: no format is named '{}': there are {}".format(project.file, name, names))
    unit = own_unit(name) if command.is_unit_left else command.unit
    if not takes_unit(name, unit):
        raise Misconfigured("{}: {} doesn't support the column unit {}".format(project.file, name, unit))
    return command._replace(format=name, unit=unit)


def _jobs(parser: Parser, word: str) -> int:
    """How many documents are read at once."""
    if not re.fullmatch("[0-9]{1,3}", word) or not 1 <= int(word) <= _MOST_JOBS:
        parser.error("--jobs is a number from 1 to {}".format(_MOST_JOBS))
    return int(word)


def _processors() -> int:
    """How many processors the program may use."""
    count = os.cpu_count() or 1
    if sys.platform == "linux":
        count = len(os.sched_getaffinity(0))
    return min(count, _MOST_JOBS)


def _given(parser: Parser, words: List[str]) -> argparse.Namespace:
    """What the words give: options are anywhere before ``--``, and after that each word is a FILE."""
    end = words.index("--") if "--" in words else len(words)
    given, unknown = parser.parse_known_intermixed_args(words[:end])
    if unknown:
        parser.no_option(next((it for it in unknown if it.startswith("-")), unknown[0]))
    given.files = [file for word in given.files + words[end + 1 :] for file in meant(word)]
    if not given.files:
        parser.error("there is no FILE; - is standard input")
    return given


def _unit(name: Optional[str], format: str) -> str:
    """What columns count, by its name and the format's. Raises ``SystemExit`` if the format has no word for
    it."""
    unit = own_unit(format) if name is None else chosen(name, list(UNITS), "column unit")
    if not takes_unit(format, unit):
        tell("{} doesn't support the column unit {}".format(format, unit))
        units = " ".join(it for it in UNITS if takes_unit(format, it))
        raise SystemExit(stop("the column units of {}: {}".format(format, units)))
    return unit


def _parser() -> Parser:
    """The parser of the command line. Its help lists the options by groups, in this order."""
    parser = Parser(
        prog="urlcheck-documents",
        usage="urlcheck-documents [OPTIONS] FILE..",
        description=_ABOUT,
        epilog=_NOTES,
        formatter_class=argparse.RawDescriptionHelpFormatter,
        add_help=False,
        allow_abbrev=False,
    )
    helped = "a document, a folder, or - for standard input"
    parser.add_argument("files", nargs="*", metavar="FILE", help=helped)
    _add_of_input(parser.add_argument_group("input").add_argument)
    _add_of_checks(parser.add_argument_group("checks").add_argument)
    _add_of_fixes(parser.add_argument_group("fixes").add_argument)
    _add_of_output(parser.add_argument_group("output").add_argument)
    _add_others(parser.add_argument_group("other").add_argument)
    return parser


def _add_of_input(add: Add) -> None:
    """Adds the options that say which documents are read, and how."""
    helped = "read all documents as this kind: {}; default: by their names"
    add("--type", dest="kind", metavar="KIND", help=helped.format(listed(list(KINDS))))
    helped = (
        "leave out the files and folders in a folder whose name, or whose path in that folder, matches a shell "
        "pattern; may be repeated"
    )
    add("--exclude", action="append", default=[], metavar="PATTERN", help=helped)
    add("--git", action="store_true", help="in a folder, read only the files that Git tracks or doesn't ignore")
    add("--gfm", action="store_true", help="read Markdown as GitHub does: bare addresses are links too")
    helped = "the name of the document on standard input: its extension gives the kind"
    add("--stdin-name", metavar="NAME", help=helped)
    add("--no-config", action="store_true", help="ignore the configuration of the project")
    helped = "how many documents to read at once; default: one for each processor"
    add("--jobs", default=str(_processors()), metavar="N", help=helped)


def _add_of_checks(add: Add) -> None:
    """Adds the options that say by what links are checked, and which faults count."""
    add("--check", action="store_true", help=argparse.SUPPRESS)
    helped = "print the links and check none: lines FILE:LINE:COLUMN:LINK, which 'urlcheck lint --located -' reads"
    add("--list", action="store_true", help=helped)
    add("--base", metavar="URL", help="what relative links are resolved against, unless their document names a base")
    helped = "the profile to check under: {}; default: standard"
    add("--profile", metavar="PROFILE", help=helped.format(listed(_PROFILES)))
    helped = "report violations of these rules only, separated by commas; may be repeated"
    add("--select", action="append", metavar="RULES", help=helped)
    helped = (
        "ignore links that match a regular expression of FILE, which has one per line; or, with RULES as for --select "
        "in place of FILE, violations of these rules; may be repeated"
    )
    add("--ignore", action="append", default=[], metavar="FILE", help=helped)
    add("--no-empty", action="store_true", help="don't report empty links")
    add("--baseline", metavar="FILE", help="don't report the violations in FILE, which --write-baseline wrote")
    add("--write-baseline", metavar="FILE", help="write today's violations into FILE, for --baseline")


def _add_of_fixes(add: Add) -> None:
    """Adds the options that say what is written in place of links."""
    add("--fix", action="store_true", help="mend the links for which a text is offered, and report the others")
    helped = "with --fix or --diff, also mend links for which the text may be another URL than was meant"
    add("--unsafe-fixes", action="store_true", help=helped)
    add("--diff", action="store_true", help="show what --fix would write, as a unified diff")


def _add_of_output(add: Add) -> None:
    """Adds the options that say how links are reported."""
    helped = "how to report refused links: {}; default: gnu"
    add("--format", metavar="FORMAT", help=helped.format(listed(list(FORMATS))))
    helped = "what columns count: {}; default: code-points"
    add("--columns", metavar="UNIT", help=helped.format(listed(list(UNITS))))
    helped = "in place of a report, print how often each rule is violated, and which refused links are repeated"
    add("--statistics", action="store_true", help=helped)
    add("--output", metavar="FILE", help="write the report into FILE")
    helped = "whether gnu and caret have colours: {}; default: auto, which means at a terminal"
    add("--color", default="auto", metavar="WHEN", help=helped.format(listed(list(WHENS))))
    add("--exit-zero", action="store_true", help="exit with 0 even if a link is refused")
    add("-q", "--quiet", action="store_true", help="don't print the counts on standard error")


def _add_others(add: Add) -> None:
    """Adds the options after which nothing is read."""
    add("-h", "--help", action=_Printed, help="print this help, or with -h a short one")
    add("-V", "--version", action=_Printed, const="urlcheck-documents " + version() + "\n", help="print the version")


class _Printed(argparse.Action):
    """An option that prints a text, or the help, long or short, and ends the program. (Argparse's own says nothing if
    that can't be written.)"""

    def __init__(self, option_strings: List[str], dest: str, const: Optional[str] = None, help: str = "") -> None:
        super().__init__(option_strings, argparse.SUPPRESS, 0, const, argparse.SUPPRESS, help=help)

    def __call__(self, parser: argparse.ArgumentParser, *given: object) -> None:
        write((self.const or (_SHORT if given[-1] == "-h" else parser.format_help())).encode())
        flush()
        raise SystemExit(0)


def _patterns(name: str) -> Tuple["re.Pattern[str]", ...]:
    """The regular expressions of a file, one per line; a line that begins with ``#`` is a comment. Raises
    ``SystemExit``."""
    patterns = []
    for number, line in enumerate(_lines(name), 1):
        if line.strip() and not line.startswith("#"):
            try:
                patterns.append(re.compile(line))
            except (re.error, RecursionError, OverflowError) as error:
                raise SystemExit(stop("{}:{}: not a regular expression: {}".format(name, number, error)))
    return tuple(patterns)


def _lines(name: str) -> List[str]:
    """The lines of a file. Raises ``SystemExit`` if it can't be read."""
    try:
        with open(name, "rb") as file:
            return re.split("\r\n|\r|\n", decoded(file.read()).text)
    except OSError as error:
        near = next(filter(None, map(nearest, name.split(","))), None) if error.errno == errno.ENOENT else None
        said = "{}; the nearest rule is {}".format(reason_of(error), near) if near else reason_of(error)
        raise SystemExit(stop("{}: can't be read: {}".format(name or "''", said)))
    except Foreign as foreign:
        line, column = foreign.before.position(len(foreign.before.text))
        raise SystemExit(stop("{}:{}:{}: {}".format(name, line, column, foreign))) from None
