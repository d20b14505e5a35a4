"""The links of documents, where they are: the program ``urlcheck-documents``.

``python3 -m urlcheck.documents FILE..`` (or ``urlcheck-documents FILE..``) checks how they are written, and reports
each that is refused. With ``--list`` it prints a line ``FILE:LINE:COLUMN:LINK`` for each link, as ``rg --vimgrep -o``
does, which ``urlcheck lint --located -`` reads.
"""

import os
import signal
import stat
import sys
from typing import Dict, Iterable, Iterator, List, Optional, Tuple

from ._documents.arguments import Command, asked, with_format
from ._documents.configuration import Configuration, Misconfigured, Project
from ._documents.document import Document
from ._documents.folders import Documents, Entry
from ._documents.limits import limit_memory
from ._documents.run import Counts, Run
from ._documents.screen import Screen
from ._fixes.writing import Output, held_of
from ._reports import baseline
from ._reports.checker import Checker
from ._reports.colours import COLOURED, are_wanted
from ._reports.finding import Report, Writer
from ._reports.report import shows_mended
from ._streams import Unwritable, as_utf8, flush, reason_of, stop, tell, write_nowhere


class Refusal(Exception):
    """Why nothing is read, in the words that are printed."""


def run(words: Optional[List[str]] = None) -> int:
    """Runs the program on these words, and gives its status."""
    command = asked(sys.argv[1:] if words is None else words)
    try:
        return _run(command)
    except (Misconfigured, Refusal) as refused:
        return stop(str(refused))


def _run(command: Command) -> int:
    """Runs the program on what is asked for: first it finds the documents, then what each is checked by, and only then
    is anything read, written or reported. Raises ``Misconfigured``, ``Refusal`` and ``Unwritable``."""
    project = Project(command.is_configured)
    command = with_format(command, project.configuration_of(_current_folder()))
    # (a difference and counts are in place of a report)
    is_reported = not command.has_statistics and not (command.fixing and command.fixing.is_shown)
    command = command._replace(is_coloured=is_reported and _is_coloured(command))
    found = Documents(project, command.given.excluded, command.is_by_git)
    entries = [it for name in command.files for it in found.of(name, command.stdin_name)]
    documents = list(_documents(command, _unwritten(command, project, entries)))
    output, known = _outputs(command)
    screen = Screen(output, command.is_coloured, len(documents), command.is_quiet)
    writer: Writer = screen.write if is_reported else lambda _: None
    with Report(command.format, command.is_coloured, command.unit, writer) as report:
        seen = Run(command, report, screen)
        for document in documents:
            seen.take(document)
        seen.end()
        screen.end()
        report.is_whole = not seen.counts.unread
    if command.has_statistics:
        screen.write(seen.statistics.said().encode("utf-8", "surrogateescape"))
    flush()
    for folder in found.walked:
        seen.compared.has_walked(folder)
    return _ended(command, seen, found, output, known)


def _current_folder() -> str:
    """The current folder. Raises ``Refusal``."""
    try:
        return os.getcwd()
    except OSError as error:
        raise Refusal("the current folder can't be read: {}".format(reason_of(error))) from None


def _documents(command: Command, entries: Iterable[Entry]) -> Iterator[Document]:
    """The documents, each with what it is checked by. Raises ``Misconfigured``."""
    has_mended = shows_mended(command.format) or command.fixing is not None
    held: Dict[str, Tuple[Configuration, Optional[Checker]]] = {}
    for entry in entries:
        if entry.config.file not in held:
            counts = command.given.over(entry.config, "options")
            checker = Checker(counts, has_mended, wording="options") if command.is_checked else None
            held[entry.config.file] = counts, checker
        yield Document(command, entry, *held[entry.config.file])


def _unwritten(command: Command, project: Project, entries: List[Entry]) -> List[Entry]:
    """The documents but for the files that are to be written, which are passed over in folders. Raises ``Refusal`` if
    one is named itself, or is read as something else."""
    given = {"--output": command.output, "--write-baseline": command.baseline}
    files = {option: name for option, name in given.items() if name is not None}
    written = {_identity(name): option for option, name in files.items()}
    if len(written) < len(files):
        raise Refusal("--output and --write-baseline name the same file")
    if not written:
        return entries
    for name in [*command.reads, *project.files()]:
        _refuse(name, written)
    for name in command.files:
        _refuse(name, written)
    return [it for it in entries if it.folder is None or _identity(it.path) not in written]


def _refuse(name: str, written: Dict[object, str]) -> None:
    """Raises ``Refusal`` if a file that is read is to be written."""
    option = written.get(_identity(name))
    if option is not None:
        raise Refusal("{}: is read, so that {} needs another FILE".format(name, option))


def _identity(name: str) -> object:
    """What tells a file from others, by whatever name it is there; of one that isn't, where it would be."""
    held = held_of(name)
    if held is None:
        return os.path.realpath(name)
    return (held.st_dev, held.st_ino) if stat.S_ISREG(held.st_mode) else object()


def _outputs(command: Command) -> Tuple[Optional[Output], Optional[Output]]:
    """The files that the report and the baseline are written into. Raises ``Refusal`` if the
    baseline would replace something else, and ``Unwritable``."""
    report = Output(command.output) if command.output is not None else None
    if command.baseline is None:
        return report, None
    try:
        held = held_of(command.baseline)
        if held is not None and held.st_size and stat.S_ISREG(held.st_mode):
            baseline.read(command.baseline)
    except (OSError, baseline.NoBaseline):
        raise Refusal("{}: isn't a baseline, and isn't written".format(command.baseline)) from None
    return report, Output(command.baseline)


def _is_coloured(command: Command) -> bool:
    """Whether a report has colours: one that people read, on standard output."""
    is_read = command.is_checked and command.format in COLOURED and command.output is None
    return is_read and are_wanted(command.colour, sys.stdout)


def _ended(command: Command, seen: Run, found: Documents, output: Optional[Output], known: Optional[Output]) -> int:
    """Writes the files that are asked for, says what was seen, and gives the status."""
    said = []
    kept = seen.compared.kept()
    gone = len(command.known) - len(kept)
    if output is not None:
        output.end()
    if known is not None:
        known.write(baseline.written(kept + seen.compared.new))
        known.end()
        counts = len(kept), len(seen.compared.new), gone
        said += ["{}: {} kept, {} added, {} gone".format(command.baseline, *counts)] * bool(command.known)
    elif gone:
        said.append("{} of the baseline {} gone".format(_number(gone, "fault"), "is" if gone == 1 else "are"))
    said += ["{}: was left by a run that was killed, and isn't needed".format(it) for it in found.passed.left]
    if not command.is_quiet:
        for line in [*said, *_left(seen.counts), _counted(seen.counts, command) + found.passed.said()]:
            tell(line)
    status = seen.counts.status()
    return 0 if status == 1 and command.is_zero_for_refused else status


def _left(counts: Counts) -> Iterator[str]:
    """What is said of links that aren't fixed."""
    if counts.left:
        why = ", ".join("{1} {0}".format(*it) for it in counts.left.most_common())
        number = sum(counts.left.values())
        yield "{} {} fixed: {}".format(_number(number, "link"), "isn't" if number == 1 else "aren't", why)
    if counts.unsafe:
        more = _number(counts.unsafe, "more link")
        yield "{} could be fixed with --unsafe-fixes, perhaps to another URL".format(more)


def _counted(counts: Counts, command: Command) -> str:
    """The counts, as standard error ends with them."""
    said = [_number(counts.documents, "document"), _number(counts.links, "link")]
    said += ["{} refused".format(counts.refused)] * command.is_checked
    said += ["{} ignored".format(counts.ignored)]
    said += ["{} known".format(counts.known)] * bool(command.known)
    fixing = command.fixing
    if fixing is not None:
        said += ["{} would be fixed".format(counts.shown) if fixing.is_shown else "{} fixed".format(counts.fixed)]
    return ", ".join(said)


def _number(count: int, noun: str) -> str:
    """A count with its noun, in the plural unless it is 1."""
    return "{} {}{}".format(count, noun, "" if count == 1 else "s")


def main() -> None:
    """The program ``urlcheck-documents``. It ends with 1 only if a link is refused."""
    # If one of the three was closed before the start, no other file is to take its number.
    for stream in (sys.stdin, sys.stdout, sys.stderr):
        if stream is None:
            os.open(os.devnull, os.O_RDWR)
    # An interrupt ends it as it ends other programs, without a word.
    signal.signal(signal.SIGINT, signal.SIG_DFL)
    limit_memory()
    as_utf8()
    try:
        status = run()
    except Unwritable as unwritable:
        write_nowhere(1)
        if str(unwritable):
            tell(str(unwritable))
        status = 3
    except Exception as error:
        write_nowhere(1)
        status = stop("failed: {}".format(repr(error)[:_MOST_SHOWN]))
    sys.exit(status)


_MOST_SHOWN = 120
"""How much is shown of what the program fails with."""


if __name__ == "__main__":
    main()
