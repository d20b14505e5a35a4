"""Reports by the calls of the package, compared byte by byte with the reports of `lint --located`: each format with each unit
that it has a word for, of links alone and against a base.

    reports.py PROGRAM FILE [PROFILE..]: FILE has lines FILE:LINE:COLUMN:LINK. Any other line is taken for a link, and
    gets a place in a file of a strange name. What `lint` doesn't check is left out.
"""

import itertools
import re
import subprocess
import sys
import tempfile

import urlcheck

NAMES = ("two words.html", "b\u00fccher.html", "a%20b,c;d=e.html", "<&\"'>.html", "//C:\\x.html",
         "e\u0301 \U0001f600.html", "\u202ea")
LOCATED = re.compile(r"(.+?):([1-9][0-9]{0,8}):([1-9][0-9]{0,8}):(.+)\Z", re.S)
MOST = 60_000
BASES = (None, "https://example.com/a/")


def links_of(path):
    """The links of a file, each with its file, its line and its column."""
    with open(path, "rb") as file:
        lines = [line[:-1] if line.endswith(b"\r") else line for line in file.read().split(b"\n")]
    names = itertools.cycle(NAMES)
    for number, line in enumerate(lines, 1):
        try:
            text = line.decode("utf-8")
        except UnicodeDecodeError:
            continue
        if 0 < len(line) <= MOST:
            found = LOCATED.match(text)
            yield found.groups() if found else (next(names), str(number), str(1 + number % 99), text)


def diagnostics_on(links, unit, base, profile):
    """What is wrong with links, with columns in a unit."""
    for file, line, start, text in links:
        answer = urlcheck.check(text, base, profile)
        if not answer:
            line, start = int(line), int(start)
            place = urlcheck.column(text, answer.place, unit, start)
            end = urlcheck.column(text, len(text), unit, start)
            mended = urlcheck.mend(text, base, profile)
            yield urlcheck.Diagnostic(file, line, place, text, answer.rule, answer.place, profile,
                                      mended if isinstance(mended, urlcheck.Mended) else None,
                                      urlcheck.Region(line, start, line, end), base=base)


def reported(diagnostics, form, unit):
    """The package's report, or nothing where it refuses the pair of names."""
    try:
        texts = urlcheck.report(diagnostics, form, unit, wording="options")
    except ValueError:
        return None
    return "".join(texts).encode()


def wanted(program, path, *words):
    """That of `lint`, or nothing where it refuses the words."""
    words = [program, "lint", "--quiet", "--located", *words, path]
    ran = subprocess.run(words, stdout=subprocess.PIPE, stderr=subprocess.DEVNULL, check=False)
    if ran.returncode not in (0, 1, 2):
        sys.exit("FAILED: lint ends with {}".format(ran.returncode))
    return None if ran.returncode == 2 else ran.stdout


def compared(program, path, links, base, name):
    """How many reports on these links are those of `lint`, and how many links they report."""
    profile, words = urlcheck.Profile[name.upper()], ("--profile", name, *(("--base", base) if base else ()))
    held = None if base is None else urlcheck.Base(base, profile)
    reports = 0
    for unit in urlcheck.UNITS:
        diagnostics = list(diagnostics_on(links, unit, held, profile))
        for form in urlcheck.FORMATS:
            found = reported(diagnostics, form, unit)
            written = wanted(program, path, *words, "--format", form, "--columns", unit)
            if found != written:
                sys.exit("FAILED: the package writes another report than lint {} --format {} --columns {}".format(
                    " ".join(words), form, unit))
            reports += found is not None
    return reports, len(diagnostics)


def main(program, path, *names):
    links = list(links_of(path))
    reports = refused = 0
    with tempfile.NamedTemporaryFile() as located:
        located.write("".join("{}:{}:{}:{}\n".format(*it) for it in links).encode())
        located.flush()
        for base, name in itertools.product(BASES, names or ("standard",)):
            more, count = compared(program, located.name, links, base, name)
            reports, refused = reports + more, refused + count
    if not reports or not refused:
        sys.exit("FAILED: nothing is reported")
    print("library: {} reports of the package on {} links are those of `lint --located`".format(reports, len(links)))


if __name__ == "__main__":
    main(*sys.argv[1:])
