#!/usr/bin/env python3
"""Has each allocation of each call refused in turn, and compares what it finds with bench/failed_allocations.tsv.

    bench/failed_allocations.py            compares the record, and fails when it differs
    bench/failed_allocations.py --write    writes it

It runs the crate `failed_allocations` by `rt try --fail-alloc 200 --cases`, once for each call, each profile, each text and each n
from 1: the 200th allocation of the process fails, and the driver makes 200 - n allocations before the call, so it is the call's
nth. A run without memory ends with the status 3 and has written whole lines of the answer or nothing; from the first n
on at which no allocation is refused, each run gives the answer that is written here.

The record has a row for each call: the number of its allocations, and its answer, with `\\n` for a line feed. A base is
resolved first, and its allocations count. `run_check` and `run_faults` write to room that they don't allocate. The
interpreter of `rt try` can't run programs that read standard input, so these are runs of the code as it is compiled with
checks.
"""
import pathlib
import re
import subprocess
import sys
import tempfile

FAILS = 200
# A call makes at most so many allocations; one that is in the record is tried with so many more than are written there.
MOST = {"domain": 10, "check": 12, "faults": 14, "resolve": 16, "run_check": 20, "run_faults": 20, "run_links": 60,
        "run_cases": 50}
MORE = 2
ROOT = pathlib.Path(__file__).resolve().parent.parent
RECORD = ROOT / "bench" / "failed_allocations.tsv"
HEADER = "call", "profile", "base", "text", "allocations", "answer"

# The profiles; a text that the wide one takes the parser's one takes too, with the same answers.
PROFILES = "standard", "wide", "parser"
EACH = PROFILES
STANDARD, WIDE, NARROW, PARSER = PROFILES[:1], PROFILES[1:], PROFILES[:2], PROFILES[2:]

# Texts with a base and the profiles, what a check prints of their record, or of their faults, and their path text.
LONG = "https://EXAMPLE.com:443/a/../b?x='y'#\u00e9"
FILE = "file:///C:/d/f"
TEXTS = [
    (EACH, LONG, "", "scheme https\nhost domain example.com\nsegment b\nquery x=%27y%27\nfragment %C3%A9\n", "/a/../b"),
    (EACH, "/x", FILE, "scheme file\nhost empty\nsegment C:\nsegment x\n", "/x"),
    (EACH, "/D:?q", FILE, "scheme file\nhost empty\nsegment D:\nquery q\n", "/D:"),
    (EACH, "/..", FILE, "scheme file\nhost empty\nsegment C:\nsegment \n", "/.."),
    (EACH, "C:/x", FILE, "scheme c\nsegment x\n", "/x"),
    (EACH, "https://b\u00fccher.example/", "",
     "scheme https\nhost domain xn--bcher-kva.example\nsegment \n", "/"),
    (EACH, "http://example.com./", "", "scheme http\nhost domain example.com.\nsegment \n", "/"),
    (EACH, "http://\u00ad/", "", "refused 7 host-domain\n", None),
    (EACH, "a", "http://h/", "scheme http\nhost domain h\nsegment a\n", "a"),
    (STANDARD, "http://x_y/", "http://h/", "refused 7 host-domain\n", None),
    (WIDE, "http://x_y/", "http://h/", "scheme http\nhost domain x_y\nsegment \n", "/"),
    (WIDE, "a", "http://a_b/", "scheme http\nhost domain a_b\nsegment a\n", "a"),
    (STANDARD, "http://h//a", "", "refused 9 first-segment-empty\n", None),
    (WIDE, "http://h//a", "", "scheme http\nhost domain h\nsegment \nsegment a\n", "//a"),
    (WIDE, "b", "http://h//a", "scheme http\nhost domain h\nsegment \nsegment b\n", "b"),
    (WIDE, "..", "http://h//a", "scheme http\nhost domain h\nsegment \n", ".."),
    (STANDARD, "http://a_b//c d", "",
     "refused 7 host-domain\nrefused 11 first-segment-empty\nrefused 13 code-point\n", None),
    (WIDE, "http://a_b//c d", "", "refused 13 code-point\n", None),
    (NARROW, "http://a%2Db/c", "", "refused 7 host-domain\n", None),
    (PARSER, "http://a%2Db/c", "", "scheme http\nhost domain a-b\nsegment c\n", "/c"),
    (PARSER, "http://b%C3%BCcher.example/", "", "scheme http\nhost domain xn--bcher-kva.example\nsegment \n", "/"),
    (PARSER, "http://%31.2/", "", "scheme http\nhost ipv4 1.0.0.2\nsegment \n", "/"),
    (PARSER, "http://256/", "", "refused 7 host-number\n", None),
    (PARSER, "/D:/x", "file://h/C:/d/f", "scheme file\nhost domain h\nsegment D:\nsegment x\n", "/D:/x"),
    (NARROW, "urn:a b", "", "refused 5 code-point\n", None),
    (PARSER, "urn:a b", "", "scheme urn\nopaque a b\n", "a b"),
    (PARSER, "#f", "urn:a ?q", "scheme urn\nopaque a%20\nquery q\nfragment f\n", ""),
    (EACH, "urn:a", "", "scheme urn\nopaque a\n", "a"),
    (EACH, "x", "", "refused 0 no-scheme\n", None),
    (EACH, "http://h:65536/", "", "refused 9 port-range\n", None),
    (EACH, "http://h/a b", "", "refused 10 code-point\n", None),
]
DOMAINS = [
    (EACH, "EXAMPLE.com", "example.com\n"),
    (EACH, "b\u00fccher.example", "xn--bcher-kva.example\n"),
    (EACH, "example.com.", "example.com.\n"),
    (EACH, "\u00ad", "no domain\n"),
    (STANDARD, "A_b", "no domain\n"),
    (WIDE, "A_b", "a_b\n"),
    (NARROW, "A%2db", "no domain\n"),
    (PARSER, "A%2db", "a-b\n"),
    (PARSER, "b%C3%BCcher.example", "xn--bcher-kva.example\n"),
    (PARSER, "a%2Fb", "no domain\n"),
]
LISTS = [
    (STANDARD, "a\n\nhttp://x_y/\n", "http://h/",
     "1 ok http://h/a\n2 ok http://h/\n3 bad 7 host-domain\nlinks 3 ok 2 bad 1 differs 0\n"),
    (WIDE, "a\n\nhttp://x_y/\n", "http://h/",
     "1 ok http://h/a\n2 ok http://h/\n3 ok http://x_y/\nlinks 3 ok 3 bad 0 differs 0\n"),
    (WIDE, "a\nhttp://h//a\nx y\n", "http://a_b/",
     "1 ok http://a_b/a\n2 ok http://h//a\n3 bad 1 code-point\nlinks 3 ok 2 bad 1 differs 0\n"),
    (WIDE, "b\n..\n", "http://h//a", "1 ok http://h//b\n2 ok http://h/\nlinks 2 ok 2 bad 0 differs 0\n"),
    (EACH, LONG + "\nhttps://b\u00fccher.example/\n", "",
     "1 ok https://example.com/b?x=%27y%27#%C3%A9\n2 ok https://xn--bcher-kva.example/\n"
     "links 2 ok 2 bad 0 differs 0\n"),
    (PARSER, "//a%2Db\nurn:a ?q\n", "file://h/C:/x",
     "1 ok file://a-b/\n2 ok urn:a%20?q\nlinks 2 ok 2 bad 0 differs 0\n"),
    (EACH, "/x\n/D:?q\n/..\nC:/x\n", FILE,
     "1 ok file:///C:/x\n2 ok file:///D:?q\n3 ok file:///C:/\n4 ok c:/x\nlinks 4 ok 4 bad 0 differs 0\n"),
]
VECTORS = [
    ('[{"input":"urn:a","text":"urn:a"},{"input":"x","place":0,"rule":"no-scheme"},'
     '{"input":"http://h:65536/","text":"http://h/"}]', "fail 3\nvectors 3 pass 2 fail 1\n"),
]


def calls():
    """Each call with its profile, its base, its text and its answer."""
    for profiles, text, want in DOMAINS:
        for profile in profiles:
            yield "domain", profile, "", text, want
    for profiles, text, base, lines, path in TEXTS:
        for profile in profiles:
            for call, want in answers(lines, path):
                yield call, profile, base, text, want
    for profiles, text, base, want in LISTS:
        for profile in profiles:
            yield "run_links", profile, base, text, want
    for text, want in VECTORS:
        yield "run_cases", "standard", "", text, want


def answers(lines, path):
    """What each call prints of a text, by what a check prints, and by the path's text where the text is valid."""
    if path is None:
        least = lines[:lines.index("\n") + 1]
        return [("check", least), ("faults", lines), ("resolve", least), ("run_check", least), ("run_faults", lines)]
    whole = "valid\n" + lines
    # (of an IPv4 address the driver prints the number)
    record = lines.replace("ipv4 1.0.0.2", f"V4({(1 << 24) + 2})")
    return [("check", f"valid, with the path {path}\n"), ("faults", "no fault\n"), ("resolve", record),
            ("run_check", whole), ("run_faults", whole)]


def tried(cases):
    """The status and the output of the run of each case, by its name."""
    with tempfile.TemporaryDirectory() as room:
        for name, text in cases.items():
            (pathlib.Path(room) / name).write_text(text)
        ran = subprocess.run(
            ["rt", "try", "--fail-alloc", str(FAILS), "--cases", room],
            cwd=ROOT / "crates" / "failed_allocations", capture_output=True, text=True)
    outputs = dict(re.findall(r"^== (\S+)\n(.*?)(?=^== |\Z)", ran.stdout, re.M | re.S))
    statuses = re.findall(r"^case=(\S+) run=ended status=(\d+) ", ran.stderr, re.M)
    found = {name: (int(status), outputs.get(name, "")) for name, status in statuses}
    if len(found) != len(cases):
        sys.exit(f"failed_allocations: {len(found)} of {len(cases)} runs ended\n{ran.stdout[-2000:]}{ran.stderr[-2000:]}")
    return found


def allocations_of(runs, want, what):
    """How many allocations a call makes: the runs up to there want memory, and the others give its answer."""
    count = next((n for n, (status, _) in enumerate(runs) if status != 3), None)
    if count is None:
        sys.exit(f"failed_allocations: {what} makes more than {len(runs)} allocations")
    for n, (status, output) in enumerate(runs, 1):
        whole = want.startswith(output) and output == output[:output.rfind("\n") + 1]
        if (status, output) != (0, want) if n > count else status != 3 or not whole:
            sys.exit(f"failed_allocations: {what}, allocation {n} refused: status {status}, {output!r}, and not {want!r}")
    return count


def main():
    asked = list(calls())
    written = recorded()
    tries = [range(1, written.get(row(*it[:4]), MOST[it[0]]) + MORE + 1) for it in asked]
    cases = {f"{k:03}.{n:03}": f"{FAILS - n}\n{call}\n{profile}\n{base}\n{text}"
             for k, (call, profile, base, text, _) in enumerate(asked) for n in tries[k]}
    found = tried(cases)
    counts = {}
    rows = [HEADER]
    for k, (call, profile, base, text, want) in enumerate(asked):
        runs = [found[f"{k:03}.{n:03}"] for n in tries[k]]
        count = counts[call, profile, text] = allocations_of(runs, want, f"{call} of {text!r}, {profile}")
        rows.append(row(call, profile, base, text, str(count), want))
    for profile in PROFILES:
        if counts["resolve", profile, "http://h/a b"] != counts["check", profile, "http://h/a b"]:
            sys.exit("failed_allocations: resolve makes allocations of its own for a refused text")
    record = "".join("\t".join(cells) + "\n" for cells in rows)
    if "--write" in sys.argv[1:]:
        RECORD.write_text(record)
    elif record != RECORD.read_text():
        sys.exit("failed_allocations: the record differs: bench/failed_allocations.py --write writes it anew")
    print(f"failed_allocations: {len(asked)} calls, {len(cases)} runs")


def recorded():
    """The number of allocations of each call in the record, by the call's cells."""
    rows = [line.split("\t") for line in RECORD.read_text().splitlines()[1:]]
    return {tuple(cells[:4]): int(cells[4]) for cells in rows}


def row(*texts):
    """The cells of a row: each text on one line, with every code point of it to be seen."""
    return tuple(text.replace("\n", "\\n").replace("\u00ad", "\\u00ad") for text in texts)


main()
