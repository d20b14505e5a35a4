"""Hostile texts, short and long, which each command checks alike and to the end.

    hostile.py PROGRAM      has the program check them

Every prefix of each text of `tests/vectors/standard.json` is checked, and each of these with one of its code points
replaced by a mark: `lint --all` says all that is wrong, of which `lint` says the first fault, `links` the same or a
URL, and `vectors` passes each with that. None runs out of memory. A unit is repeated in each part up to the limit of
lines, and a million times. What is wrong with such a text, and what it denotes, is worked out by hand from the URL
Standard, sections 4.3 to 4.5.
"""

import collections
import itertools
import json
import os
import subprocess
import sys
import tempfile

PROFILES = ("standard", "wide", "parser")
MARKS = ":/?#[]@\\%"
LINE_BYTES = 65_536

# The texts, by their bases.
VECTORS = os.path.join(os.path.dirname(os.path.abspath(__file__)), "..", "vectors", "standard.json")

# A fault of a unit so often repeated in a part: where the first one is, its rule, and the widest profile by which it is
# one; and where there is one in each repetition, how many code points lie between two of them and how many of them each
# has. `/` at the start of a host or of a reference leaves an empty host, under every profile.
Fault = collections.namedtuple("Fault", "place rule widest step each", defaults=(0, 0))
EMPTY, WIDE, EVERY = "standard", "wide", "parser"
UNITS = ("/", "a/", "%41", "%", "\u00e9", "[", "@", ".", "xn--", "-")
DIGIT = Fault(9, "port-digit", EVERY, 1, 1)
# A part: its base, what is before the unit and after it, and the faults of the units that have some.
PARTS = [
    (None, "http://h/", "", {
        "/": [Fault(9, "first-segment-empty", EMPTY)],
        "%": [Fault(9, "percent", EVERY, 1, 1)],
        "[": [Fault(9, "code-point", EVERY, 1, 1)]}),
    (None, "http://", "/", {
        "/": [Fault(7, "host-missing", EVERY), Fault(8, "first-segment-empty", EMPTY)],
        "[": [Fault(7, "host-ipv6", EVERY)],
        **{unit: [Fault(7, "host-domain", EVERY)] for unit in ("%", "\u00e9", "@", "xn--")},
        **{unit: [Fault(7, "host-domain", WIDE)] for unit in ("%41", ".", "-")}}),
    (None, "http://h:", "/", {
        "/": [Fault(10, "first-segment-empty", EMPTY)],
        "a/": [Fault(9, "port-digit", EVERY)],
        "%41": [DIGIT._replace(step=3)],
        "xn--": [DIGIT._replace(each=4)],
        **{unit: [DIGIT] for unit in ("%", "\u00e9", "[", "@", ".", "-")}}),
    (None, "http://h/?", "", {
        "%": [Fault(10, "percent", EVERY, 1, 1)],
        "[": [Fault(10, "code-point", EVERY, 1, 1)]}),
    ("http://h/a/b?q", "", "", {
        "/": [Fault(2, "host-missing", EVERY), Fault(3, "first-segment-empty", EMPTY)],
        "%": [Fault(0, "percent", EVERY, 1, 1)],
        "[": [Fault(0, "code-point", EVERY, 1, 1)]}),
]
MILLION = 1_000_000

# Long texts and what each denotes, or where it is refused: the default port after many zeros isn't a port, and double
# dots leave an empty segment.
LONG = [
    ("http://h:" + "0" * 1_000 + "80/", "http://h/"),
    ("http://h/" + "../" * 500_000, "http://h/"),
    ("http://h/" + "a" * MILLION, "http://h/" + "a" * MILLION),
    ("http://h/" + "a" * MILLION + "%", (MILLION + 9, "percent")),
    ("http://h:" + "0" * 1_000 + "65536/", (9, "port-range")),
    ("foo://h:" + "9" * 1_000, (8, "port-range")),
    ("http://[" + ":" * 1_000 + "]/", (7, "host-ipv6")),
]


def texts_by_base():
    """The texts of the test vectors, by their bases, or None."""
    lists = {}
    with open(VECTORS, encoding="utf-8") as cases:
        for case in json.load(cases):
            lists.setdefault(case.get("base"), []).append(case["input"])
    return lists


def variants(text):
    """Every prefix of a text, and the text with each of its code points replaced by each mark."""
    for length in range(len(text) + 1):
        yield text[:length]
    for place, mark in itertools.product(range(len(text)), MARKS):
        yield text[:place] + mark + text[place + 1 :]


def ran(program, words, room, listed):
    """The lines that a command prints of a list of texts, where it isn't refused."""
    with open(os.path.join(room, "list"), "w", encoding="utf-8", newline="\n") as out:
        out.writelines(text + "\n" for text in listed)
    with open(os.path.join(room, "list"), "rb") as given:
        # (in an emulator on a busy machine a list takes minutes)
        ended = subprocess.run([program, *words], cwd=room, stdin=given, capture_output=True, timeout=900)
    if ended.returncode not in (0, 1) or ended.stderr:
        raise SystemExit("FAILED: {}: status {}: {}".format(words, ended.returncode, ended.stderr[:100]))
    return ended.stdout.decode().splitlines()


def linted(lines):
    """What lint says of each line: places and rules."""
    found = {}
    for line in lines:
        number, column = line.split(": error: ")[0].split(":")[1:]
        found.setdefault(int(number), []).append((int(column) - 1, line.rpartition("[")[2][:-1]))
    return found


def differing(program, room, words, listed):
    """The texts of which `links` says otherwise than `lint`, or `lint` otherwise than of all, and vectors of what was
    said. Lint passes over an empty line."""
    every = linted(ran(program, ["lint", "--quiet", "--all", *words, "list"], room, listed))
    first = linted(ran(program, ["lint", "--quiet", *words, "list"], room, listed))
    *links, last = ran(program, ["links", *words], room, listed)
    bad, wrong, said = 0, [], []
    for number, (text, line) in enumerate(zip(listed, links, strict=True), start=1):
        _, verdict, rest = line.split(" ", 2)
        if verdict == "bad":
            place, rule = rest.split(" ")
            refusal = (int(place), rule)
            said.append({"input": text, "place": refusal[0], "rule": rule})
            bad += 1
            alike = text == "" or (every.get(number, [None])[0] == refusal and first.get(number) == [refusal])
        else:
            said.append({"input": text, "text": rest})
            alike = verdict == "ok" and number not in every and number not in first
        if not alike:
            wrong.append(text)
    if last != "links {} ok {} bad {} differs 0".format(len(listed), len(listed) - bad, bad):
        wrong.append(last)
    return wrong, said


def passes(program, room, vectors):
    with open(os.path.join(room, "vectors"), "w", encoding="utf-8") as out:
        json.dump(vectors, out, ensure_ascii=False)
    return ran(program, ["vectors", "vectors"], room, []) == ["vectors {0} pass {0} fail 0".format(len(vectors))]


def checks_variants(program, room, base, texts, profile):
    listed = [variant for text in texts for variant in variants(text)]
    words = ["--profile=" + profile] + ([] if base is None else ["--base=" + base])
    wrong, said = differing(program, room, words, listed)
    with_base = {} if base is None else {"base": base}
    if wrong or not passes(program, room, [{**one, **with_base, "profile": profile} for one in said]):
        print("FAILED: variants by", words, wrong[:3])
        return False
    return True


def faults_of(part, unit, count, profile):
    """All that is wrong with a text of a unit so often repeated in a part: places and rules."""
    *_, faults = part
    for fault in faults.get(unit, []):
        if PROFILES.index(profile) <= PROFILES.index(fault.widest):
            for number in range(fault.each * count or 1):
                yield fault.place + fault.step * number, fault.rule


def checks_long_lines(program, room, part, profile):
    """A unit repeated up to the limit of lines has its faults where they were worked out, or none."""
    base, before, after, _ = part
    words = ["--profile=" + profile] + ([] if base is None else ["--base=" + base])
    counts = [(LINE_BYTES - len(before) - len(after)) // len(unit.encode()) for unit in UNITS]
    listed = [before + unit * count + after for unit, count in zip(UNITS, counts)]
    found = [line.split(" ")[1:] for line in ran(program, ["links", *words], room, listed)[:-1]]
    for text, unit, count, answer in zip(listed, UNITS, counts, found, strict=True):
        wanted = list(faults_of(part, unit, count, profile))
        first = answer == ["bad", str(wanted[0][0]), wanted[0][1]] if wanted else answer[0] == "ok"
        lines = ran(program, ["check", "--all", *words, "--", text], room, [])
        every = [line for line in lines if line.startswith("refused ")]
        if not first or every != ["refused {} {}".format(*fault) for fault in wanted]:
            print("FAILED: long lines of", unit, "after", before, "by", profile, answer[:1], answer[1:][-1][:40])
            return False
    return True


def denoted(part, unit, count):
    """The URL that such a text denotes where it is valid (section 4.5): its host in lower case and decoded, its path
    and query encoded. A port that is empty isn't one."""
    base, before, after, _ = part
    if before == "http://":
        unit = unit.replace("%41", "a")
    before = "http://h/a/" if base else before.removesuffix(":")
    return before + unit.replace("\u00e9", "%C3%A9") * count + after


def checks_million(program, room, part, unit):
    """A unit a million times in a part has its first fault where it was worked out, or denotes that URL."""
    base, before, after, _ = part
    given = {"input": before + unit * MILLION + after, "base": base}
    for profile in PROFILES:
        fault = next(faults_of(part, unit, MILLION, profile), None)
        said = {"text": denoted(part, unit, MILLION)} if fault is None else {"place": fault[0], "rule": fault[1]}
        if not passes(program, room, [{**given, "profile": profile, **said}]):
            print("FAILED: a million of", unit, "after", before, "by", profile)
            return False
    return True


def checks_long_texts(program, room):
    """The long texts that are written out, under each profile."""
    cases = []
    for (text, said), profile in itertools.product(LONG, PROFILES):
        wanted = {"text": said} if isinstance(said, str) else {"place": said[0], "rule": said[1]}
        cases.append({"input": text, "profile": profile, **wanted})
    return passes(program, room, cases)


def answers(program, room):
    """Whether each list is checked as it should be, under each profile."""
    for profile in PROFILES:
        for base, texts in texts_by_base().items():
            yield checks_variants(program, room, base, texts, profile)
        for part in PARTS:
            yield checks_long_lines(program, room, part, profile)
    for part, unit in itertools.product(PARTS, UNITS):
        yield checks_million(program, room, part, unit)
    yield checks_long_texts(program, room)


def check(program):
    with tempfile.TemporaryDirectory() as room:
        for number, is_alike in enumerate(answers(program, room), start=1):
            if not is_alike:
                print("FAILED: list", number)
                return 1
    print("hostile: {} lists".format(number))
    return 0


if __name__ == "__main__":
    sys.exit(check(os.path.realpath(sys.argv[1])))
