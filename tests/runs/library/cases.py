"""Cases for the library, from files of vectors, and what `urlcheck check` says of them.

    cases.py pack CASES VECTORS..          writes the cases of the vectors
    cases.py compare PROGRAM ANSWERS VECTORS..   compares the answers of the library with the program's and the vectors'
    cases.py mended PROGRAM MENDED VECTORS..     compares what the library mends with what `urlcheck mend` does
    cases.py places PLACES VECTORS..       compares where the parts of the valid cases stand with their delimiters

A file of cases has for each case the text and the base, each after its length in four bytes, lowest first; an absent
base has the length 0xFFFFFFFF.
"""

import concurrent.futures
import json
import re
import struct
import subprocess
import sys

ABSENT = 0xFFFFFFFF
# The profiles, by which each case is checked in this order.
PROFILES = ("standard", "wide", "parser")
# Texts besides the vectors: each kind of host, references, places after code points of each length, and empty texts.
MORE = [
    ("", None),
    ("", "http://h/a?q#f"),
    ("x", "http://h/a b"),
    ("http://h/\u00e9\u65e5\U0001f600 b c%", None),
    ("\u00e9\u65e5\U0001f600 %zz", "http://h/"),
    ("//u@h:x/^", "foo://h/"),
    ("HTTPS://EXAMPLE.com:443/a/../\u00e9?\u65e5='#\U0001f600", None),
    ("foo://[::1]:80/", None),
    ("http://x_y//a", None),
    ("//h//a", "http://b_c/"),
    ("http://%C3%A9.\u00e9/\u00e9?q", None),
    ("//%31.2", "http://a%2Db/c"),
    ("/C:/\u00e9", "file://h/D:/x"),
    ("\u00e9: b", None),
    ("urn:\u00e9 b ?\u65e5 ", None),
    ("#\u00e9", "urn: \u00e9 #f"),
    ("file:///C:/..", None),
    ("../\u00e9", "http://h/\u65e5/b?q"),
    ("#\u00e9", "urn:isbn:1"),
    ("a", "urn:isbn:1"),
    ("urn:isbn:0451450523", None),
    ("http://h", None),
    ("http://h:?#", None),
    ("http://h:/\u00e9?#\u00e9", None),
    ("file:///", None),
    ("foo://?#", None),
    ("foo:", None),
    ("?", "http://h/"),
    ("#", "http://h/\u65e5"),
    ("//h", "http://b/"),
]
# The parts of a valid text only by its delimiters (RFC 3986, appendix B, with the host and the port apart).
DELIMITED = re.compile(
    rb"(?:(?P<scheme>[A-Za-z][A-Za-z0-9+.-]*):)?"
    rb"(?://(?P<host>\[[^\]]*\]|[^:/?#]*)(?::(?P<port>[^/?#]*))?)?"
    rb"(?P<path>[^?#]*)(?:\?(?P<query>[^#]*))?(?:#(?P<fragment>.*))?",
    re.S,
)


def cases_of(paths):
    """The cases of the vectors and then those above, each as text, base, and what the vectors want of it by which
    profile."""
    found = []
    for path in paths:
        for case in json.load(open(path, encoding="utf-8")):
            answer = case["text"] if "text" in case else (case["place"], case["rule"])
            found.append((case["input"], case.get("base"), (case.get("profile", PROFILES[0]), answer)))
    return found + [(text, base, None) for text, base in MORE]


def packed(text):
    return struct.pack("<I", ABSENT) if text is None else struct.pack("<I", len(text.encode())) + text.encode()


def unpacked(path):
    """The cases of a file of cases."""
    data = open(path, "rb").read()
    texts = []
    at = 0
    while at < len(data):
        (length,) = struct.unpack_from("<I", data, at)
        at += 4
        texts.append(None if length == ABSENT else data[at : at + length].decode())
        at += 0 if length == ABSENT else length
    return zip(texts[::2], texts[1::2])


def record_text(lines):
    """The text of a record (URL Standard, section 4.5) of which these are the program's lines."""
    words = [line.partition(" ") for line in lines]
    first = {name: rest for name, _, rest in reversed(words)}
    segments = [rest for name, _, rest in words if name == "segment"]
    text = first["scheme"] + ":"
    if "host" in first:
        text += "//" + first["host"].partition(" ")[2]
        text += ":" + first["port"] if "port" in first else ""
    elif len(segments) > 1 and segments[0] == "":
        text += "/."
    text += first["opaque"] if "opaque" in first else "".join("/" + segment for segment in segments)
    text += "?" + first["query"] if "query" in first else ""
    return text + ("#" + first["fragment"] if "fragment" in first else "")


def said(program, case, profile):
    """What the program says of a case, in the form of the beginning and of the record of a line of answers."""
    text, base, _ = case
    words = [program, "check", "--profile", profile] + ([] if base is None else ["--base=" + base]) + ["--", text]
    run = subprocess.run(words, capture_output=True, timeout=600)
    lines = run.stdout.decode().split("\n")[:-1]
    if run.returncode == 0:
        return ("0", record_text(lines[1:]))
    if run.returncode == 1:
        return ("1", lines[0].partition(" ")[2])
    return ("3", run.stderr.decode().splitlines()[-1].replace("base refused ", ""))


def answered(line):
    """The same of a line of answers."""
    fields = line.split("\t")
    if fields[0] == "0":
        return ("0", fields[7])
    verdict, place, _, rule = fields[0].split(" ")
    return (verdict, place + " " + rule)


def is_wanted(wanted, profile, answer):
    """Whether an answer by a profile is the one that the vectors want, where they want one by it."""
    if wanted is None or wanted[0] != profile:
        return True
    _, other = wanted
    return answer == (("0", other) if isinstance(other, str) else ("1", "{} {}".format(*other)))


def compare(program, answers, paths):
    cases = cases_of(paths)
    lines = open(answers, encoding="utf-8", newline="\n").read().split("\n")[:-1]
    asked = [(case, profile) for case in cases for profile in PROFILES]
    with concurrent.futures.ThreadPoolExecutor() as pool:
        wanted = list(pool.map(lambda one: said(program, *one), asked))
    bad = [
        (case, profile, line, word)
        for (case, profile), line, word in zip(asked, lines, wanted)
        if answered(line) != word or not is_wanted(case[2], profile, answered(line))
    ]
    for one in bad[:20]:
        print("FAILED:", one)
    print("library: {} cases in three profiles, {} differences from `urlcheck check`".format(len(cases), len(bad)))
    return 0 if not bad and len(lines) == len(asked) else 1


def mended(program, case, profile):
    """What the program says of mending a case, in a line."""
    text, base, _ = case
    words = [program, "mend", "--profile", profile] + ([] if base is None else ["--base=" + base]) + ["--", text]
    run = subprocess.run(words, capture_output=True, timeout=600)
    if run.returncode < 2:
        return run.stdout.decode().rstrip("\n").replace("\n", "\t")
    return run.stderr.decode().splitlines()[-1]


def compare_mended(program, answers, paths):
    lines = open(answers, encoding="utf-8", newline="\n").read().split("\n")[:-1]
    asked = [(case, profile) for case in cases_of(paths) for profile in PROFILES]
    with concurrent.futures.ThreadPoolExecutor() as pool:
        wanted = list(pool.map(lambda one: mended(program, *one), asked))
    bad = [(one, line, word) for one, line, word in zip(asked, lines, wanted) if line != word]
    for one in bad[:20]:
        print("FAILED:", one)
    kinds = {line.partition("\t")[0] for line in lines}
    print("library: {} texts mended, {} otherwise than by `urlcheck mend`".format(len(lines), len(bad)))
    return 0 if not bad and len(lines) == len(asked) and {"valid", "none", "mended same"} <= kinds else 1


def places_of(text):
    """Returns the parts of a valid text in its bytes: each with its name, its start and its length."""
    found = DELIMITED.fullmatch(text.encode())
    spans = {name: found.span(name) for name in ("scheme", "host", "port", "path", "query", "fragment")}
    return "".join("{} {} {} ".format(name, at, end - at) for name, (at, end) in spans.items() if at >= 0)


def compare_places(answers, paths):
    lines = open(answers, encoding="utf-8").read().split("\n")[:-1]
    asked = [text for text, _, _ in cases_of(paths) for _ in PROFILES]
    valid = [(text, line) for text, line in zip(asked, lines) if line]
    bad = [(text, line) for text, line in valid if line != places_of(text)]
    for one in bad[:20]:
        print("FAILED:", one)
    empty = sum(line.count(" 0 ") for _, line in valid)
    print("library: {} valid texts, {} with parts at other places".format(len(valid), len(bad)))
    return 0 if not bad and len(lines) == len(asked) and valid and empty else 1


if __name__ == "__main__":
    if sys.argv[1] == "mended":
        sys.exit(compare_mended(sys.argv[2], sys.argv[3], sys.argv[4:]))
    if sys.argv[1] == "places":
        sys.exit(compare_places(sys.argv[2], sys.argv[3:]))
    if sys.argv[1] == "pack":
        with open(sys.argv[2], "wb") as out:
            for text, base, _ in cases_of(sys.argv[3:]):
                out.write(packed(text) + packed(base))
    else:
        sys.exit(compare(sys.argv[2], sys.argv[3], sys.argv[4:]))
