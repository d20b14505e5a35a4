"""Texts of each length, for what is read 32 bytes at a time and what is left of that.

    lengths.py vectors FILE      writes the texts as a file of vectors
    lengths.py check PROGRAM     has the program check them in lists, and more with each byte at each place: `links`
                                 what each denotes, `lint` all that is wrong with it. So it is with what JSON has of a
                                 text, and with what `mend` writes in place of one.

What each text denotes, or where and by which rule it is refused, follows from how it is made.
"""

import collections
import itertools
import json
import os
import string
import subprocess
import sys
import tempfile

# What is wrong with no text.
NOTHING = ()
# The lengths around each end of 32 bytes.
LENGTHS = range(71)
# Those of texts that have each byte at each place.
LENGTHS_OF_BYTES = (1, 31, 32, 33, 63, 64, 65, 97)
# Each of these bytes and U+00E9, but for what ends a line.
POINTS = [chr(point) for point in range(128) if point not in (10, 13)] + ["\u00e9"]
# The code points of ASCII that a path, a query or a fragment may have anywhere (URL Standard, section 4.3), and those
# of a host under a scheme that isn't special (section 3.4).
URL_POINTS = frozenset(string.ascii_letters + string.digits + "!$&'()*+,-./:;=?@_~")
HOST_POINTS = URL_POINTS - frozenset("/:?@")
# A path whose segments have many lengths.
SEGMENTS = "/abc/defgh//ijklmn/op/qrs/t/uvwxyz/abcdefg/h/ij/klmnop/qrstuvw/x/yz/abcdefghij"
# What is after letters and escapes of a path, and what is wrong with it: how far after its start, by which rule.
ENDINGS = {
    **{end: NOTHING for end in ("", "%4F", "%c3%A9", "%00a")},
    **{end: (0, "percent") for end in ("%", "%4", "%4g", "%g4", "%zz", "%%41", "%4%41")},
    "%41%": (3, "percent"),
    "^%41": (0, "code-point"),
    "\u00e9%41\u00e9^": (5, "code-point"),
}
# A text, its base or None, the URL that it denotes where it is valid, and all that is wrong with it: places and rules.
Case = collections.namedtuple("Case", "text base url faults")


def valid(text, base, url):
    return Case(text, base, url, NOTHING)


def refused(text, base, *faults):
    return Case(text, base, None, faults)


def labels():
    """Labels of up to 63 code points, and longer ones, in lower and in upper case."""
    for length, letter in itertools.product(range(1, 71), "zZ"):
        text = "http://" + letter * length + "/a"
        yield valid(text, None, text.lower()) if length <= 63 else refused(text, None, (7, "host-domain"))


def names():
    """Names of up to 253 code points, and longer ones. A full stop at the end is the root's, and isn't counted."""
    for length, letter in itertools.product(range(2, 261), "zZ"):
        name = "".join("." if at % 32 == 0 else letter for at in range(1, length + 1))
        text = "http://" + name + "/a"
        is_valid = length <= 253 or (name.endswith(".") and length == 254)
        yield valid(text, None, text.lower()) if is_valid else refused(text, None, (7, "host-domain"))


def hosts_of_references():
    """The same labels after `//`, with each end that may follow them."""
    ends = {"": "/", "/": "/", "?q": "/?q", "#f": "/#f", ":80": ":80/", ".com/a": ".com/a", "./": "./"}
    for length, (end, written) in itertools.product(range(1, 71), ends.items()):
        host = "z" * length
        text = "//" + host + end
        is_valid = length <= 63
        yield (
            valid(text, "https://h/a/b", "https://" + host + written)
            if is_valid
            else refused(text, "https://h/a/b", (2, "host-domain"))
        )


def wrong_places():
    """Letters after each mark, and `^` after them, which is refused where it is; the same beyond ASCII."""
    for length, mark in itertools.product(LENGTHS, "/?#"):
        written = mark if mark == "/" else "/" + mark
        letters = "z" * length
        yield refused("http://h" + mark + letters + "^a", None, (9 + length, "code-point"))
        yield refused("http://h" + mark + "\u00e9" * length + "%4", None, (9 + length, "percent"))
        yield valid("//h" + mark + letters, "https://h/a/b", "https://h" + written + letters)
        yield refused("//h" + mark + letters + "^z", "https://h/a/b", (4 + length, "code-point"))
    for length in LENGTHS:
        yield refused("foo://" + "a" * length + "^/", None, (6 + length, "host-code-point"))


def parts():
    """A part of each length, with nothing that is encoded at its end, and with what is."""
    ends = [
        ("http://h/", "", ""),
        ("http://h:81/", "", ""),
        ("http://h/", "\u00e9", "%C3%A9"),
        ("http://h/?", "'", "%27"),
        ("http://h/#", "\u00e9'", "%C3%A9'"),
        ("urn:", "\u00e9", "%C3%A9"),
    ]
    for length, (prefix, end, encoded) in itertools.product(LENGTHS, ends):
        letters = prefix + "a" * length
        yield valid(letters + end, None, letters + encoded)


def dots():
    """Paths with a dot segment at each place, written out or as `%2e`, and with a segment that begins as one does."""
    for before, after in itertools.product(LENGTHS, LENGTHS):
        if before + after not in LENGTHS:
            continue
        start, end = "http://h" + ("/" + "a" * before if before else ""), "b" * after
        yield valid(start + "/./" + end, None, start + "/" + end)
        yield valid(start + "/%2e/" + end, None, start + "/" + end)
        yield valid(start + "/.c" + end, None, start + "/.c" + end)


def references():
    """References of each length, against a base."""
    written = {"": "http://h/a/", "../": "http://h/", "/": "http://h/", "?": "http://h/a/b?"}
    for length, (prefix, before) in itertools.product(range(1, 71), written.items()):
        letters = "a" * length + "/x.html#f"
        yield valid(prefix + letters, "http://h/a/b", before + letters)


def bases():
    """References against bases of each length: what is after a segment of the base, and after it in the URL."""
    after = [
        ("http://h:81/", "/b?q", "c", "/c"),
        ("http://h/", "/b/c", "../d?r", "/d?r"),
        ("http://h/", "?q", "#f", "?q#f"),
        ("http://h/?", "#f", "", ""),
    ]
    for length, (prefix, end, text, written) in itertools.product(range(1, 71), after):
        letters = prefix + "a" * length
        yield valid(text, letters + end, letters + written)


def marks():
    """Texts cut at the first `?` and the first `#`, as far after the start and from one another as lengths go."""
    between = [0, 1, 7, 14, 15, 16, 29, 30, 31, 32, 33, 61, 62, 63, 64]
    for start, length in itertools.product(LENGTHS, between):
        path, middle = "u:" + "a" * start, "b" * length
        for text in (path + middle, path + "?" + middle + "#??", path + "?" + middle + "??", path + "#" + middle + "?"):
            yield valid(text, None, text)
        yield refused(path + "?" + middle + "#?#", None, (start + length + 5, "code-point"))


def brackets():
    """A port begins after the first `:` that is in no brackets. Two `:` in brackets are an address."""
    for held in LENGTHS:
        host = NOTHING if held == 2 else ((6, "host-ipv6"),)
        inside = "foo://[" + ":" * held
        yield refused(inside, None, (6, "host-ipv6"))
        yield refused(inside + "]x[:]:8x", None, (6, "host-ipv6"), (held + 14, "port-digit"))
        yield refused(inside + "]", None, *host) if host else valid(inside + "]", None, inside + "]")
        yield refused(inside + "]:8:0", None, *host, (held + 10, "port-digit"))
        at = held + 7
        codes = [(at + more, "host-code-point") for more in range(3)]
        yield refused("foo://" + "x" * held + "x[:]:8x", None, *codes, (at + 5, "port-digit"))


def bracketed_hosts():
    """The host of a special URL in brackets, with each end that may follow it, and with a mark in it that ends it."""
    ends = {"": "/", "/": "/", "?q": "/?q", "#f": "/#f", ":81": ":81/", ":80/a": "/a", ":/": "/"}
    for held, (end, written) in itertools.product(LENGTHS, ends.items()):
        text = "http://[" + ":" * held + "]"
        yield valid(text + end, None, text + written) if held == 2 else refused(text + end, None, (7, "host-ipv6"))
    for held, mark in itertools.product(LENGTHS, "/?#"):
        yield refused("http://[" + ":" * held + mark + "]", None, (7, "host-ipv6"), (held + 9, "code-point"))
    for pieces, digits, (end, written) in itertools.product((1, 2, 6, 8), range(1, 5), ends.items()):
        address = ":".join(["a" * digits] * pieces) + ("" if pieces == 8 else "::")
        yield valid("http://[" + address + "]" + end, None, "http://[" + address + "]" + written)


def addresses():
    """IPv4 addresses of each length after a special scheme, with each end that may follow them."""
    ends = {"": "/", "/": "/", "?q": "/?q", "#f": "/#f", ":81": ":81/", ":80/a": "/a", ".": None, "a": None}
    for first, last, (end, written) in itertools.product((1, 12, 123), (0, 45, 255, 256), ends.items()):
        host = "{0}.{0}.{1}.{1}".format(first, last)
        text = "http://" + host + end
        # (after the root's full stop these aren't four numbers, and "256a" isn't a number)
        name = end == "a"
        if name or (last < 256 and written):
            yield valid(text, None, text + "/" if name else "http://" + host + written)
        else:
            yield refused(text, None, (7, "host-number"))


def schemes():
    """A scheme is a letter and then letters, digits and marks before the first `:`; a text without one is a path."""
    for held in LENGTHS:
        scheme = "a" + "+" * held + "::/"
        yield valid(scheme, "http://h/a/b?q", scheme)
        for path in ("1" + "a" * held + ":", "a" + "-" * held + "/:", "a" + "." * held):
            yield valid(path, "http://h/a/b?q", "http://h/a/" + path)


def parts_alike():
    """Links of which each part but the scheme has so many letters, each by itself and as the base of an empty text."""
    for length in range(1, 64):
        link = "http://{0}/{0}?{0}#{0}".format((string.ascii_lowercase * 3)[:length])
        yield valid(link, None, link)
        yield valid("", link, link.partition("#")[0])


def paths():
    """A path of many segments cut off at each length: grown by a segment and shortened by one, as text and as base."""
    for length in range(1, len(SEGMENTS) + 1):
        path = SEGMENTS[:length]
        kept = path[: path.rindex("/")]
        yield valid("http://h" + path, None, "http://h" + path)
        # (the first segment isn't empty)
        if path != "/":
            yield valid("http://h" + path + "/end", None, "http://h" + path + "/end")
            yield valid("http://h" + path + "/end/..", None, "http://h" + path + "/")
            yield valid("http://h" + path + "/..", None, "http://h" + kept + "/")
        for text, url in {"": path, "?q": path + "?q", "end": kept + "/end", ".": kept + "/"}.items():
            yield valid(text, "http://h" + path, "http://h" + url)


def escapes():
    """Letters and escapes of each number after an escape, and after them what is an escape and what isn't one."""
    numbers = [(letters, more) for letters in range(98) for more in (0, 1)]
    numbers += [(letters, more) for letters in range(3) for more in range(2, 34)]
    for (letters, more), (end, fault) in itertools.product(numbers, ENDINGS.items()):
        before = "http://h/%2f" + "a" * letters + "%E2" * more
        if fault:
            yield refused(before + end, None, (len(before) + fault[0], fault[1]))
        else:
            yield valid(before + end, None, before + end)


def paths_before_queries():
    """A path and a query, each of many lengths, before what may not stand in one."""
    for before, after in itertools.product(range(66), (0, 1, 5, 30, 31, 32, 33, 65)):
        units = "http://h/" + "a" * before + "?" + "b" * after
        yield refused(units + "^?", None, (len(units), "code-point"))


def with_point(before, length, place, point):
    """So many letters after a text, but for one code point at a place, and how many letters are after it."""
    return before + "a" * place + point + "a" * (length - place - 1), length - place - 1


def points_of_paths(before, encoded):
    """Each code point at each place of a path or a query, and what of it is written with an escape."""
    for length, point in itertools.product(LENGTHS_OF_BYTES, POINTS):
        for place in range(length):
            text, left = with_point(before, length, place, point)
            if point in URL_POINTS or point in "#\u00e9" or (point == "%" and left >= 2):
                yield valid(text, None, text.replace(point, encoded.get(point, point)))
            else:
                yield refused(text, None, (len(before) + place, "percent" if point == "%" else "code-point"))


def points_of_hosts():
    """The same of a host under a scheme that isn't special, of which some code points are the end."""
    before = "foo://z"
    for length, point in itertools.product(LENGTHS_OF_BYTES, POINTS):
        for place in range(length):
            text, left = with_point(before, length, place, point)
            at = len(before) + place
            if point == ":" and left:
                yield refused(text, None, *((at + more, "port-digit") for more in range(1, left + 1)))
            elif point in HOST_POINTS or point in "/?#\u00e9" or (point == "%" and left >= 2):
                yield valid(text, None, text.replace("\u00e9", "%C3%A9"))
            elif point == ":":
                yield valid(text, None, text[:-1])
            else:
                yield refused(text, None, (at, "percent" if point == "%" else "host-code-point"))


def points():
    """What has each code point at each place: too many for a file of vectors."""
    escape = {"\u00e9": "%C3%A9"}
    return itertools.chain(
        points_of_paths("http://h/z", escape), points_of_paths("http://h/?z", {**escape, "'": "%27"}), points_of_hosts()
    )


def cases():
    hosts = (labels, names, hosts_of_references, brackets, bracketed_hosts, addresses)
    made = (*hosts, wrong_places, parts, dots, references, bases, marks, schemes)
    made += (parts_alike, paths, escapes, paths_before_queries)
    return [case for make in made for case in make()]


def as_vector(case):
    vector = {"input": case.text} if case.base is None else {"input": case.text, "base": case.base}
    if case.faults:
        return {**vector, "place": case.faults[0][0], "rule": case.faults[0][1]}
    return {**vector, "text": case.url}


def answered(program, words, room, listed):
    """What a command prints of a list of texts."""
    path = os.path.join(room, "list")
    with open(path, "w", encoding="utf-8", newline="\n") as out:
        out.writelines(case.text + "\n" for case in listed)
    with open(path, "rb") as given:
        ended = subprocess.run([program, *words], cwd=room, stdin=given, capture_output=True, timeout=120)
    return ended.stdout.decode().splitlines()


def wanted_links(listed):
    """The report of `links` on a list."""
    good = sum(not case.faults for case in listed)
    for number, case in enumerate(listed, start=1):
        yield "{} bad {} {}".format(number, *case.faults[0]) if case.faults else "{} ok {}".format(number, case.url)
    yield "links {} ok {} bad {} differs 0".format(len(listed), good, len(listed) - good)


def is_as_wanted(program, room, base, listed):
    against = [] if base is None else ["--base=" + base]
    found = answered(program, ["links", *against], room, listed)
    wanted = list(wanted_links(listed))
    every = answered(program, ["lint", "--quiet", "--all", *against, "list"], room, listed)
    places = [line.split(": error: ")[0] + " " + line.rpartition("[")[2][:-1] for line in every]
    faults = [
        "list:{}:{} {}".format(number, place + 1, rule)
        for number, case in enumerate(listed, start=1)
        for place, rule in case.faults
    ]
    if found != wanted:
        print("FAILED: links --base", base, next(it for it in itertools.zip_longest(found, wanted) if it[0] != it[1]))
    if places != faults:
        print("FAILED: lint --base", base, next(it for it in itertools.zip_longest(places, faults) if it[0] != it[1]))
    return found == wanted and places == faults


def with_letters(before, count, place, other, end):
    """So many letters between two texts, of which this is in place of one."""
    return before + "".join(other if at == place else "a" for at in range(count)) + end


def is_quoted(program, room):
    """Whether JSON has each text as it writes strings, with what is escaped at each place (RFC 8259, section 7)."""
    written = {'"': '\\"', "\\": "\\\\", "\x1f": "\\u001f", "\u00e9": "\u00e9"}
    rows = [(with_letters("", count, count, "", ""),) * 2 for count in range(70)]
    for count, (point, escape) in itertools.product(range(70), written.items()):
        for place in range(count):
            rows.append((with_letters("", count, place, point, ""), with_letters("", count, place, escape, "")))
    listed = [Case("f:3:1:" + text, None, None, NOTHING) for text, _ in rows]
    found = answered(program, ["lint", "--quiet", "--located", "--format=json", "list"], room, listed)
    wrong = [row for row, line in zip(rows, found) if not line.endswith('"text":"{}"}}'.format(row[1]))]
    if len(found) != len(rows) or wrong:
        print("FAILED: JSON of", len(found), "of", len(rows), "texts", wrong[:3])
    return len(found) == len(rows) and not wrong


def mended_rows():
    """Texts with what takes an edit at each place, and what is written in place of them."""
    before, written = "http://h/{", "http://h/%7B"
    for count in range(15, 60):
        edits = [(count, "", ""), (14, "\t", ""), (count // 2, "\ufdd0", "%EF%B7%90")]
        edits += [(place, *edit) for place in range(count) for edit in ((" ", "%20"), ("\\", "/"))]
        for place, point, edited in edits:
            yield with_letters(before, count, place, point, "b"), with_letters(written, count, place, edited, "b")


def is_mended(program, room):
    """Whether each of them is mended so, as a line, and with a line feed in place of a tab as one text."""
    rows = list(mended_rows())
    found = answered(program, ["mend", "--quiet", "--all-mended"], room, [Case(text, None, None, NOTHING) for text, _ in rows])
    wrong = [row for row, line in zip(rows, found) if line != row[1]]
    for text, written in rows:
        if "\t" in text:
            lines = answered(program, ["mend", "--", text.replace("\t", "\n")], room, [])
            wrong += [] if lines == ["mended same", written] else [(text, lines)]
    if len(found) != len(rows) or wrong:
        print("FAILED: mended", len(found), "of", len(rows), "texts", wrong[:3])
    return len(found) == len(rows) and not wrong


def check(program):
    lists = {}
    for case in itertools.chain(cases(), points()):
        lists.setdefault(case.base, []).append(case)
    with tempfile.TemporaryDirectory() as room:
        answers = [is_as_wanted(program, room, base, listed) for base, listed in lists.items()]
        answers += [is_quoted(program, room), is_mended(program, room)]
    print("lengths: {} lists".format(len(answers)))
    return 0 if answers and all(answers) else 1


if __name__ == "__main__":
    if sys.argv[1] == "vectors":
        with open(sys.argv[2], "w", encoding="utf-8") as out:
            json.dump([as_vector(case) for case in cases()], out)
    else:
        sys.exit(check(os.path.realpath(sys.argv[2])))
