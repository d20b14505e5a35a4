"""Located lines, made and read: what `urlcheck lint --located` wrote in each format is found by readers of its own formats,
at the column of a link and so many more as its place in a plain list of links.

    located_readers.py DIR make: writes DIR/located.txt and DIR/alone.txt, the same links without their places.
    located_readers.py DIR read: in DIR stand located.FORMAT, alone.json and alone.caret.
"""

import json
import re
import sys
from urllib.parse import unquote
from xml.etree import ElementTree

directory, step = sys.argv[1:]
HIDDEN = re.compile("[\0-\x08\n-\x1f\x7f-\x9f\u061c\u200e\u200f\u2028-\u202e\u2066-\u2069]")
# The form, by another reader than the program's: the shortest name before a run of two numbers.
FORM = re.compile(r"(.*?):([0-9]+):([0-9]+):(.*)", re.DOTALL)

NAMES = ["plain.html", "a,b:c%d.txt", "<&\"'>.txt", "\x1b[2J\u202e.txt", "C:\\x.html", "two words", "b\u00fccher", "//host/x",
         "https://h/p", "a:1:b", "x\ry", "::", "1:2", "-"]
LINKS = ["http://h/", "", "http://h/a b", "\x1b[2Jhttp://h/", "http://h/]]>", "::error file=a,line=1::x", "3:4:x",
         'http://h/"><b>&amp;\'', "http://h/a\rb c", "http://h/\u202eabc", "http://h/\u4e2d\u6587e\u0301\uff21 \U0001f600<", "%0A%25",
         "http://h/100%", "http://h:81:82:/", "http://h/" + "a" * 3000 + " b", "urn:\x00\x7f\x85", "http://u@h/"]
PLACES = [("1", "1"), ("12", "34"), ("007", "010"), ("4294967295", "4294967295")]
OTHERS = ["http://h/", "a.html:3:x", "a.html:3:4", ":1:2:x", ":1:2:3:4:x", "a:0:1:x", "a:1:0:x", "a:1:00:x", "a:4294967296:1:x",
          "a:1:4294967296:x", "a:1:99999999999999999999999:x", "a:0:1:2:3:x", "a:+1:2:x", "a: 1:2:x", "a:1:2.0:x",
          "a:\u0661:2:x", "x"]


def lines():
    """Each line, and whether it says where a link is."""
    for number, name in enumerate(NAMES):
        for index, link in enumerate(LINKS):
            line, column = PLACES[(number + index) % len(PLACES)]
            yield f"{name}:{line}:{column}:{link}", True
    for line in OTHERS:
        yield line, False


# LINE and COLUMN, by another reader than the program's: what is between colons, or between one and the end.
NUMBER = re.compile(r"[0-9]+")
RANGE = "isn't from 1 to 4294967295"


def reason(line):
    """Why a line doesn't say where its link is."""
    form = FORM.match(line)
    if form and not form[1]:
        return "FILE is empty"
    if form:
        return f"LINE {RANGE}" if not 0 < int(form[2]) < 2 ** 32 else f"COLUMN {RANGE}"
    parts = line.split(":")
    first = next((index for index, part in enumerate(parts) if index and NUMBER.fullmatch(part)), None)
    if first is None:
        return "LINE is missing"
    return "LINK is missing" if len(parts) == first + 2 and NUMBER.fullmatch(parts[-1]) else "COLUMN is missing"


def make():
    with open(f"{directory}/located.txt", "wb") as located, open(f"{directory}/alone.txt", "wb") as alone:
        for line, is_located in lines():
            located.write(line.encode() + b"\n")
            # Alone, an empty link would be an empty line, which isn't checked.
            alone.write((FORM.match(line)[4] if is_located else "").encode() + b"\n")
        located.write(b"a:1:2:\xff\n\xff:1:2:x\n" + b"y" * 65537 + b"\n")


def read(kind):
    return open(f"{directory}/{kind}", "rb").read().decode()


def shown(text):
    return HIDDEN.sub("\ufffd", text)


def xml_shown(text):
    return re.sub("[\0-\x08\x0b\x0c\x0e-\x1f\ufffe\uffff]", "\ufffd", text)


def wanted():
    """What is to be found: file, line, column, rule and sentence."""
    found = {}
    for entry in read("alone.json").split("\n")[:-1]:
        one = json.loads(entry)
        found.setdefault(one["line"], []).append((one["column"] - 1, one["rule"], one["message"]))
    count = 0
    for count, (line, is_located) in enumerate(lines(), 1):
        if not is_located:
            yield "located.txt", count, 1, "not-located", f"this line isn't FILE:LINE:COLUMN:LINK, since {reason(line)}"
            continue
        name, number, column, link = FORM.match(line).groups()
        places = found.get(count, []) if link else [(0, "no-scheme", "the text is empty")]
        for place, rule, sentence in places:
            yield name, int(number), int(column) + place, rule, sentence
    yield "a", 1, 2, "not-utf8", "this line isn't UTF-8"
    yield "located.txt", count + 2, 1, "not-utf8", "this line isn't UTF-8"
    yield "located.txt", count + 3, 1, "line-too-long", "this line has more than 65536 bytes"


def gnu(text):
    form = re.compile(r"^(.+?):([0-9]+):([0-9]+): error: (.+) \[([a-z0-9-]+)\]$")
    assert not HIDDEN.search(text.replace("\n", "")), "a control"
    for line in text.split("\n")[:-1]:
        m = form.match(line)
        yield m[1], int(m[2]), int(m[3]), m[5], m[4]


def of_json(text):
    for line in text.split("\n")[:-1]:
        one = json.loads(line)
        yield one["file"], one["line"], one["column"], one["rule"], one["message"]


def github(text):
    command = re.compile(r"^::error file=([^,:]*),line=([0-9]+),col=([0-9]+),title=([^,:]*)::(.*)$")
    message = lambda part: part.replace("%0D", "\r").replace("%0A", "\n").replace("%25", "%")
    value = lambda part: message(part.replace("%3A", ":").replace("%2C", ","))
    for line in text.split("\n")[:-1]:
        m = command.match(line)
        yield value(m[1]), int(m[2]), int(m[3]), value(m[4]), message(m[5])


def sarif(text):
    for result in json.loads(text)["runs"][0]["results"]:
        place = result["locations"][0]["physicalLocation"]
        region = place["region"]
        name = unquote(place["artifactLocation"]["uri"], errors="strict")
        yield name, region["startLine"], region["startColumn"], result["ruleId"], result["message"]["text"]


def checkstyle(text):
    for file in ElementTree.fromstring(text):
        assert len(file) == 1, "an element of a file has one diagnostic"
        for error in file:
            yield (file.get("name"), int(error.get("line")), int(error.get("column")),
                   error.get("source")[len("urlcheck."):], error.get("message"))


def junit(text):
    for suite in list(ElementTree.fromstring(text))[:-1]:
        passed, failed = suite
        assert not len(passed), "the test of a file fails"
        line, column, rule = re.match("([0-9]+):([0-9]+) (.*)$", failed.get("name")).groups()
        yield suite.get("name"), int(line), int(column), rule, failed[0].get("message")


def gitlab(text):
    for one in json.loads(text):
        yield one["location"]["path"], one["location"]["lines"]["begin"], one["check_name"], one["description"]


def rdjson(text):
    for one in json.loads(text)["diagnostics"]:
        place = one["location"]
        yield place["path"], place["range"]["start"]["line"], one["code"]["value"], one["message"]


def blocks(text):
    """The lines of each diagnostic with a caret: the line of gnu, the link, the caret, and what to write, if that is there."""
    rows = text.split("\n")[:-1]
    while rows:
        count = 4 if len(rows) > 3 and rows[3].startswith(("help: write ", "note: ")) else 3
        count = 1 if rows[0].endswith(" [line-too-long]") else count
        yield rows[:count]
        rows = rows[count:]


def mended():
    """What is offered in place of plain links, by the line."""
    return {one["line"]: one["mended"] for one in map(json.loads, read("alone.json").split("\n")[:-1]) if one.get("offered")}


def wanted_fixes():
    """What is to be written in place of the located links: file, line, the columns between which the link is, text."""
    by_line = mended()
    for count, (line, is_located) in enumerate(lines(), 1):
        if count in by_line:
            name, number, column, link = FORM.match(line).groups()
            yield name, int(number), int(column), int(column) + len(link), by_line[count]


def fixes(text):
    for result in json.loads(text)["runs"][0]["results"]:
        for fix in result.get("fixes", []):
            (change,) = fix["artifactChanges"]
            (replacement,) = change["replacements"]
            region = replacement["deletedRegion"]
            name = unquote(change["artifactLocation"]["uri"], errors="strict")
            yield name, region["startLine"], region["startColumn"], region["endColumn"], replacement["insertedContent"]["text"]


def read_all():
    want = list(wanted())
    assert len(want) > 300, len(want)
    terminal = [(shown(one[0]),) + one[1:] for one in want]
    xml = [(xml_shown(one[0]),) + one[1:4] + (xml_shown(one[4]),) for one in want]
    # (GitLab's issues have no column, and reviewdog's columns are bytes)
    lines_alone = [one[:2] + one[3:] for one in want]
    failed = []
    for kind, reader, expected in [("gnu", gnu, terminal), ("json", of_json, want), ("github", github, want),
                                   ("sarif", sarif, want), ("checkstyle", checkstyle, xml),
                                   ("junit", junit, xml), ("gitlab", gitlab, lines_alone), ("rdjson", rdjson, lines_alone)]:
        try:
            found = list(reader(read(f"located.{kind}")))
        except Exception as error:
            failed.append(f"{kind}: {error!r}")
            continue
        if found != expected:
            other = [pair for pair in zip(found, expected) if pair[0] != pair[1]][:2]
            failed.append(f"{kind}: {len(found)} diagnostics of {len(expected)}: {other}")
    # The lines of a caret: only the link, with the caret below its place and what to write, as in the plain list of links.
    rows = list(blocks(read("located.caret")))
    if [row[0] for row in rows] != read("located.gnu").split("\n")[:-1]:
        failed.append("caret: other diagnostics")
    links = [row[1:] for row, one in zip(rows, want) if one[0] != "located.txt" and row[1]]
    if links[:-1] != [row[1:] for row in blocks(read("alone.caret"))]:
        failed.append("caret: other links")
    found = list(fixes(read("located.sarif")))
    if found != list(wanted_fixes()) or len(found) < 50:
        failed.append(f"sarif: {len(found)} fixes")
    written = [one["mended"] for one in map(json.loads, read("located.json").split("\n")[:-1]) if one.get("offered")]
    if written != [one[4] for one in found]:
        failed.append(f"json: {len(written)} mended texts")
    print("\n".join(failed))
    return 1 if failed else 0


sys.exit(make() if step == "make" else read_all())
