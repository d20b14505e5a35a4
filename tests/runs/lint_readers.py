"""Reads what `urlcheck lint` wrote in each format by readers that aren't its own: they find the same diagnostics.

    lint_readers.py DIR FILE..: in DIR stand hostile.FORMAT, of these FILEs, and none.FORMAT, of files without a fault.
"""

import hashlib
import json
import re
import sys
import unicodedata
from urllib.parse import quote, unquote, urlsplit
from xml.etree import ElementTree

directory, names = sys.argv[1], sys.argv[2:]
HIDDEN = re.compile("[\0-\x08\n-\x1f\x7f-\x9f\u061c\u200e\u200f\u2028-\u202e\u2066-\u2069]")
failures = []


def want(is_so, what):
    if not is_so:
        failures.append(what)


def read(kind):
    return open(f"{directory}/{kind}", "rb").read().decode()


def shown(text):
    return HIDDEN.sub("\ufffd", text)


def copied(text):
    """A URL that is the same where what a terminal isn't shown is percent-encoded."""
    return HIDDEN.sub(lambda point: quote(point[0]), text)


def window(text, place):
    """What is shown of a line, and where the place is in it."""
    if len(text) <= 200:
        return text, place
    start = max(0, place - 99)
    part = ("…" if start else "") + text[start:start + 198] + ("…" if len(text) > start + 198 else "")
    return part, part.index(text[start:start + 198]) + place - start


def xml_shown(text):
    """What XML 1.0 can't hold is as U+FFFD."""
    return re.sub("[\0-\x08\x0b\x0c\x0e-\x1f\ufffe\uffff]", "\ufffd", text)


# A first reader of the files themselves: which lines they have.
lines = {}
for name in names:
    lines[name] = open(f"{directory}/{name}", "rb").read().split(b"\n")[:-1]

# JSON: an object per line, with these members and no others; a link of more than 2,000 code points is cut. The sentence
# of some rules names the code point at the column.
POINT = re.compile("^U\\+([0-9A-F]{4,6}) ?(.*) (is not allowed in a URL|is not allowed in a host|is not allowed in a port"
                   "|has to be followed by two hex digits)$")


# A mended text is at the first diagnostic of its line. What its kind means, as the fixes of SARIF say it.
NAMED = {"same": "note: the same URL, written validly, is ", "escaped": "note: the same text, percent-encoded, is ",
         "changed": "note: a valid URL string that is near it is "}
KINDS = {"same": "write the same URL as a valid URL string", "escaped": "percent-encode what is not allowed in a URL string",
         "changed": "write a valid URL string, which may be another URL"}


def names_point(sentence, c):
    m = POINT.match(sentence)
    if not m or m[1] != f"{ord(c):04X}":
        return False
    if ord(c) < 128:
        return unicodedata.lookup(m[2]) == c
    if "\ufdd0" <= c <= "\ufdef" or ord(c) % 0x10000 >= 0xFFFE:
        return m[2] == "<noncharacter>"
    return m[2] == ("" if HIDDEN.match(c) else c)


# What a text shows that its author meant, as the sentence says it after what is wrong.
TEMPLATE = "; this looks like a template: check what it makes"
WINDOWS = "; this looks like a path of Windows, whose URL begins with file:///"
TWICE = "; this has two schemes: write one of them"
READ_AS = "; what is before : is read as a scheme: write http:// before a host"
PERHAPS = "; perhaps http or https is meant"
LATER = "; a link begins after a space: write it by itself"
AFTER = "; this looks like text after a link: write the link by itself"
HTML = "; this looks like HTML: check the links in it"
ESCAPE = "; %u isn't an escape of URLs: write those of UTF-8"
JOINED = ("; write one slash", "; write one slash, or use --profile wide")
SCHEME = "(?:https?|ftp|wss?|file)"


# What only templates have, with what closes it; and what else is in one, but for code. Variables of Windows have two percent
# signs, and a single letter after one is what is left of an escape.
SURE = [("{{", "}}"), ("{%", "%}"), ("${", "}"), ("<%", "%>"), ("<?php", ""), ("<?=", ""), ("<!--#", ""), ("[%", "%]"),
        ("*|", "|*"), ("[[", "]]")]
MARK = re.compile(r"%\(|%[sd](?![A-Za-z0-9])|%(?s:.*)%%|\$[A-Z(]|<(?:%|[A-Za-z][A-Za-z0-9_-]*>(?![A-Za-z0-9]))"
                  r"|\[[A-Z][A-Z0-9_]*\]|\A[^|]*\|[A-Z][A-Z0-9_]*\|(?![A-Za-z0-9])"
                  r"|\A[^@]*@(?:[A-Z][A-Z0-9_]*@|@(?s:.*)@@)|@(?:[A-Z][A-Za-z0-9_.]*)?\(")
PORT = re.compile(r"\A[^/]*/[^/]*/[^/?#:]*:[Pp][Oo][Rr][Tt](?=[/?#]|\Z)")
HOST = re.compile(r"\A[^/]*/[^/]*/(?=[^/?#:]*_)[A-Z0-9_]+(?=[/?#:]|\Z)")
VARIABLE = re.compile(r"%(?![0-9A-Fa-f]{2})[A-Z][A-Z0-9_]+(?=%|\Z)")
CODE = re.compile(r"(?:data|javascript)(?::|\Z)", re.I)
# What is before the first space if it may well be a whole link, and what comes after it.
WHOLE = re.compile(rf"{SCHEME}:(?:[^?# ]*(?:/|\.(?-i:html?|pdf|php))|[^/?# ]*/[^/?# ]*/[^/?# ]*\.[^/?# ]*) (.*)", re.A | re.I | re.S)
# An escape that is cut off.
CUT = re.compile("%[0-9A-Fa-f](?=%|\\Z)")
# The schemes whose paths have rules of their own.
RULED = "(?:mailto|tel|sms|sips?|xmpp|geo|about|view-source|urn):"


def is_template(text):
    is_code = CODE.match(text)
    if PORT.match(text) or HOST.match(text) or any(mark in text and end in text for mark, end in (SURE[:-1] if is_code else SURE)):
        return True
    if is_code:
        return False
    return ("{" in text and '{"' not in text) or MARK.search(text) or (text.count("%") > 1 and VARIABLE.search(text))


def meant(text):
    if re.match("<(?:[A-Za-z0-9_-]* |.*</|/)", text):
        return HTML
    if is_template(text):
        return TEMPLATE
    if re.match(r"[A-Za-z]:[\\/]|\\\\(?s:.)", text):
        return WINDOWS
    if re.match(f"{SCHEME}:/{{0,2}}{SCHEME}:?//", text, re.A | re.I):
        return TWICE
    if re.match(r"(?:(?i:localhost)|[A-Za-z](?=[^:]*\.)[A-Za-z0-9.-]*):[0-9]+(?:[/?#]|\Z)", text):
        return READ_AS
    if re.match("(?!https?:)(?=[hps]*t)(?=[hts]*p)[htps]+://", text):
        return PERHAPS
    if re.search(r"\A[^ ].* (?:https?://|www\.)", text, re.S):
        return LATER
    whole = WHOLE.fullmatch(text)
    words = whole[1].removesuffix(".") if whole else ""
    if len(re.findall("[^ ]+", words)) > 1 and not re.search("[/.]", words):
        return AFTER
    return ESCAPE if re.search("%u[0-9A-Fa-f]", text) else ""


def is_offered(text, instead):
    host = re.match("[^/]*/[^/]*/([0-9][0-9.]*)(?=[/?#:]|\\Z)", instead)
    path = re.split("[?#]", instead)[0] if re.match(RULED, instead, re.I) else ""
    return not (meant(text) or CUT.search(text) or ("/./" in instead and "/./" not in text) or (host and host[1] not in text) or path not in text)


def text_of(one):
    raw = lines[one["file"]][one["line"] - 1]
    return "" if len(raw) > 65536 else raw.decode(errors="replace")


def foreign_place(raw):
    """How many code points are before the first byte that isn't UTF-8."""
    try:
        raw.decode()
    except UnicodeDecodeError as error:
        return len(raw[:error.start].decode())


found, texts, mended = [], [], []
for entry in read("hostile.json").split("\n")[:-1]:
    one = json.loads(entry)
    members = ["column", "cut", "file", "line", "message", "rule", "text"]
    if "mended" in one:
        members += ["kind", "mended", "offered"]
        want(one["offered"] is is_offered(text_of(one), one["mended"]), f"json: offered of line {one['line']}")
        want(not found or found[-1][:2] != (one["file"], one["line"]), f"json: line {one['line']} is mended twice")
        want(one["kind"] in KINDS, f"json: the kind {one['kind']}")
    want(sorted(one) == sorted(members), f"json: members {sorted(one)}")
    mended.append((one["kind"], one["mended"], one["offered"]) if "mended" in one else None)
    found.append((one["file"], one["line"], one["column"], one["rule"], one["message"]))
    text, place = text_of(one), one["column"] - 1
    texts.append(text)
    want(one["cut"] is (len(text) > 2000), f"json: the cut of line {one['line']}")
    want(one["text"] == (window(text, place)[0] if one["cut"] else text), f"json: the text of line {one['line']}")
    want(0 <= place <= len(text), f"json: column {one['column']} of line {one['line']}")
    if one["rule"] in ("code-point", "host-code-point", "port-digit", "percent"):
        want(names_point(one["message"].split("; ")[0], text[place]), f"json: {one['message']} of line {one['line']}")
        want(one["message"].endswith(meant(text)), f"json: {one['message']} of line {one['line']}")
    elif one["rule"] not in ("not-utf8", "line-too-long"):
        note = meant(text) or (JOINED if one["rule"] == "first-segment-empty" else "")
        want(one["message"].endswith(note), f"json: {one['message']} of line {one['line']}")
    if one["rule"] == "not-utf8":
        want(place == foreign_place(lines[one["file"]][one["line"] - 1]), f"json: column {one['column']} of line {one['line']}")
want(len(found) > 14 * len(names), f"json: {len(found)} diagnostics")
want(sum(bool(it) for it in mended) > 5 * len(names), f"json: {sum(bool(it) for it in mended)} mended texts")
want(all(one[3] not in ("not-utf8", "line-too-long") for one, it in zip(found, mended) if it), "json: no text is mended")
want([name for name in names if name in {one[0] for one in found}] == names, "json: the names of the files")
want(found == sorted(found, key=lambda one: (names.index(one[0]), one[1])), "json: the order")
rules = {one[3] for one in found}
want({"not-utf8", "line-too-long", "code-point", "percent", "no-scheme"} <= rules, f"json: the rules {rules}")

# What a report carries of each text: the whole of it, or where it is cut what is shown of it.
carried = [window(text, one[2] - 1)[0] if len(text) > 2000 else text for one, text in zip(found, texts)]


def end_place(one, text):
    """The place at which what is wrong ends: after the code point that violates a rule, where there is one."""
    place = one[2] - 1
    return min(place + 1, len(text)) if one[3] not in ("not-utf8", "line-too-long") else place


# GNU: FILE:LINE:COLUMN: error: SENTENCE [RULE], which Emacs and vim (`%f:%l:%v: error: %m`) match so. Nothing but line
# feeds controls a terminal.
gnu = re.compile(r"^(.+):([0-9]+):([0-9]+): error: (.+) \[([a-z0-9-]+)\]$")
written = read("hostile.gnu")
want(not HIDDEN.search(written.replace("\n", "")), "gnu: it has a control")
entries = [gnu.match(line) for line in written.split("\n")[:-1]]
want(all(entries), "gnu: a line has another form")
want([(m[1], int(m[2]), int(m[3]), m[5], m[4]) for m in entries if m]
     == [(shown(one[0]),) + one[1:] for one in found], "gnu: other diagnostics")

def named_place(sentence, text, place):
    """The first place from there on with the code point that the sentence names, or the place itself. Of an IPv6 address
    the bracket at the place isn't one."""
    m = re.match(r"U\+([0-9A-F]{4,6})\b", sentence)
    first = place + ("is not a hex digit of an IPv6 address" in sentence)
    return max(place, text.find(chr(int(m[1], 16)), first)) if m else place


# The caret is below what the sentence names: as many columns before it as the code points before that are wide.
def width(c):
    if c == "\t":
        return c
    if unicodedata.combining(c) or unicodedata.category(c) in ("Mn", "Me", "Cf"):
        return ""
    return "  " if unicodedata.east_asian_width(c) in "WF" else " "


written = read("hostile.caret")
want(not HIDDEN.search(written.replace("\n", "")), "caret: it has a control")
rows = iter(written.split("\n")[:-1])
for one, text, it, head in zip(found, texts, mended, read("hostile.gnu").split("\n")[:-1]):
    want(next(rows, None) == head, "caret: other diagnostics")
    if one[3] == "line-too-long":
        continue
    line, caret = next(rows, ""), next(rows, "")
    part, place = window(text, named_place(one[4], text, one[2] - 1))
    want(len(part) <= 200 and line == shown(part), f"caret: {one}: {line[:40]!r} is shown")
    padding = "".join(width(c) for c in line[:place])
    want(caret == padding + "^", f"caret: {one} below {line[:40]!r} stands {caret[:40]!r}")
    # (no note names what is mended where the sentence says which part is meant)
    if it and (it[2] or meant(text) not in (TWICE, LATER)):
        words = "help: write " if it[2] else NAMED[it[0]]
        want(next(rows, "") == words + copied(window(it[1], one[2] - 1)[0]), f"caret: {one}: no help, or another")
want(next(rows, None) is None, "caret: further lines")

# GitHub: workflow commands, whose values are read back by what the runner's own reader does.
command = re.compile(r"^::error file=([^,:]*),line=([0-9]+),col=([0-9]+),title=([^,:]*)::(.*)$")
message = lambda text: text.replace("%0D", "\r").replace("%0A", "\n").replace("%25", "%")
prop = lambda text: message(text.replace("%3A", ":").replace("%2C", ","))
entries = [command.match(line) for line in read("hostile.github").split("\n")[:-1]]
want(all(entries), "github: a line is no command")
want([(prop(m[1]), int(m[2]), int(m[3]), prop(m[4]), message(m[5])) for m in entries if m] == found,
     "github: other diagnostics")


# SARIF: the members that the version requires, and each rule found by its index.
def sarif(text):
    log = json.loads(text)
    want(log["version"] == "2.1.0" and log["$schema"].endswith("sarif-2.1.0.json"), "sarif: the version")
    (run,) = log["runs"]
    want(run["invocations"] == [{"executionSuccessful": True}], "sarif: the invocation")
    driver = run["tool"]["driver"]
    want(driver["name"] == "urlcheck" and run["columnKind"] == "unicodeCodePoints", "sarif: the driver")
    ids = [rule["id"] for rule in driver["rules"]]
    want(len(ids) == 17 == len(set(ids)), f"sarif: the rules {ids}")
    for rule in driver["rules"]:
        want(rule["shortDescription"]["text"] and rule["help"] == rule["fullDescription"], "sarif: a rule")
        is_of_lines = rule["id"] in ("not-utf8", "line-too-long", "not-located")
        section = rule.get("helpUri", "")
        want(not section if is_of_lines else re.match("https://url\\.spec\\.whatwg\\.org/#[a-z0-9-]+$", section), "sarif: a rule's section")
    told = []
    for result in run["results"]:
        (location,) = result["locations"]
        place = location["physicalLocation"]
        want(result["level"] == "error" and ids[result["ruleIndex"]] == result["ruleId"], "sarif: a result's rule")
        uri = place["artifactLocation"]["uri"]
        want(urlsplit(uri)[:2] == ("", "") and urlsplit(uri).path == uri, f"sarif: {uri} is no path")
        links.append((result["properties"]["cut"], result["properties"]["text"]))
        fixes.append((place["artifactLocation"], place["region"]["startLine"], result.get("fixes")))
        ends.append(place["region"]["endColumn"])
        fingerprints.append(result["partialFingerprints"])
        told.append((unquote(uri, errors="strict"), place["region"]["startLine"], place["region"]["startColumn"],
                     result["ruleId"], result["message"]["text"]))
    return told


# A fix replaces the line by the mended text: these members are all that the version asks for (3.55 to 3.57).
def fix_of(place, line, text, kind, written):
    region = {"startLine": line, "startColumn": 1, "endColumn": len(text) + 1}
    replacement = {"deletedRegion": region, "insertedContent": {"text": written}}
    return [{"description": {"text": KINDS[kind]}, "artifactChanges": [{"artifactLocation": place, "replacements": [replacement]}]}]


links, fixes, ends, fingerprints = [], [], [], []
want(sarif(read("hostile.sarif")) == found, "sarif: other diagnostics")
want(ends == [end_place(*it) + 1 for it in zip(found, texts)], "sarif: other ends")


def digest(text):
    return hashlib.sha256(text.encode()).hexdigest()


# The fingerprint of the rule, the place and what is carried of the text, wherever that is.
keys = [f"{one[3]}\n{one[2] - 1}\n{text}" for one, text in zip(found, carried)]
want(fingerprints == [{"urlcheckText/v1": digest(key)} for key in keys], "sarif: other fingerprints")
for (place, line, fix), text, it in zip(fixes, texts, mended):
    want(fix == (fix_of(place, line, text, *it[:2]) if it and it[2] else None), f"sarif: the fix of line {line}")
want(links == [(one["cut"], one["text"]) for one in map(json.loads, read("hostile.json").split("\n")[:-1])],
     "sarif: other links")
want(sarif(read("none.sarif")) == [], "sarif: results without a fault")


# Checkstyle: a document of XML.
def checkstyle(text):
    document = ElementTree.fromstring(text)
    want(document.tag == "checkstyle", "checkstyle: the document")
    told = []
    for file in document:
        for error in file:
            want(error.get("severity") == "error", "checkstyle: the severity")
            want(error.get("source").startswith("urlcheck."), "checkstyle: the source")
            told.append((file.get("name"), int(error.get("line")), int(error.get("column")),
                         error.get("source")[len("urlcheck."):], error.get("message")))
    return told


want(checkstyle(read("hostile.checkstyle"))
     == [(xml_shown(one[0]),) + one[1:4] + (xml_shown(one[4]),) for one in found], "checkstyle: other diagnostics")
want(checkstyle(read("none.checkstyle")) == [], "checkstyle: errors without a fault")

# JUnit: a suite for each file, whose first test passes and whose others fail, and one for the run.
def junit(text):
    document = ElementTree.fromstring(text)
    want((document.tag, document.get("name")) == ("testsuites", "urlcheck"), "junit: the document")
    *suites, run = document
    want([run.get("name"), [(case.get("name"), len(case)) for case in run]] == ["urlcheck", [("run", 0)]], "junit: the run")
    told = []
    for suite in suites:
        file = suite.get("name")
        first, *cases = suite
        want((first.get("classname"), first.get("name"), len(first)) == (file, "file", 0), "junit: the test of a file")
        want(all(case.tag == "testcase" and case.get("classname") == file for case in suite), "junit: a test of another file")
        for case in cases:
            (failure,) = case
            line, column, rule = re.match("([0-9]+):([0-9]+) ([a-z0-9-]+)$", case.get("name")).groups()
            want(failure.tag == "failure" and failure.get("type") == rule, "junit: the rule of a failure")
            told.append((file, int(line), int(column), rule, failure.get("message"), failure.text or ""))
    return [suite.get("name") for suite in suites], told


wanted = [(xml_shown(one[0]),) + one[1:4] + (xml_shown(one[4]), xml_shown(text)) for one, text in zip(found, carried)]
want(junit(read("hostile.junit")) == ([xml_shown(name) for name in names], wanted), "junit: other diagnostics")
want(junit(read("none.junit")) == (["right.txt"], []), "junit: failures without a fault")

# GitLab: an array of issues, each with the members that its documentation names, and a fingerprint of its own.
issues = json.loads(read("hostile.gitlab"))
told, marks = [], set()
for one, key in zip(issues, keys):
    want(sorted(one) == ["check_name", "description", "fingerprint", "location", "severity"], "gitlab: the members")
    file, line = one["location"]["path"], one["location"]["lines"]["begin"]
    want(one["severity"] in ("info", "minor", "major", "critical", "blocker"), "gitlab: the severity")
    told.append((file, line, one["check_name"], one["description"]))
    marks.add(one["fingerprint"])
want(told == [(one[0], one[1], one[3], one[4]) for one in found], "gitlab: other diagnostics")
files = [json.dumps(one[0], ensure_ascii=False) for one in found]
want(len(issues) == len(found) and len(marks) == len(set(zip(files, keys))), "gitlab: fingerprints that aren't distinct")
want([one["fingerprint"] for one in issues] == [digest(f"{file}\n0\n{key}") for file, key in zip(files, keys)],
     "gitlab: other fingerprints")
want(json.loads(read("none.gitlab")) == [], "gitlab: issues without a fault")


# reviewdog: its columns are bytes of UTF-8, and the end of a range is after what is in it.
def column(text, place):
    return len(text[:place].encode()) + 1


def position(line, text, place):
    return {"line": line, "column": column(text, place)}


def suggestions(one, text, it):
    return [{"range": {"start": position(one[1], text, 0), "end": position(one[1], text, len(text))}, "text": it[1]}]


document = json.loads(read("hostile.rdjson"))
want(sorted(document) == ["diagnostics", "severity", "source"] and document["source"]["name"] == "urlcheck", "rdjson: the document")
for said, one, text, it in zip(document["diagnostics"], found, texts, mended):
    place = one[2] - 1
    where = {"start": position(one[1], text, place), "end": position(one[1], text, end_place(one, text))}
    want(said["location"] == {"path": one[0], "range": where}, f"rdjson: where line {one[1]} is wrong")
    want((said["message"], said["severity"], said["code"]["value"]) == (one[4], "ERROR", one[3]), "rdjson: other diagnostics")
    is_of_lines = one[3] in ("not-utf8", "line-too-long", "not-located")
    sections = "" if is_of_lines else "https://url.spec.whatwg.org/#"
    want(said["code"].get("url", "").startswith(sections) and ("url" in said["code"]) != is_of_lines, "rdjson: the section")
    want(said.get("suggestions") == (suggestions(one, text, it) if it and it[2] else None), f"rdjson: the suggestion of line {one[1]}")
want(len(document["diagnostics"]) == len(found), "rdjson: more diagnostics, or fewer")
want(json.loads(read("none.rdjson"))["diagnostics"] == [], "rdjson: diagnostics without a fault")
want(all(read(f"none.{kind}") == "" for kind in ("gnu", "caret", "json", "github")), "lines without a fault")

print("\n".join(failures[:20]))
sys.exit(1 if failures else 0)
