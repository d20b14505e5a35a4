#!/usr/bin/env python3
"""bench/silence.py PROGRAM [COUNT] [SEED]: the parser's profile compared with a second reading of the Standard's parser.

Made texts, alone and against bases of each class, are checked by `urlcheck links --profile parser` and by the parser of
bench/peers/standard.py, which was written only from the Standard's text. If that is silent, the record's text has to
be the same, and else the program has to refuse. Node says what ToASCII makes of a domain beyond ASCII. Domains on which
it answers otherwise than the program are named and left out: its tables are older, and it checks less of UTS #46.
"""

import json
import random
import re
import subprocess
import sys
import unicodedata
from pathlib import Path

sys.path.insert(0, str(Path(__file__).parent / "peers"))
from standard import Stop, parse  # noqa: E402

BASES = [
    None, "http://h/a/b?q", "https://example.com:8080/", "http://1.2.3/x", "http://a%2Db//x", "ws://h",
    "file:///C:/d/f", "file://h/a", "file://h/C:/x", "file://", "file:///", "foo:/a", "foo://h/a/b", "foo://",
    "foo:/.//a/", "foo:", "urn:a", "urn:a b?q",
]
COMMON = list("abcxyzABZ019")
ODD = [*"!$&'()*+,;=_~-.@:%/?#[]\\|^`{}<>\" \t\0\x1f\x7f", *"éüß１２。．＠Ａｘ％℡ﬀאا≠", "\u00ad", "\u200d", "\u200c",
       "\ufffe", "\U0001f600", "\u0301", "\u00a0", "\u3000", "a\u0338"]
SCHEMES = ["http:", "https:", "ftp:", "ws:", "wss:", "file:", "foo:", "urn:", "HTTP:", "File:", "a+b-c.d:", "h:", "C:",
           "1a:", "", "", "", ""]
SLASHES = ["//"] * 5 + ["/", "", "///", "////", "\\\\", "/\\", "//./"]
HOSTS = """h example.com EXAMPLE.com. 1.2.3.4 1.2.3 1 256 1.2.3.256 01.2.3.4 0x1 1.0x 1.2.3.4. 1.2.3.4.5 1..2 a..b
    a.1 a.1. [::1] [1:2:3:4:5:6:7:8] [::1.2.3.4] [::1 ::1] localhost LOCALHOST loc%61lhost C: c| C%3A xn--a xn--bcher-kva
    XN--BCHER-KVA xn-- bücher a%2Db a%2db %41 %C3%BC %ff % %4 a_b -a- ab--c a+b a%2e %2e . .. %00 u@h a%40b １.２
    1%2E2 0 0.0 00 9.9.9.9 ١""".split() + ["", "", "\u00ad", "a\u00adb", "a" * 64]
LABELS = ["a", "1", "0", "255", "256", "00", "0x", "x", "", "%31", "１", "é", "xn--a", "a-", "_"]
PORTS = ["", "80", "443", "0", "065535", "65536", "8a", "8080", "21", "99999999999"]
SEGMENTS = ["a", "b", "", ".", "..", "%2e", "%2E%2e", ".%2e", "C:", "C|", "c:", "é", "a b", "%", "%4", "%41", "x;y",
            "~", "|", "[", "\ufffd", "'", "a:b", "@"]
QUERIES = ["", "q", "q'", "é", "a b", "%4", "?", "%41", "'é'"]
FRAGMENTS = ["", "f", "#", "é", "a b", "%", "'", " "]
NODE = """const names = JSON.parse(require('fs').readFileSync(0, 'utf8'));
const escaped = (name) => Array.from(Buffer.from(name), (b) => '%' + b.toString(16).padStart(2, '0')).join('');
const form = (name) => { try { return new URL('http://' + escaped(name) + '/').hostname } catch { return null } };
console.log(JSON.stringify(names.map(form)));
"""


def some(choices, most):
    """Up to so many of the choices."""
    return [random.choice(choices) for _ in range(random.randint(0, most))]


def made_host():
    """A host, perhaps with a port."""
    kind = random.random()
    if kind < 0.6:
        host = random.choice(HOSTS)
    elif kind < 0.8:
        host = ".".join([random.choice(LABELS), *some(LABELS, 4)])
    else:
        host = "".join(some(COMMON * 5 + ODD, 8))
    return host + (":" + random.choice(PORTS) if random.random() < 0.2 else "")


def made_text():
    """A text of parts, most of them as they should be; some are changed at a place."""
    if random.random() < 0.08:
        return "".join(some(COMMON + ODD, 12))
    text = random.choice(SCHEMES)
    if random.random() < 0.75:
        text += random.choice(SLASHES) + made_host()
    if random.random() < 0.8:
        text += random.choice(["/", "/", "/", ""]) + "/".join(some(SEGMENTS, 4))
    text += "?" + random.choice(QUERIES) if random.random() < 0.3 else ""
    text += "#" + random.choice(FRAGMENTS) if random.random() < 0.3 else ""
    if text and random.random() < 0.15:
        place = random.randrange(len(text))
        text = text[:place] + random.choice(ODD + COMMON) + text[place + random.randint(0, 1) :]
    return text + (random.choice([" ", "  ", "\t", "\0"]) if random.random() < 0.05 else "")


def made_texts(count):
    """So many texts that a line can hold, without those that are made twice."""
    texts = {made_text() for _ in range(count)}
    return sorted(text for text in texts if "\n" not in text and not text.endswith("\r"))


def escaped(name):
    """The name by the escapes of its bytes."""
    return "".join(f"%{byte:02X}" for byte in name.encode())


def checked(program, texts, base):
    """For each text the record's text, None where it is refused, and `differs` where a second parser reads another."""
    command = [program, "links", "--profile", "parser", *(["--base", base] if base is not None else [])]
    lines = "".join(f"{text}\n" for text in texts).encode()
    ran = subprocess.run(command, input=lines, capture_output=True, check=False)
    told = [line.split(" ", 2) for line in ran.stdout.decode().split("\n")[: len(texts)]]
    if len(told) != len(texts) or ran.returncode > 1:
        sys.exit(f"silence: status {ran.returncode} against {base}: {ran.stderr.decode()}")
    return [None if line[1] == "bad" else line[-1] for line in told]


def wanted(text, base, ask):
    """What the second reading gives: the record's text, or None where it stops."""
    try:
        return parse(text, None if base is None else parse(base, None, ask), ask).serialized()
    except Stop:
        return None


def asked_names(texts):
    """The domains of which only ToASCII says what they become."""
    names = {}

    def ask(name):
        names[name] = None

    for base in BASES:
        for text in texts:
            wanted(text, base, ask)
    return list(names)


def form_of(name, host):
    """ToASCII's form of a name by the host that Node gives, None where there is none."""
    if host is None or not re.fullmatch(r"[0-9]+(\.[0-9]+){3}", host):
        return host
    # (of an address Node doesn't say the form; where it is ASCII it is the name's compatibility form)
    return unicodedata.normalize("NFKC", name).replace("。", ".").replace("\u00ad", "").lower()


def main():
    """Checks the texts both ways and prints the counts."""
    program, count = sys.argv[1], int(sys.argv[2]) if len(sys.argv) > 2 else 10000
    random.seed(int(sys.argv[3]) if len(sys.argv) > 3 else 1)
    texts = made_texts(count)
    names = asked_names(texts)
    ran = subprocess.run(["node", "-e", NODE], input=json.dumps(names).encode(), capture_output=True, check=True)
    forms = dict(zip(names, map(form_of, names, json.loads(ran.stdout)), strict=True))
    alone = [f"http://{escaped(name)}/" for name in names]
    others = {name for name, text, told in zip(names, alone, checked(program, alone, None), strict=True)
              if told != wanted(text, None, forms.get)}
    taken, refused, wrong = 0, 0, []
    for base in BASES:
        for text, told in zip(texts, checked(program, texts, base), strict=True):
            asked = []
            want = wanted(text, base, lambda name: asked.append(name) or forms[name])
            if not others.isdisjoint(asked):
                continue
            taken, refused = taken + (want is not None), refused + (want is None)
            if told != want:
                wrong.append((base, text, want, told))
    print(f"texts: {len(texts)}, bases: {len(BASES)}, taken: {taken}, refused: {refused}")
    print(f"domains asked of Node: {len(names)}, left out: {len(others)} {sorted(others)[:20]}")
    print(f"different: {len(wrong)}", *wrong[:20], sep="\n")
    sys.exit(1 if wrong or taken < count or 20 * len(others) > len(names) + 100 else 0)


if __name__ == "__main__":
    main()
