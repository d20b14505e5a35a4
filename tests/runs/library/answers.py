"""Answers each case of a file of cases (see cases.py) by the package, in each profile, a line each: as answers.c.

    answers.py CASES [mended]
"""

import sys

import urlcheck
from cases import unpacked

PARTS = ("scheme", "host", "port", "path", "query", "fragment")


def byte_place(text, place):
    return len(text[:place].encode())


def at(text, refused):
    return "{} {} {}".format(refused.place, byte_place(text, refused.place), refused.rule)


def line(text, base, profile):
    try:
        found = urlcheck.check(text, base, profile)
        held = None if base is None else urlcheck.Base(base, profile)
    except urlcheck.BaseRefused as refused:
        return "3 " + at(base, refused)
    assert urlcheck.check(text, held, profile) == found
    assert urlcheck.is_valid(text, held, profile) == urlcheck.is_valid(text, base, profile) == bool(found)
    assert urlcheck.violations(text, held, profile) == urlcheck.violations(text, base, profile)
    assert urlcheck.resolve(text, held, profile) == urlcheck.resolve(text, base, profile)
    wrong = urlcheck.violations(text, base, profile)
    resolved = urlcheck.resolve(text, base, profile)
    if not found:
        assert resolved == found
        return "\t".join(["1 " + at(text, found)] + [at(text, fault) for fault in wrong])
    parts = (getattr(found, part) for part in PARTS)
    shown = ["-" if part is None else "+" + part for part in parts]
    return "\t".join(["0"] + shown + [resolved] + [at(text, fault) for fault in wrong])


def mended(text, base, profile):
    try:
        answer = urlcheck.mend(text, base, profile)
        held = None if base is None else urlcheck.Base(base, profile)
    except urlcheck.BaseRefused as refused:
        return "base refused {} {}".format(refused.place, refused.rule)
    assert urlcheck.mend(text, held, profile) == answer
    if answer is None:
        return "valid"
    if isinstance(answer, urlcheck.Refused):
        return "none\trefused {} {}".format(answer.place, answer.rule)
    return "mended {}\t{}".format(answer.kind.value, answer.text)


say = mended if sys.argv[2:] == ["mended"] else line
for text, base in unpacked(sys.argv[1]):
    for profile in urlcheck.Profile:
        sys.stdout.buffer.write(say(text, base, profile).encode() + b"\n")
