"""Cases for the checker in JavaScript, from files of vectors, with what the program says of each in each profile.

    answers.py PROGRAM CASES VECTORS..   writes the cases, as JSON

A case has its text, its base or null, what the vectors want and by which profile or null, and for each profile what
`check`, `check --all` and `mend` print, with the status and the last line on standard error.
"""

from __future__ import annotations

import concurrent.futures
import importlib
import json
import os
import subprocess
import sys

sys.path.insert(0, os.path.join(os.path.dirname(os.path.abspath(__file__)), "..", "library"))
library = importlib.import_module("cases")

# Besides the library's: controls, what turns the direction of a text, markup, and a long text.
MORE = [
    ("http://h/\u202e\u2066x\u2069?\u200f#\u00ad", None),
    ("http://h/<script>alert(1)</script><img src=x onerror=alert(1)>", None),
    ("\u05d0\u05d1:\u05d2", "http://\u05d0\u05d1/"),
    ("http://h/\u0007\u001b[31m\n\t\r", None),
    ("foo:\U0001f600 \U0001f600\u00e9^", None),
    ("http://h/" + "\u00e9\U0001f600%41a" * 500, None),
    ("http://h/" + "a^" * 2000, None),
    ("x" * 3000, "http://h/" + "\u00e9" * 3000),
    ("\ufeff\u00e9 %", "http://h/"),
]


def run(program: str, command: list[str], text: str, base: str | None, profile: str) -> dict[str, object]:
    words = [program, *command, "--profile", profile]
    words += ([] if base is None else ["--base=" + base]) + ["--", text]
    ended = subprocess.run(words, capture_output=True, timeout=60)
    # (of a refused text standard error says only sentences, and no word)
    last = "".join(ended.stderr.decode().splitlines(True)[-1:]) if ended.returncode > 1 else ""
    return {"status": ended.returncode, "out": ended.stdout.decode(), "error": last}


def said(program: str, text: str, base: str | None) -> dict[str, object]:
    """What the program says of a text in each profile: the first refusal, all of them, and what to write instead."""
    answers: dict[str, object] = {}
    for profile in library.PROFILES:
        first = run(program, ["check"], text, base, profile)
        every = run(program, ["check", "--all"], text, base, profile) if first["status"] == 1 else first
        answers[profile] = {"first": first, "all": every, "mend": run(program, ["mend"], text, base, profile)}
    return answers


def main() -> None:
    program, path, vectors = sys.argv[1], sys.argv[2], sys.argv[3:]
    cases = library.cases_of(vectors) + [(text, base, None) for text, base in MORE]
    # A word of a command line has no NUL.
    cases = [case for case in cases if "\0" not in case[0] + (case[1] or "")]
    with concurrent.futures.ThreadPoolExecutor() as pool:
        answers = list(pool.map(lambda case: said(program, case[0], case[1]), cases))
    written = [
        {"text": text, "base": base, "wanted": wanted, "said": answer}
        for (text, base, wanted), answer in zip(cases, answers)
    ]
    with open(path, "w", encoding="utf-8") as out:
        json.dump(written, out)


main()
