#!/usr/bin/env python3
"""In the place of `rattle check`, for the runs of tools/try-edits: it proves nothing, but goes by words in the bodies of src/lib.rt.

A body with `wrong` leaves a goal, one with `misnamed` an error of a name in its proof, and one with `untold` can't be told. A function
that calls one that isn't proved isn't either. A source with `broken` can't be compiled, a clause with `unread` can't be read, and
`killed` ends the check. STUB/checks gets a line for each check: the functions that were asked for.
"""

import os
import re
import signal
import sys

asked = [sys.argv[at + 1] for at, word in enumerate(sys.argv) if word == "--only"]
with open("src/lib.rt", encoding="utf-8") as file:
    code = file.read()
with open(os.environ["STUB"] + "/checks", "a", encoding="utf-8") as file:
    file.write(" ".join(asked) + "\n")
if "broken" in code:
    print("src/lib.rt:1:1: error[unexpected-token]: expected an expression")
    sys.exit(1)
if "unread" in code:
    print("src/lib.rt:1:1: error: `ensures-1`: `unread` is not in scope")
if "killed" in code:
    os.kill(os.getpid(), signal.SIGKILL)
# (a constant is written into each body that names it)
constants = dict(re.findall(r"^const (\w+): u8 = (.*);", code, re.MULTILINE))
found = re.findall(r"^fn (\w+)\(.*?^\{\n(.*?)^\}", code, re.MULTILINE | re.DOTALL)
bodies = {name: re.sub("[A-Z]+", lambda it: constants[it[0]], body) for name, body in found}
if unknown := [it for it in asked if it not in bodies]:
    print(f"rattle: error: `one` has no function `{unknown[0]}`")
    sys.exit(2)


def calls(name):
    """The functions that a body calls, and those that these call."""
    direct = [it for it in re.findall(r"(\w+)\(", bodies[name]) if it in bodies]
    return [lower for it in direct for lower in [*calls(it), it]]


def line_of(name):
    """What is said of a function."""
    body, below = bodies[name], [it for it in calls(name) if re.search("wrong|misnamed|unread", bodies[it])]
    called = f"; it calls `one::{below[0]}`, which is not proved" if below else ""
    if "misnamed" in body:
        print(f"./proofs/{name}/Answers.antt:1:1: error: `returns`: record `Start` has no field `first`")
        return "not proved" + called
    if re.search("wrong|unread", body):
        return f"no proof: expected answers in ./proofs/{name}/Answers.antt; `search` did not prove `returns`{called}"
    return "could not tell" if "untold" in body else "not proved" + called if called else "proved"


seen = {it: line_of(it) for name in asked or bodies for it in [*calls(name), name]}
for name, line in seen.items():
    print(f"fn one::{name}: {line}")
is_proved = set(seen.values()) == {"proved"}
print(f"only={len(asked)} proved=0" if asked else "logic=" + "not-" * (not is_proved) + "proved")
sys.exit(not is_proved)
