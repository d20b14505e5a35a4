"""What a check of wrong edits says of each of them.

A check counts for an edit only where the prover gives a reason that its own function isn't proved: a goal that is left, or an error in
a file of its proof. That it calls a function which isn't proved is no such reason, for that may be another edit's. A text that the prover
can't read, and a check that comes to no end, say nothing of a promise.
"""

import re
from typing import NamedTuple

import edits

# What is told of an edit: the prover refuses it; it proves all the same what the edit changes; the edited crate can't be compiled or read,
# or its check doesn't end; and nothing, so that another check has to.
REFUSED, PROVED, BROKEN, NOTHING = "refused", "not refused", "broken", "no verdict"

# What is told where the only reasons are names that a proof has and the edited code hasn't.
ONLY_NAMES = "only since its proof names what the edit takes away"

# An error of the first part of a check, and one in a clause or a definition that isn't of a goal, or says that a name is wrong.
UNREAD = re.compile(
    r"^.*\berror\[[\w-]+\].*"
    r"|^(?:\./)?(?:src|specs)/\S+?:\d+:\d+: error: (?:(?!`[^`]*`: )"
    r"|.*(?:is not in scope|has no field|is no name|operand is missing|expected the end|cannot continue)).*",
    re.MULTILINE,
)

# An error that says that a name is wrong, and one that says that what it rests on is.
OF_A_NAME = re.compile(r"is not in scope|has no field|has no `|can be named from here")
OF_ANOTHER = re.compile(r"was not admitted")

# The status of `rattle check` where it was called wrongly, as where no function has the name.
CALLED_WRONGLY = 2


class Verdict(NamedTuple):
    """What is told of an edit, and why."""

    kind: str
    why: str

    def __str__(self):
        return f"{self.kind}: {self.why}"


def lines_of(said, crate, function):
    """What the prover says of a function, and of those that are written in it."""
    return re.findall(rf"^fn {crate}::{re.escape(function)}(?:::\S+)?: (.*)", said, re.MULTILINE)


def reasons(said, crate, function=None):
    """Why a function isn't proved, apart from those that it calls, or why any is not: the goals that are left, and errors of its proof."""
    name = re.escape(function) if function else r"\S+"
    folder = name.replace("::", "/") + "/" if function else ""
    goals = re.findall(rf"^fn {crate}::{name}(?:::\S+)?: .*?(`search` did not prove .*?)(?:; it calls .*)?$", said, re.MULTILINE)
    errors = re.findall(rf"^(?:\./)?proofs/{folder}\S+:\d+:\d+: error: (.*)", said, re.MULTILINE)
    return goals + [it for it in errors if not OF_ANOTHER.search(it)]


def refusal(why):
    """The verdict on an edit that is refused for these reasons."""
    of_a_value = [it for it in why if not OF_A_NAME.search(it)]
    return Verdict(REFUSED, of_a_value[0] if of_a_value else f"{ONLY_NAMES}: {why[0]}")


def verdict_of(edit, functions, status, said):
    """What a check of these functions, or of the whole crate, tells of an edit."""
    function = edits.function_of(edit)
    if unread := UNREAD.search(said):
        return Verdict(BROKEN, unread[0])
    if not re.search(r"^(only|logic)=", said, re.MULTILINE):
        ending = (said.strip().splitlines() or ["it said nothing"])[-1]
        return Verdict(NOTHING if status == CALLED_WRONGLY and functions else BROKEN, f"status {status}: {ending}")
    if why := reasons(said, edit.crate, function):
        return refusal(why)
    if function and (lines := lines_of(said, edit.crate, function)):
        return Verdict(PROVED if set(lines) == {"proved"} else NOTHING, f"{function}: {lines[0]}")
    if status == 0 and not functions:
        return Verdict(PROVED, "the whole crate is proved")
    return Verdict(NOTHING, "no line tells of what it changes")
