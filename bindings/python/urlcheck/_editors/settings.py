"""What an editor's user asks of the server."""

import re
from typing import Any, Dict, NamedTuple, Optional, Tuple

from .. import BaseRefused, Profile, check
from .._documents.configuration import NONE, Configuration

SEVERITIES = {"error": 1, "warning": 2, "information": 3, "hint": 4}
"""The severities of the protocol."""


class Options(NamedTuple):
    """What a client's settings say."""

    given: Configuration = NONE
    """What goes before a project's configuration."""
    severity: int = SEVERITIES["error"]
    wrong: Tuple[str, ...] = ()
    """What is wrong with them, in sentences."""


def options_of(given: Any) -> Options:
    """What these settings say. A wrong one is reported, and otherwise ignored."""
    given = given if isinstance(given, dict) else {}
    wrong = []
    known = {"base", "profile", "ignore", "gfm", "noEmpty", "severity", "columns"}
    wrong += ["there is no setting {}".format(name) for name in given if name not in known]
    profile = _chosen(given, "profile", {it.name.lower(): it for it in Profile}, wrong)
    severity = _chosen(given, "severity", SEVERITIES, wrong)
    base = given.get("base")
    # (whether it is valid under the profile that counts is said of each document)
    if base is not None and (not isinstance(base, str) or not _is_base(base, Profile.PARSER)):
        wrong.append("the base isn't a valid URL string")
        base = None
    patterns = []
    for text in given.get("ignore") or [] if isinstance(given.get("ignore") or [], list) else [None]:
        try:
            patterns.append(re.compile(text))
        except (re.error, TypeError):
            wrong.append("not a regular expression: {}".format(text))
    said = Configuration(
        profile=profile,
        base=base,
        ignored=tuple(patterns),
        gfm=_flag(given, "gfm", wrong),
        is_empty_taken=_flag(given, "noEmpty", wrong),
    )
    return Options(said, severity or SEVERITIES["error"], tuple(wrong))


def _flag(given: Dict[str, Any], name: str, wrong: "list[str]") -> Optional[bool]:
    """The value of a setting that is true or false."""
    value = given.get(name)
    if value is None or isinstance(value, bool):
        return value
    wrong.append("{} is true or false".format(name))
    return None


def _chosen(given: Dict[str, Any], name: str, values: Dict[str, Any], wrong: "list[str]") -> Any:
    """The value of a setting that is one of several."""
    value = given.get(name)
    if value is None:
        return None
    if not isinstance(value, str) or value not in values:
        wrong.append("the {} is one of {}".format(name, ", ".join(values)))
        return None
    return values[value]


def _is_base(text: str, profile: Profile) -> bool:
    """Whether texts can be checked against it."""
    try:
        check("", text, profile)
    except (BaseRefused, UnicodeEncodeError):
        return False
    return True
