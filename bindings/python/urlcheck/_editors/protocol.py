"""What is seen in texts, in the words of the Language Server Protocol (3.17)."""

import re
from typing import Any, Dict, Iterable, List, Optional, Tuple

from .. import MendKind
from .._reports.rules import TITLES, address_of, rule_of
from .._streams import shown
from .checking import NOTE, Mistake, Range, Remark, Seen

Json = Dict[str, Any]

FIX_ALL = "source.fixAll.urlcheck"
"""The kind of the action that writes all that ``urlcheck-documents --fix`` writes."""

_WARNING, _INFORMATION = 2, 3

_NAMED_AS = {
    MendKind.SAME: "The same URL, written validly,",
    MendKind.ESCAPED: "The same text, percent-encoded,",
    MendKind.CHANGED: "A valid URL string that is near it",
}
"""How a mended text is named that isn't offered."""


def diagnostics_on(seen: Seen, severity: int) -> List[Json]:
    """What is wrong with a text, and the message about it."""
    return [_diagnostic(it, severity) for it in seen.mistakes] + [_remark(it) for it in seen.remarks]


def hover_on(found: Mistake) -> Json:
    """What the rule requires that is violated by a link, and what it is mended to if that isn't offered."""
    rule = rule_of(found.rule)
    named = "" if found.named is None or found.kind is None else "\n\n" + _named(found.named, found.kind)
    said = "**{}**: {}{}\n\n{}".format(rule.name, found.message, named, rule.requires)
    value = "{}\n\n[{}]({})".format(said, "The standard", rule.url)
    return {"contents": {"kind": "markdown", "value": value}, "range": _span(found.whole)}


class Edits:
    """Edits of a text as a client takes them: with the version that they are of, if it knows what that is."""

    def __init__(self, uri: str, number: Optional[int], has_versions: bool) -> None:
        self._uri = uri
        self._number = number
        self._has_versions = has_versions

    def of(self, found: Iterable[Mistake]) -> Json:
        """The edit that writes the mended texts."""
        edits = [{"range": _span(it.whole), "newText": it.mended} for it in _apart(found)]
        if not self._has_versions:
            return {"changes": {self._uri: edits}}
        return {"documentChanges": [{"textDocument": {"uri": self._uri, "version": self._number}, "edits": edits}]}


def _apart(found: Iterable[Mistake]) -> List[Mistake]:
    """The mistakes in their order; of links that overlap the first, since no text may be written twice."""
    kept: List[Mistake] = []
    for it in sorted(found, key=lambda it: it.whole):
        if not kept or it.whole[0] >= kept[-1].whole[1]:
            kept.append(it)
    return kept


def actions_on(seen: Seen, within: Range, wanted: Any, edits: Edits, severity: int) -> List[Json]:
    """The mended texts that may be written in place of the links of a range, if a client wants to know them, and if it
    wants that all that may be written unasked. An action that writes such a text is one that a user means without
    looking."""
    said = []
    for it in at(seen, within) if _is_wanted("quickfix", wanted) else ():
        if it.mended is not None and it.kind is not None:
            action: Json = {"title": TITLES[it.kind].format(shown(it.mended)), "kind": "quickfix"}
            action.update(isPreferred=it.is_fixed, diagnostics=[_diagnostic(it, severity)], edit=edits.of([it]))
            said.append(action)
    fixed = [it for it in seen.mistakes if it.is_fixed]
    if fixed and wanted is not None and _is_wanted(FIX_ALL, wanted):
        title = "Write all links validly that stay the same"
        said.append({"title": title, "kind": FIX_ALL, "edit": edits.of(fixed)})
    return said


def _is_wanted(kind: str, wanted: Any) -> bool:
    """Whether a client wants actions of a kind: it names the kind, or one that it belongs to."""
    return not isinstance(wanted, list) or any(kind == it or kind.startswith("{}.".format(it)) for it in wanted)


def _named(text: str, kind: MendKind) -> str:
    """A mended text that isn't offered, in Markdown: as code between more backticks than are in it."""
    runs = re.findall("`+", text)
    ticks = "`" * (max(map(len, runs), default=0) + 1)
    return "{} is {} {} {}.".format(_NAMED_AS[kind], ticks, text, ticks)


def range_of(given: Json) -> Range:
    """A range of the protocol as two places."""
    start, end = given["start"], given["end"]
    return (start["line"], start["character"]), (end["line"], end["character"])


def at(seen: Seen, range: Range) -> List[Mistake]:
    """The mistakes whose links meet a range."""
    return [it for it in seen.mistakes if it.whole[0] <= range[1] and range[0] <= max(it.whole[1], it.range[1])]


def _place(place: Tuple[int, int]) -> Json:
    """A place as the protocol has it."""
    return {"line": place[0], "character": place[1]}


def _span(range: Range) -> Json:
    """A range as the protocol has it."""
    return {"start": _place(range[0]), "end": _place(range[1])}


def _diagnostic(found: Mistake, severity: int) -> Json:
    """A mistake as the protocol has it, with the address of its rule."""
    said = _said(found.range, severity, found.rule, found.message)
    said["codeDescription"] = {"href": address_of(found.rule)}
    return said


def _remark(remark: Remark) -> Json:
    """A remark on the whole text as the protocol has it."""
    return _said(remark.range, _INFORMATION if remark.code == NOTE else _WARNING, remark.code, remark.message)


def _said(range: Range, severity: int, code: str, message: str) -> Json:
    """What diagnostics and remarks share."""
    return {"range": _span(range), "severity": severity, "source": "urlcheck", "code": code, "message": message}
