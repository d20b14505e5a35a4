#!/usr/bin/env python3
"""The figures that the pages have from bench/verdicts.sh, read from the outputs that are stored in bench/verdicts, by bench/kinds;
and what lines may cost, from tests/runs/costs.txt.

    bench/figures.py [TOP]            sees that README.md and docs/SPEED.md have them; 1 where one is another
    bench/figures.py --write [TOP]    writes them there

TOP is the folder of the pages, by default the one above this file's. Figures of other benches aren't stored, and not compared.
"""

import pathlib
import re
import sys
from typing import Dict, List, Tuple

Costs = Dict[str, Dict[str, float]]

# The rows of docs/SPEED.md on a check, by their first cells: the kind of bench/kinds, and the call. Its picture has all kinds.
CHECKS = {
    "mixed, as in documents": ("mixed", "check"),
    "mixed, by `check_alone`": ("mixed_alone", "alone"),
    "plain": ("plain", "check"),
    "with a port": ("port", "check"),
    "full of escapes": ("escapes", "check"),
    "path of 10,000 bytes": ("long_path", "check"),
    "upper case": ("upper", "check"),
    "host beyond ASCII": ("name_abroad", "check"),
    "IPv4 address": ("ipv4", "check"),
    "reference, the base kept": ("reference", "check"),
    "refused: code point": ("code_point", "check"),
    "wide profile, host with `_`": ("underscore", "check"),
    "parser's profile, host with `_`": ("underscore_parser", "check"),
}
# The rows on the text of a URL, all that miss what is wanted among them: the end of the kind, after `resolve_` and `record_`.
TEXTS = {
    "plain": "plain",
    "full of escapes": "escapes",
    "upper case": "upper",
    "host beyond ASCII": "name_abroad",
    "IPv4 address": "ipv4",
    "IPv6 address": "ipv6",
    "reference, the base kept": "reference",
}
# The rows on a call from C: the end of the kind, after `c_`.
FROM_C = {
    "plain": "plain",
    "mixed": "mixed",
    "plain, the base kept": "plain_base",
    "reference, the base kept": "reference",
    "reference with its own base": "own_base",
}
CHECK_HEAD = "| Texts | `check` | ratio |"
TEXT_HEAD = "| Texts | resolve | ratio | record | ratio |"
C_HEAD = "| Texts | from C | ratio |"
# The sentences with figures: the page, and the words with the names of figures in braces.
SENTENCES = (
    ("README.md", "costs {mixed} times the instructions of Ada's `can_parse`, and {c} times if called from C."),
    ("README.md", "On each of {kinds} kinds of texts it costs at most {most} times as many."),
    ("docs/SPEED.md", "| Rattle | `check` of a link, as in documents | `can_parse` of Ada 3.4.4, by instructions | {mixed} |"),
    ("docs/SPEED.md", "| C | the same | the same | {c} |"),
    ("docs/SPEED.md", "A plain link takes at most {plain_lint} in `lint`, with 5 % of slack."),
    ("docs/SPEED.md", "In `links` it takes at most {plain_links}, and a reference {reference_links}."),
    ("docs/SPEED.md", "`check` of a link takes at most {text_check}."),
    ("docs/SPEED.md", "{code_point_lint} in `gnu`, {code_point_caret} in `caret`, {code_point_json} in JSON and {code_point_sarif} in SARIF."),
    ("docs/SPEED.md", "which takes {code_point_mend} in `mend`."),
)


def stored(top: pathlib.Path) -> Costs:
    """What each call took of each kind, and Ada, in instructions a text."""
    costs: Costs = {}
    for line in (top / "bench" / "kinds").read_text(encoding="utf-8").splitlines():
        if line and not line.startswith("#"):
            kind = line.split()[0]
            file = top / "bench" / "verdicts" / (kind + ".txt")
            if not file.exists():
                sys.exit("FAILED: bench/verdicts/{}.txt is missing: bench/plot.sh --measure makes it".format(kind))
            text = file.read_text(encoding="utf-8")
            costs[kind] = {call: float(cost) for call, cost in re.findall(r"^(\w+): ([\d.]+) instructions", text, re.M)}
    return costs


def bounds(top: pathlib.Path) -> Dict[str, str]:
    """What a line of each kind may cost, by the kind and by the format or else the command."""
    lines = (top / "tests" / "runs" / "costs.txt").read_text(encoding="utf-8").splitlines()
    rows = [line.split() for line in lines if line and not line.startswith("#")]
    return {"{}_{}".format(kind, [it for it in words if not it.startswith("-")][-1]): whole(float(most)) for kind, most, *words in rows}


def whole(cost: float) -> str:
    """A number of instructions as the pages have it."""
    return "{:,.0f}".format(cost)


def ratio(costs: Costs, kind: str, call: str) -> str:
    """How many times what Ada takes a call takes."""
    return "{:.2f}".format(costs[kind][call] / costs[kind]["ada"])


def check_cells(costs: Costs, kind: str, call: str) -> List[str]:
    """The cells of a row on a check, or on a call from C, after the first."""
    return [whole(costs[kind][call]), ratio(costs, kind, call)]


def text_cells(costs: Costs, end: str) -> List[str]:
    """The cells of a row on the text of a URL, after the first."""
    resolve, record = "resolve_" + end, "record_" + end
    cells = [whole(costs[resolve]["resolve"]), ratio(costs, resolve, "resolve")]
    return cells + [whole(costs[record]["record"]), ratio(costs, record, "record")]


def row(cells: List[str]) -> str:
    """A row of a table."""
    return "| {} |".format(" | ".join(cells))


def tables(costs: Costs) -> Dict[str, Dict[str, str]]:
    """The tables of docs/SPEED.md by their heads: each row by its first cell."""
    checks = {name: row([name, *check_cells(costs, *of)]) for name, of in CHECKS.items()}
    texts = {name: row([name, *text_cells(costs, end)]) for name, end in TEXTS.items()}
    calls = {name: row([name, *check_cells(costs, "c_" + end, "from_c")]) for name, end in FROM_C.items()}
    return {CHECK_HEAD: checks, TEXT_HEAD: texts, C_HEAD: calls}


def named(costs: Costs) -> Dict[str, str]:
    """The figures of the sentences."""
    checks = [kind for kind, cost in costs.items() if "check" in cost]
    most = max(costs[kind]["check"] / costs[kind]["ada"] for kind in checks)
    mixed, c = ratio(costs, "mixed", "check"), ratio(costs, "c_mixed", "from_c")
    return {"mixed": mixed, "c": c, "kinds": str(len(checks)), "most": "{:.2f}".format(most)}


def with_tables(text: str, wanted: Dict[str, Dict[str, str]]) -> Tuple[str, int, List[str]]:
    """A page with its tables as they should be, how many rows it has of them, and what is wrong."""
    lines, wrong, count, rows = text.split("\n"), [], 0, {}
    missing = {(head, name) for head, names in wanted.items() for name in names}
    head = ""
    for at, line in enumerate(lines):
        if line in wanted:
            head, rows = line, wanted[line]
        elif not line.startswith("|"):
            rows = {}
        elif rows and not line.startswith("|--"):
            name = line.strip("|").split("|")[0].strip()
            if name not in rows:
                wrong.append("docs/SPEED.md:{}: no kind has the name of this row: {}".format(at + 1, name))
                continue
            missing.discard((head, name))
            count += 1
            if line != rows[name]:
                wrong.append("docs/SPEED.md:{}: the row should be: {}".format(at + 1, rows[name]))
                lines[at] = rows[name]
    wrong += ["docs/SPEED.md: no row: {}".format(name) for _, name in sorted(missing)]
    return "\n".join(lines), count, wrong


def with_sentence(page: str, text: str, sentence: str, figures: Dict[str, str]) -> Tuple[str, List[str]]:
    """A page with the figures of a sentence as they should be, and what is wrong."""
    parts = re.split(r"(\{\w+\})", sentence)
    pattern = "".join(r"([\d.,]*\d)" if it.startswith("{") else r"\s+".join(map(re.escape, it.split(" "))) for it in parts)
    wanted = [figures[it[1:-1]] for it in parts if it.startswith("{")]
    found = re.search(pattern, text)
    if not found:
        return text, ["{}: no sentence: {}".format(page, sentence)]
    if list(found.groups()) == wanted:
        return text, []
    for number in range(len(wanted), 0, -1):
        text = text[: found.start(number)] + wanted[number - 1] + text[found.end(number) :]
    return text, ["{}: the figures of '{}' should be {}".format(page, sentence, ", ".join(wanted))]


def main() -> int:
    """Compares the pages with the stored outputs, or writes the figures into them."""
    words = sys.argv[1:]
    writes = words[:1] == ["--write"]
    rest = words[1:] if writes else words
    if len(rest) > 1 or (rest and rest[0].startswith("-")):
        sys.exit(__doc__)
    top = pathlib.Path(rest[0]) if rest else pathlib.Path(__file__).resolve().parent.parent
    costs = stored(top)
    figures = {**named(costs), **bounds(top)}
    pages = {page: (top / page).read_text(encoding="utf-8") for page in ("README.md", "docs/SPEED.md")}
    wrong: List[str] = []
    for page, sentence in SENTENCES:
        pages[page], said = with_sentence(page, pages[page], sentence, figures)
        wrong += said
    pages["docs/SPEED.md"], count, said = with_tables(pages["docs/SPEED.md"], tables(costs))
    wrong += said
    if writes:
        for page, text in pages.items():
            (top / page).write_text(text, encoding="utf-8")
    for line in wrong:
        print(("written: " if writes else "FAILED: ") + line)
    print("figures: {} rows and {} sentences, {}".format(count, len(SENTENCES), "as stored" if not wrong else "{} not".format(len(wrong))))
    return int(bool(wrong) and not writes)


if __name__ == "__main__":
    sys.exit(main())
