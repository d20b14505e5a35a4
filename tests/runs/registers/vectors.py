"""The cases of the vectors for an engine, and its answers compared with the library's.

    vectors.py statements CASES       writes the cases, and a query over them in each profile, for PostgreSQL
    vectors.py duckdb CASES TABLE     writes the cases as CSV into TABLE, and a query over them for DuckDB
    vectors.py compare NAME FOUND WANTED MENDED CASES
                                      compares an engine's answers with answers.c's (see tests/runs/library)

An engine's line of answers has, parted by tabs and each as JSON: rule, place (from 1), the six parts, the text of the URL,
the mended text, its kind, and the faults as rule and place; or the words `base refused`. The cases come in their order, each
in three profiles.
"""

import csv
import json
import os
import sys

sys.path.insert(0, os.path.join(os.path.dirname(os.path.abspath(__file__)), "..", "library"))

from cases import PROFILES, unpacked

COLUMNS = (
    "url_rule({0}), url_place({0}), url_scheme({0}), url_host({0}), url_port({0}), url_path({0}), url_query({0}), "
    "url_fragment({0}), url_resolve({0}), url_mend({0}), url_mend_kind({0})"
)

NAMES = ("rule", "place", "message", "scheme", "host", "port", "path", "query", "fragment")
"""What url_check says beside the verdict, in the words of the functions that say the same."""


def statements(path):
    """A table of the cases, and a row of answers for each under each profile. A base that is refused is left out: its error
    ends a statement. Each base is kept from row to row where it stays."""
    print("CREATE TEMP TABLE cases (id integer, url text, base text);")
    print("COPY cases FROM stdin;")
    escapes = str.maketrans({"\\": "\\\\", "\t": "\\t", "\n": "\\n", "\r": "\\r"})
    for number, (text, base) in enumerate(unpacked(path)):
        if "\0" in text or "\0" in (base or ""):
            text, base = "", None  # (no text of PostgreSQL holds it: the answers of this row aren't compared)
        fields = [str(number), text.translate(escapes), "\\N" if base is None else base.translate(escapes)]
        print("\t".join(fields))
    print("\\.")
    words = "url, base, profile"
    print(
        "SELECT json_build_array(id, p.profile, {}, url_is_valid({}), to_json(url_check({})), "
        "(SELECT json_agg(json_build_array(rule, place)) FROM url_faults({}))) "
        "FROM cases, (VALUES (0, 'standard'), (1, 'wide'), (2, 'parser')) p(number, profile) "
        "WHERE base IS NULL OR url_is_valid(base, NULL, p.profile) ORDER BY id, p.number;".format(
            COLUMNS.format(words), words, words, words
        )
    )


def duckdb(path, table):
    """The same for DuckDB, where a STRUCT and a list are read by SQL."""
    with open(table, "w", encoding="utf-8", newline="") as file:
        rows = csv.writer(file, quoting=csv.QUOTE_ALL, lineterminator="\n")
        for number, (text, base) in enumerate(unpacked(path)):
            rows.writerow([number, _hex(text), "none" if base is None else _hex(base)])
    words = "url, base, profile"
    # (texts go as hex digits after an x, so that no reader of CSV has a say in them)
    print("CREATE TABLE cases AS SELECT id, decode(unhex(url[2:])) AS url, CASE base WHEN 'none' THEN NULL ELSE decode(unhex(base[2:])) END AS base "
          "FROM read_csv('{}', header = false, columns = {{'id': 'INTEGER', 'url': 'TEXT', 'base': 'TEXT'}});".format(table))
    columns = (COLUMNS + ", url_is_valid({0})").format(words).replace("), ", ")\n").split("\n")
    texts = ["hex(encode({}))".format(it) if "_place" not in it and "is_valid" not in it else it for it in columns]
    same = " AND ".join("url_check({0}).{1} IS NOT DISTINCT FROM url_{1}({0})".format(words, name) for name in NAMES)
    texts += ["({})".format(same), "array_to_string([f.rule || ' ' || f.place FOR f IN url_faults({})], ',')".format(words)]
    print(".mode jsonlines")
    print("SELECT id, profile, {} FROM cases, (VALUES (0, 'standard'), (1, 'wide'), (2, 'parser')) p(number, profile) "
          "WHERE base IS NULL OR url_is_valid(base, NULL, profile) ORDER BY id, number;".format(
              ", ".join("{} AS c{}".format(it, at) for at, it in enumerate(texts))))


def _hex(text):
    return "x" + text.encode().hex()


def wanted_of(line, mended, text):
    """What an engine's row has to be, of a line of answers.c and one of what it mends. None where the base is refused."""
    fields = line.split("\t")
    verdict, *first = fields[0].split(" ")
    if verdict == "3":
        return None
    kind, _, rest = mended.partition("\t")
    made = {"valid": (text, None), "none": (None, None)}.get(kind, (rest, kind.rpartition(" ")[2]))
    if verdict == "0":
        parts = [None if part == "-" else part[1:] for part in fields[1:7]]
        return [None, None, *parts, fields[7], *made, []]
    faults = [fault.split(" ") for fault in fields[1:]]
    return [first[2], int(first[0]) + 1, *[None] * 7, *made, [[rule, int(place) + 1] for place, _, rule in faults]]


def is_same(check, valid, row):
    """Whether a row of url_check says what the functions do."""
    names = [name for name in NAMES if name != "message"]
    return bool(check["valid"]) == valid and [check[name] for name in names] == row[:8]


def compare(name, found, wanted, mended, path):
    rows = {}
    for line in open(found, encoding="utf-8"):
        row = json.loads(line)
        if name == "duckdb":
            *row, valid, is_checked, faults = row.values()
            row = [*row[:2], *(bytes.fromhex(it).decode() if isinstance(it, str) else it for it in row[2:])]
            listed = [fault.split(" ") for fault in faults.split(",") if fault]
            row += [valid if is_checked else None, None, [[rule, int(place)] for rule, place in listed]]
        number, profile, *row = row
        rows[number, profile] = row
    lines = zip(open(wanted, encoding="utf-8", newline="\n"), open(mended, encoding="utf-8", newline="\n"))
    bad, count, left = [], 0, 0
    for number, (text, base) in enumerate(unpacked(path)):
        for profile in PROFILES:
            answer, other = (line.rstrip("\n") for line in next(lines))
            row, want = rows.pop((number, profile), None), wanted_of(answer, other, text)
            if name == "postgresql" and "\0" in text + (base or ""):
                left += 1
                continue
            count += 1
            if row is not None:
                *row, valid, check, faults = row
                row.append(faults or [])
                # (the other ways to ask say the same)
                if valid != (row[0] is None) or check and not is_same(check, valid, row):
                    bad.append((text, base, profile, row, check))
            if row != want:
                bad.append((text, base, profile, row, want))
    for one in bad[:10]:
        print("FAILED:", *one)
    more = "" if not left else ", {} with U+0000 left out".format(left)
    print("registers: {}: {} cases in three profiles{}, {} different".format(name, count // 3, more, len(bad)))
    return 1 if bad or rows or not count else 0


if __name__ == "__main__":
    sys.exit({"compare": compare, "statements": statements, "duckdb": duckdb}[sys.argv[1]](*sys.argv[2:]))
