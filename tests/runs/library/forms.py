"""Runs the programs of the guide on forms whose libraries are here, and compares what each prints with the page. The package is
on PYTHONPATH."""

import contextlib
import importlib.util
import io
import os
import re
import sys

GUIDE = os.path.join(os.path.dirname(os.path.abspath(__file__)), "..", "..", "..", "docs", "guides", "forms.md")
NEEDED = {"pydantic 2": ("pydantic",), "Django": ("django",), "Flask with WTForms": ("flask", "wtforms")}
"""The modules that the program of a section needs."""


def has(section):
    """Whether the program of a section can be run here."""
    if not all(map(importlib.util.find_spec, NEEDED[section])):
        return False
    return not section.startswith("pydantic") or importlib.import_module("pydantic").VERSION.startswith("2.")


def main():
    with open(GUIDE, encoding="utf-8") as page:
        _, *parts = re.split(r"^## (.*)$", page.read(), flags=re.M)
    sections = dict(zip(parts[::2], parts[1::2]))
    if set(sections) != set(NEEDED):
        sys.exit("FAILED: docs/guides/forms.md has other sections than those that are run: {}".format(sorted(sections)))
    ran = []
    for section, text in sections.items():
        ((program, printed),) = re.findall(r"^```python\n(.*?)^```\n\n```\n(.*?)^```$", text, re.M | re.S)
        if not has(section):
            continue
        out = io.StringIO()
        with contextlib.redirect_stdout(out):
            exec(compile(program, section, "exec"), {"__name__": "page"})
        if out.getvalue() != printed:
            sys.exit("FAILED: docs/guides/forms.md: {} prints:\n{}".format(section, out.getvalue()))
        ran.append(section)
    print("library: recipes of the guide on forms: {}".format(", ".join(ran) or "none, for want of their packages"))


if __name__ == "__main__":
    main()
