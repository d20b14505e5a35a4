"""The recipes of the guide on editors: recipes.py LANGUAGE WORD writes the one block in that language that has a word, as a user
would copy it."""

import os
import re
import sys

GUIDES = os.path.join(os.path.dirname(os.path.abspath(__file__)), "..", "..", "..", "docs", "guides")
PAGE = "editor.md"


def block_of(language: str, word: str) -> str:
    """The one block in a language that has a word."""
    with open(os.path.join(GUIDES, PAGE), encoding="utf-8") as page:
        found = re.findall("^```{}\n(.*?)^```$".format(language), page.read(), re.M | re.S)
    found = [it for it in found if word in it]
    if len(found) != 1:
        sys.exit("FAILED: docs/guides/{} has {} blocks in {} with {}".format(PAGE, len(found), language, word))
    return found[0]


if __name__ == "__main__":
    sys.stdout.write(block_of(*sys.argv[1:]))
