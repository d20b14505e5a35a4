"""Faults that people make and documents that they have, none of which is passed over."""

import re

from cases import Case

MARKDOWN = {
    "title": ('![b](my pic.png "Title")', "my pic"),
    "single quotes": ("[a](my page.md 't')", "my page"),
    "badge": ("[![c](my badge.svg)](https://ok/)", "my badge"),
    "definition": ("[ref]: http://h/my page.md", "my page"),
    "definition that is used": ("[a][ref]\n\n[ref]: my page.md", "my page"),
    "parentheses": ("[a](my file (1).pdf)", "my file"),
    "apostrophe": ("[a](it's mine.md)", "it's mine"),
    "spaces at both ends": ("[a]( b c )", "b c"),
    "plain": ("[a](b c)", "b c"),
    "picture": ("![a](b c.png)", "b c"),
    "text that is defined too": ("[name](a b)\n\n[name]: http://h/", "a b"),
    "list": ("- one\n- [a](b c)", "b c"),
    "table": ("| a | b |\n|---|---|\n| [a](b c) | d |", "b c"),
    "second link": ("[a](b) and [c](d e)", "d e"),
}
"""Markdown in which a space ends a destination, and what that space is within."""

CSS = (
    ("url(my pic.png)", "my pic"),
    ("url( my pic.png )", "my pic"),
    ('image-set("a^b.png" 1x)', "a^b"),
    ("url('my pic.png')", "my pic"),
)
"""Values of CSS with a fault, and what it is within."""

HOLDERS = {
    "file.css": "p{{}}\na {{ background: {} }}\n",
    "element.html": "<p>\n<style>\na {{ background: {} }}</style>\n",
    "attribute.html": '<p>\n<a style="background: {}">x</a>\n',
    "element.svg": '<svg xmlns="http://www.w3.org/2000/svg">\n<style>a {{ fill: {} }}</style></svg>\n',
    "attribute.svg": '<svg xmlns="http://www.w3.org/2000/svg">\n<g style="fill: {}"/></svg>\n',
    "fill.svg": '<svg xmlns="http://www.w3.org/2000/svg">\n<g fill="{}"/></svg>\n',
}
"""Where values of CSS are."""

LOST = {
    "option.rst": (".. image:: http://h/a^b\n   :widht: 3\n", 1),
    "scale.rst": ("Text\n\n.. figure:: http://h/a^b\n   :scale: wide\n\n   See `x <http://h/c^d>`__\n", 3),
    "simple table.rst": (
        "Text\n\n=====  =====\na      b\n=====  =====\n`x <http://h/a^b>`__ that is too long\n=====  =====\n",
        6,
    ),
    "grid table.rst": ("+---+---+\n| `x <http://h/a^b>`__ |\n+---+---+\n", 1),
    "list.rst": ("Text\n\n.. list-table::\n\n   * - `x <http://h/a^b>`__\n     - b\n   * - c\n", 3),
    "file.rst": ("Text\n\n.. csv-table::\n   :widths: 1, 2, 3\n\n   `x <http://h/a^b>`__, b\n", 3),
}
"""reStructuredText with a block that docutils doesn't read, and the line that docutils names."""


def seen(name: str, text: str, within: str, rules: str) -> str:
    """The line of a report on a document whose first wrong place is the first space or ^ within a part of it."""
    at = text.index(within) + re.search(r"[ ^]", within).start()
    line, column = text.count("\n", 0, at) + 1, at - text.rfind("\n", 0, at)
    return r"^(\./)?{}:{}:{}: error: .* \[({})\]$".format(re.escape(name), line, column, rules)


STYLES = {
    "{}. {}".format(number, name): (
        around.format(value.replace('"', "&quot;") if '="' in around.split("{}")[0].rpartition("\n")[2] else value),
        within,
    )
    for name, around in HOLDERS.items()
    for number, (value, within) in enumerate(CSS)
}
"""Documents with CSS, by their names, each with the text that its fault is within."""

BROKEN = {"{}.md".format(name): text + "\n" for name, (text, _) in MARKDOWN.items()}
OF_BROKEN = tuple(seen("{}.md".format(name), text, within, "no-link") for name, (text, within) in MARKDOWN.items())

CASES = (
    Case("destinations with a space", BROKEN, "ud -q .", 1, out=OF_BROKEN, modules=("markdown_it",)),
    Case(
        "destinations with a space in GitHub's Markdown",
        BROKEN,
        "ud -q --gfm .",
        1,
        out=OF_BROKEN,
        modules=("markdown_it",),
    ),
    Case(
        "addresses in CSS, wherever that is",
        {name: text for name, (text, _) in STYLES.items()},
        "ud -q .",
        1,
        out=tuple(seen(name, *it, "code-point|no-link") for name, it in STYLES.items()),
        modules=("tinycss2",),
    ),
    Case(
        "blocks that docutils doesn't read are told",
        {name: text for name, (text, _) in LOST.items()},
        "ud .",
        None,
        err=tuple(
            r"^(urlcheck-documents: )?(\./)?{}:{}\b".format(re.escape(name), line) for name, (_, line) in LOST.items()
        ),
        modules=("docutils",),
    ),
    Case(
        "a line of more than 1 MiB doesn't lose a document in silence",
        {},
        "python -c \"print('\\`x <http://h/a^b>\\`__\\n\\n' + 'y ' * 600000)\" >a.rst; ud a.rst || [ $? = 1 ]",
        None,
        out=(),
        err=(r"a\.rst|, 1 link, 1 refused",),
        modules=("docutils",),
    ),
    Case(
        "the project's kinds hold in a folder",
        {".urlcheck.toml": 'kinds = { "md.in" = "markdown" }\n', "d/x.md.in": "[a](<b c>)\n"},
        "ud d",
        1,
        out=(r"^d/x\.md\.in:1:7: error: .* \[code-point\]$",),
        err=("!not read",),
        modules=("markdown_it",),
    ),
    Case(
        "the project's kinds hold by Git",
        {".urlcheck.toml": 'kinds = { "md.in" = "markdown" }\n', "x.md.in": "[a](<b c>)\n"},
        "git init -q; ud --git .",
        1,
        out=(r"^(\./)?x\.md\.in:1:7: error: .* \[code-point\]$",),
        modules=("markdown_it",),
        tools=("git",),
    ),
    Case(
        "the project's kinds of PHP and Jinja hold in a folder",
        {
            ".urlcheck.toml": 'kinds = { php = "html", "html.j2" = "html" }\n',
            "d/a.php": "<a href='b c'>",
            "d/b.html.j2": "<a href='b c'>",
        },
        "ud d",
        1,
        out=(r"^d/a\.php:1:11: error: ", r"^d/b\.html\.j2:1:11: error: "),
    ),
    Case(
        "what a folder's configuration excludes is left out when the folder above is named",
        {
            "d/sub/.urlcheck.toml": 'exclude = ["old"]\n',
            "d/sub/old/a.html": "<a href='b c'>",
            "d/sub/b.html": "<a href='b c'>",
            "d/old/c.html": "<a href='b c'>",
        },
        "ud d",
        1,
        out=(r"^d/sub/b\.html:1:11: error: ", r"^d/old/c\.html:1:11: error: ", "!d/sub/old"),
    ),
    Case(
        "what a folder's configuration excludes is left out by Git",
        {
            "d/sub/.urlcheck.toml": 'exclude = ["old"]\n',
            "d/sub/old/a.html": "<a href='b c'>",
            "d/sub/b.html": "<a href='b c'>",
        },
        "git init -q; ud --git d",
        1,
        out=(r"^d/sub/b\.html:1:11: error: ", "!d/sub/old"),
        tools=("git",),
    ),
    Case(
        "a comment of Markdown's own",
        {"a.md": "[//]: # (urlcheck: ignore)\n[a](<b c>)\n\n[d](<e f>)\n"},
        "ud a.md",
        1,
        out=(r"^a\.md:4:7: error: ", "!a.md:2"),
        err=("1 ignored", "!warning"),
        modules=("markdown_it",),
    ),
    Case(
        "a link of CSS after a broken one",
        {"a.css": "a{b:url(c d)} e{f:url(g^h)}\n"},
        "ud -q a.css",
        1,
        out=(r"^a\.css:1:10: error: ", r"^a\.css:1:24: error: "),
        modules=("tinycss2",),
    ),
)
