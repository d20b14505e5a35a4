"""Commands that could write what isn't the same link, or isn't a link at all; and the differences in place of
that."""

from cases import Case

BOOK = """
import zipfile
with zipfile.ZipFile("b.epub", "w") as book:
    for name in {!r}:
        book.writestr(name, '<html xmlns="http://www.w3.org/1999/xhtml"><body><a href="http://h/a b">x</a></body></html>')
"""
"""Writes a book with documents of these names, each with a wrong link."""

MARKDOWN = ("markdown_it",)
TEXTS = {
    "prose.md": "Call handlers[i](event data); see [sic](my own note).\n",
    "image.md": '![b](my pic.png "T")\n\n[r]: my page.md\n',
}
"""Markdown in which something looks like a link, or was meant as one."""

NO_LINKS = {
    "escaped.md": "\\[a](b c)\n",
    "code.md": "`[a](b c)`\n\n    [a](b c)\n\n```\n[a](b c)\n```\n",
    "math.md": "It is $[i](j k)$, and $$\n[i](j k)\n$$\n",
    "size.md": "![](pic.png =100x20)\n",
    "function.mdx": "export const f = () => handlers[i](event, data)\n\nText\n",
    "import.mdx": "import a from './b.js'\n\nexport const meta = { call: handlers[0](one, two) }\n\n# Title\n",
    "expression.mdx": '<a href={url}>x</a> <img src={pics[0](a, b)} alt="" />\n\n{list[i](one, two)}\n',
}
"""Markdown that has no link and no fault."""

FRONT_MATTER = {
    "escape.md": '---\nurl: "http://h/caf\\u00e9"\n---\n',
    "escape of TOML.md": '+++\nurl = "http://h/caf\\u00e9"\n+++\n',
    "block.md": "---\nabstract: |\n  https://e.org/x hosts it.\nlines: |\n  url: http://h/a b\nfolded: >-\n  see\n  https://e.org/y z\n\n  and more\nurl: https://e.org/\n---\n",
    "keys.md": "---\nr:\n  - https://a.e/x: /y\nhttps://b.e/a b: c\n---\n",
    "lines of TOML.md": '+++\ntext = """\nurl = "http://h/a b"\n"""\n+++\n',
}
"""Front matter in which no link is wrong."""

SAME = (
    ("a.md", '---\nurl: "http://h/a b"\n---\n', '---\nurl: "http://h/a%20b"\n---\n'),
    ("b.md", '---\nurl: "http://h/caf\\u00e9 x"\n---\n', '---\nurl: "http://h/caf\\u00e9%20x"\n---\n'),
    ("a.html", '<a href="http://h/?a=1&amp;b=c d">', '<a href="http://h/?a=1&amp;b=c%20d">'),
    (
        "a.rss",
        "<rss><channel><link>http://h/?a=1&amp;b=c d</link></channel></rss>",
        "<rss><channel><link>http://h/?a=1&amp;b=c%20d</link></channel></rss>",
    ),
    (
        "a.xhtml",
        '<html xmlns="http://www.w3.org/1999/xhtml"><body><img src="a b.png?c&amp;d"/></body></html>',
        '<html xmlns="http://www.w3.org/1999/xhtml"><body><img src="a%20b.png?c&amp;d"/></body></html>',
    ),
)
"""Links that are fixed: the name of the file, and its text before and after."""

ELSEWHERE = {
    "slash.html": '<a href="http:/x">',
    "slash and base.html": '<base href="http://site/"><a href="http:/x">',
    "numbers.html": '<a href="http://127.0.0.1/a b">',
    "octal.html": '<a href="http://0177.0.0.1/a b">',
    "hex.html": '<a href="http://0x7f&#9;.1/a b">',
    "tab.html": '<a href="http://127.0.0.1\t/a b">',
    "full stop.html": '<a href="http://127.0.0.1./a b">',
}
"""Wrong links that may be another URL, or look like another."""

BROKEN = {
    "a space in a name": ("my dir/my page.html", '<p>\n<a href="http://h/a{}b">\n'),
    "a byte order mark": ("b.html", '\ufeff<a href="http://h/a{}b">\n<p>\n'),
    "lines that end with CR and LF": ("c.html", '<p>\r\n<a href="http://h/a{}b">\r\n<p>\r\n'),
    "no line's end": ("d.html", '<p>\n<a href="http://h/a{}b">'),
    "letters that aren't ASCII": ("s\u00e9 & co.html", '<p>\u00e9\n<a href="http://h/a{}b">\n'),
}
"""Documents with a fault, of which a difference is to be taken."""

APPLY = {"patch": "patch -s -p0 <d", "git": "git apply -p0 d"}
"""What takes a difference."""

FILES = {name: text.format(" ") for name, text in BROKEN.values()}
FIXED = {name: text.format("%20") for name, text in BROKEN.values()}
NAMES = " ".join("'{}'".format(it) for it in FILES)

CASES = (
    Case(
        "text that only looks like a link isn't written", TEXTS, "ud --fix .", 1, err=(r"\b0 fixed",), modules=MARKDOWN
    ),
    Case(
        "text that only looks like a link isn't written in GitHub's Markdown",
        TEXTS,
        "ud --gfm --fix .",
        1,
        err=(r"\b0 fixed",),
        modules=MARKDOWN,
    ),
    Case(
        "text that only looks like a link is written if that is asked for",
        {"a.md": "[a](b c)\n"},
        "ud -q --gfm --fix --unsafe-fixes a.md; grep -qxF -e '[a](b%20c)' -e '[a](<b c>)' a.md",
        0,
        after={"a.md": None},
        modules=MARKDOWN,
    ),
    Case("no link and no fault", NO_LINKS, "ud --fix --unsafe-fixes .", 0, out=("!.",), modules=MARKDOWN),
    Case(
        "no link and no fault of GitHub's Markdown",
        NO_LINKS,
        "ud --gfm --fix --unsafe-fixes .",
        0,
        out=("!.",),
        modules=MARKDOWN,
    ),
    Case(
        "a fault in MDX beside an expression",
        {"a.mdx": '<a href={u}>x</a> <a href="http://h/a^b">y</a>\n'},
        "ud -q a.mdx",
        1,
        out=(r"^a\.mdx:1:38: error: .* \[code-point\]$", "!:1:9:"),
        modules=MARKDOWN,
    ),
    Case(
        "a fault in a book's and a template's link is counted with its reason",
        {"t.html": '<a href="/{{ a b }}">'},
        "python - <<'END'\n" + BOOK.format(["a.xhtml", "b.xhtml"]) + "END\nud --fix b.epub t.html",
        1,
        err=(r"3 .*(aren't|isn't|not) fixed", r"(EPUB|book)", "1 a template"),
    ),
    Case(
        "names within a book forge no line",
        {},
        "python - <<'END'\n"
        + BOOK.format(["x\nother.html", "x\nother.html:7:1:http://evil/.html", "a:1:1:b.html", "c.html"])
        + "END\nud --list b.epub",
        None,
        out=(r"^b\.epub/c\.html:1:\d+:http://h/a b$", r"!^(?!b\.epub/c\.html:1:\d+:)."),
    ),
    Case(
        "names within a book forge no line of a report",
        {},
        "python - <<'END'\n"
        + BOOK.format(["x\nother.html:7:1: error: evil [percent].html", "c.html"])
        + "END\nud -q b.epub",
        None,
        out=(r"!^other",),
    ),
    Case(
        "what is to be written is shown as its document needs it",
        {"a.html": '<a href="http://h/?a=1&amp;b=c d">'},
        "ud -q --format caret a.html",
        1,
        out=(r"help: .*http://h/\?a=1&amp;b=c%20d",),
    ),
    Case(
        "the URL that docutils makes of a link with a space stays",
        {"a.rst": "`t <http://h/a b>`__\n"},
        "ud -q --fix a.rst; python -c \"import docutils.core as c; print(c.publish_doctree(open('a.rst').read()).pformat())\"",
        0,
        out=(r"refuri=\"http://h/ab\"",),
        after={"a.rst": None},
        modules=("docutils",),
    ),
    Case(
        "one slash is written if that is asked for",
        {"a.html": '<a href="http:/x">'},
        "ud -q --fix --unsafe-fixes a.html",
        0,
        after={"a.html": None},
    ),
    Case(
        "front matter that is valid", FRONT_MATTER, "ud --fix .", 0, out=("!.",), err=(r"\b0 fixed",), modules=MARKDOWN
    ),
    Case(
        "a text in front matter isn't written",
        {"a.md": "---\ntitle: https://e.com is down\n---\n"},
        "ud --fix a.md",
        None,
        err=(r"\b0 fixed",),
        modules=MARKDOWN,
    ),
    Case(
        "a first line that is a thematic break begins no front matter",
        {"a.md": "---\n\nSee [a](<http://h/a b>).\n\n---\n\nText\n"},
        "ud -q a.md",
        1,
        out=(r"^a\.md:3:20: error: .* \[code-point\]$",),
        modules=MARKDOWN,
    ),
    Case(
        "the same links are written",
        {name: before for name, before, _ in SAME},
        "ud --fix .",
        0,
        err=("5 fixed",),
        after={name: after for name, _, after in SAME},
        modules=MARKDOWN,
    ),
    Case("what may be another link isn't written", ELSEWHERE, "ud --fix .", 1, err=("7 refused.* 0 fixed",)),
) + tuple(
    Case(
        "a difference for {}, as {}".format(tool, where),
        FILES,
        "ud -q --diff {} >d; {}".format(names, apply),
        0,
        after=FIXED,
        tools=(tool,),
    )
    for tool, apply in APPLY.items()
    for where, names in (("a folder", "."), ("names", NAMES))
)
