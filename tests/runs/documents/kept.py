"""Commands that could lose something: a document, a report, known faults, a file's mode, a run's other documents."""

from cases import Case

BAD = '<a href="http://h/a b">x</a>\n'
GOOD = '<a href="http://h/a%20b">x</a>\n'
OTHER = '<a href="http://h/c^d">x</a>\n'
FEED = (
    '{"version": "https://jsonfeed.org/version/1.1", "home_page_url": "http://h/a b", "feed_url": "http://h/\\ud800"}\n'
)
REFUSED = r"^{}:1:20: error: .* \[code-point\]$"

INTO_ITSELF = {
    "fix": "ud --fix --output o.html o.html",
    "output": "ud --output o.html o.html",
    "output by another path": "ud --output ./d/../o.html o.html",
    "output into a hard link": "ln o.html hard.html; ud --output hard.html o.html",
    "output into a symbolic link": "ln -s o.html soft.html; ud --output soft.html o.html",
    "output into what a link names": "ln -s o.html soft.html; ud --output o.html soft.html",
    "list": "ud --list --output o.html o.html",
    "statistics": "ud --statistics --output o.html o.html",
    "difference": "ud --diff --output o.html o.html",
    "baseline": "ud --write-baseline o.html o.html",
    "baseline into a link": "ln -s o.html soft.html; ud --write-baseline soft.html o.html",
}
"""Lines that name a document as the file that is written."""

ACCESS = """
import os, struct
name = "x.html"
entries = [(1, 6, -1), (2, 6, 65534), (4, 4, -1), (16, 6, -1), (32, 4, -1)]
access = struct.pack("<I", 2) + b"".join(struct.pack("<HHi", *it) for it in entries)
os.chmod(name, 0o644)
os.setxattr(name, "user.of", b"mine")
os.setxattr(name, "system.posix_acl_access", access)
"""
"""Gives a file an attribute, and an access control list in which a user may write that the group may not."""

KEPT = """
import os
name = "x.html"
for it in sorted(os.listxattr(name)):
    print(it, os.getxattr(name, it).hex())
print(oct(os.stat(name).st_mode))
"""

CASES = tuple(
    Case(
        "the document is the file that is written: " + name,
        {"o.html": BAD, "d/x.txt": ""},
        line,
        2,
        out=("!.",),
        err=(r"o\.html|soft\.html|hard\.html",),
    )
    for name, line in INTO_ITSELF.items()
) + (
    Case(
        "a report within the folder that is read",
        {"site/a.html": BAD, "site/r.html": OTHER},
        "ud --output site/r.html site; ended=$?; cat site/r.html; ud --output site/r.html site; [ $ended = $? ] || exit 9; exit $ended",
        1,
        out=(REFUSED.format("site/a.html"), "!site/r.html"),
        err=("1 document, 1 link, 1 refused",),
        after={"site/r.html": "site/a.html:1:20: error: U+0020 SPACE is not allowed in a URL [code-point]\n"},
    ),
    Case(
        "a report that can't be begun leaves the one of before",
        {"a.html": BAD, "r.txt": "before\n"},
        "ud --output r.txt --base 'http://a b/' a.html",
        2,
    ),
    Case(
        "a report that isn't written to its end leaves the one of before",
        {"a.html": BAD * 4000, "r.txt": "before\n"},
        "ulimit -f 64; ud --output r.txt a.html",
        3,
    ),
    Case(
        "known faults that are written anew, with a new one",
        {"site/a.html": BAD + OTHER},
        "ud -q --write-baseline k.txt site; printf '<a href=\"http://h/new one\">' >site/b.html\n"
        "ud --baseline k.txt --write-baseline k.txt site && ud --baseline k.txt site",
        0,
        err=("0 refused.* 3 known",),
    ),
    Case(
        "known faults that aren't there any more aren't kept",
        {"site/a.html": BAD + OTHER},
        "ud -q --write-baseline k.txt site; printf '<p>' >site/a.html; ud -q --baseline k.txt --write-baseline k.txt site\n"
        "printf '<a href=\"http://h/c^d\">' >site/a.html; ud --baseline k.txt site",
        1,
        after={"site/a.html": '<a href="http://h/c^d">'},
    ),
    Case(
        "known faults of what isn't read aren't gone",
        {"a.html": BAD, "b.html": BAD},
        "ud -q --write-baseline k.txt a.html b.html; ud --baseline k.txt a.html",
        0,
        err=("!gone", "1 known"),
    ),
    Case(
        "known faults of what can't be read aren't gone",
        {"a.html": BAD, "b.html": BAD},
        "ud -q --write-baseline k.txt a.html b.html; printf '\\377' >b.html; ud --baseline k.txt a.html b.html",
        2,
        err=("!gone",),
        after={"b.html": b"\xff"},
    ),
    Case(
        "known faults that were mended are gone",
        {"a.html": BAD, "b.html": BAD},
        "ud -q --write-baseline k.txt a.html b.html; printf '<p>' >b.html; ud --baseline k.txt a.html b.html",
        0,
        err=("1 fault .*gone",),
        after={"b.html": "<p>"},
    ),
    Case(
        "what is fixed of known faults isn't said to be gone",
        {"a.html": BAD + OTHER},
        "ud -q --write-baseline k.txt a.html; ud --fix --baseline k.txt a.html",
        0,
        err=("!gone",),
        after={"a.html": None},
    ),
    Case(
        "the mode and the attributes of a file that is fixed",
        {"x.html": BAD, "give.py": ACCESS, "say.py": KEPT},
        "python give.py 2>/dev/null || exit 0; python say.py >before; ud -q --fix x.html; grep -q a%20b x.html && python say.py | cmp - before",
        0,
        after={"x.html": None},
    ),
    Case(
        "the mode of a file",
        {"x.html": BAD},
        "chmod 640 x.html; ud -q --fix x.html; stat -c %a x.html",
        0,
        out=("^640$",),
        after={"x.html": GOOD},
    ),
    Case(
        "a pipe that nobody writes isn't waited for when it is to be fixed",
        {"b.html": BAD},
        "mkfifo p.html; ud --fix p.html b.html; s=$?; [ $SECONDS -lt 30 ] || exit 9; exit $s",
        2,
        err=(r"p\.html",),
        after={"b.html": GOOD},
    ),
    Case(
        "a pipe that is written isn't read to be fixed",
        {},
        "mkfifo p.html; (echo '<a href=\"b c\">' >p.html) & ud --fix p.html; s=$?; kill $!; exit $s",
        2,
        err=(r"p\.html",),
    ),
    Case(
        "a pipe in place of a configuration",
        {"b.html": BAD},
        "mkfifo .urlcheck.toml; ud b.html",
        2,
        err=(r"\.urlcheck\.toml",),
    ),
    Case("a device isn't fixed", {}, "ln -s /dev/zero z.html; ud --fix z.html", 2, err=(r"z\.html",)),
    Case(
        "a folder in place of a configuration",
        {"b.html": BAD},
        "mkdir .urlcheck.toml; ud b.html",
        2,
        err=(r"\.urlcheck\.toml",),
    ),
    Case(
        "a file that is larger than 32 MiB only once it is fixed",
        {},
        "python -c \"import sys; sys.stdout.write('<a href=\\\"http://h/a b\\\">x</a>\\n' * 9 + '.' * (32 * 1024 * 1024 - 9 * 29))\" >x.html\n"
        "ud --fix x.html; s=$?; head -c 31 x.html; exit $s",
        0,
        out=(r"^<a href=\"http://h/a%20b\">x</a>$",),
        err=("9 fixed",),
    ),
    Case(
        "a file that is larger than 32 MiB",
        {},
        "printf '<a href=\"http://h/a b\">' >x.html; truncate -s 33M x.html; ud --fix x.html; s=$?; head -c 23 x.html; exit $s",
        2,
        out=("http://h/a b",),
        err=("32 MiB",),
    ),
    Case(
        "a wrong configuration below: nothing is fixed",
        {**{"d/{}.html".format(it): BAD for it in range(130)}, "d/z/.urlcheck.toml": "gmf = true\n", "d/z/x.html": BAD},
        "ud --fix d",
        2,
        out=("!.",),
        err=("gmf",),
    ),
    Case(
        "a wrong configuration below: nothing is reported",
        {**{"d/{}.html".format(it): BAD for it in range(130)}, "d/z/.urlcheck.toml": "gmf = true\n", "d/z/x.html": BAD},
        "ud --format sarif d",
        2,
        out=("!.",),
        err=("gmf",),
    ),
    Case(
        "a wrong configuration below: the report of before stays",
        {"d/a.html": BAD, "d/z/.urlcheck.toml": "gmf = true\n", "d/z/x.html": BAD, "r.xml": "before"},
        "ud --format junit --output r.xml d",
        2,
        out=("!.",),
    ),
    Case(
        "a folder outside of Git drops no other",
        {"plain/a.html": BAD, "bad.html": BAD},
        "export GIT_CEILING_DIRECTORIES=$PWD; ud --git plain bad.html",
        2,
        out=(REFUSED.format("bad.html"),),
        err=("plain",),
        tools=("git",),
    ),
    Case(
        "Git runs nothing that a folder's configuration names",
        {"g/a.html": BAD},
        "git -C g init -q; git -C g add a.html; git -C g config core.fsmonitor 'touch pwned; echo'; ud -q --git g; s=$?; [ ! -e g/pwned ] && [ ! -e pwned ] || exit 9; exit $s",
        1,
        out=(REFUSED.format("g/a.html"),),
        tools=("git",),
    ),
    Case(
        "one text with a surrogate drops no other link of CSS",
        {"x.html": '<a href="http://h/a b"><style>a{b:url("x\\d800 y")}</style>\n'},
        "ud x.html",
        None,
        out=(REFUSED.format("x.html"),),
        err=("!Unicode",),
        modules=("tinycss2",),
    ),
    Case(
        "one text with a surrogate drops no other link of a feed",
        {"x.jsonfeed": FEED},
        "ud x.jsonfeed",
        None,
        out=(r"^x\.jsonfeed:1:{}: error: .* \[code-point\]$".format(FEED.index("a b") + 2),),
        err=("!Unicode",),
    ),
    Case("a list is mended by what is the same alone", {"l": "file:a[1] b\n"}, '"$PROGRAM" mend --in-place l', 1),
    Case(
        "a list whose name isn't UTF-8 stops no other",
        {"b": "http://h/a b\n"},
        "printf 'http://h/a b\\n' >$'a\\xff'; \"$PROGRAM\" mend --in-place $'a\\xff' b",
        None,
        after={"b": "http://h/a%20b\n"},
    ),
    Case(
        "what an earlier run of mend left stops none, or is told with what to do",
        {"l": "http://h/a b\n", "l.urlcheck-new": "x"},
        "\"$PROGRAM\" mend --in-place l 2>said || grep -Eq 'l\\.urlcheck-new.*(remove|delete)|(remove|delete).*l\\.urlcheck-new' said",
        0,
        after={"l": None, "l.urlcheck-new": None},
    ),
)
