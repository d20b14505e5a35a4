"""Commands with words, folders and configurations that aren't right, or not as they seem: how each ends, and what it
says."""

from cases import Case

BAD = '<a href="http://h/a b">x</a>\n'
PERCENT = '<a href="http://h/a b">x</a> <a href="http://h/%zz">x</a>\n'
TOO_DEEP = "a/" * 1100

TABLES = {
    "a table within a table": '[tool]\nurlcheck = { select = ["percent"] }\n',
    "keys with a full stop": '[tool]\nurlcheck.select = ["percent"]\n',
    "a key in quotes": '[tool."urlcheck"]\nselect = ["percent"]\n',
    "a whole key": 'tool.urlcheck.select = ["percent"]\n',
}
"""Ways to write a project's configuration in its file of Python."""

CASES = (
    Case(
        "a base that only the project's profile takes, with another profile asked for",
        {".urlcheck.toml": 'base = "http://a_b/"\nprofile = "wide"\n', "x.html": BAD},
        "ud --profile standard x.html",
        2,
        out=("!.",),
        err=("base",),
    ),
    Case(
        "a base that isn't UTF-8", {"x.html": BAD}, "ud --base $'http://h/\\xff' x.html", 2, out=("!.",), err=("base",)
    ),
    Case(
        "a name of standard input that is deep",
        {},
        "ud --stdin-name {}x.html - </dev/null".format(TOO_DEEP),
        None,
        err=("!.{2000}",),
    ),
    Case(
        "a folder that is deep",
        {},
        "python - <<'END'\nimport os\nfor _ in range(1100):\n    os.mkdir('a')\n    os.chdir('a')\n"
        "open('x.html', 'w').write('<a href=\"b c\">')\nEND\nud . >/dev/null; s=$?; rm -rf a; [ $s != 3 ] && [ $s -lt 4 ]",
        0,
    ),
    Case(
        "the current folder was deleted",
        {"x.html": BAD},
        "mkdir d; cd d; rmdir ../d; ud x.html",
        2,
        err=("!standard output",),
    ),
    Case(
        "a base by the project's profile",
        {".urlcheck.toml": 'profile = "wide"\n', "x.html": BAD},
        "ud --base http://a_b/ x.html",
        1,
        err=("!base",),
    ),
    Case(
        "the rules that are asked for go before the project's",
        {".urlcheck.toml": 'select = ["percent"]\n', "x.html": PERCENT},
        "ud --select code-point x.html",
        1,
        out=(r"\[code-point\]$", r"!\[percent\]$"),
    ),
    Case(
        "the project's rules",
        {".urlcheck.toml": 'select = ["percent"]\n', "x.html": PERCENT},
        "ud x.html",
        1,
        out=(r"\[percent\]$", r"!\[code-point\]$"),
    ),
    Case("a rule that is misspelt", {"x.html": BAD}, "ud --ignore code-pont x.html", 2, err=("code-point",)),
    Case("an option that isn't there", {"x.html": BAD}, "ud --cache x.html", 2, err=("--cache", "!--check")),
    Case(
        "counts in a format",
        {"x.html": BAD},
        "ud --statistics --format json x.html",
        None,
        out=(r"^[{\[]|^$",),
        err=(r"--format|--statistics|1 document",),
    ),
    Case("known faults of a file that isn't there", {"x.html": BAD}, "ud --baseline k.txt x.html", 2, err=(r"k\.txt",)),
    Case(
        "a report into a folder that isn't there", {"x.html": BAD}, "ud --output d/r.txt x.html", 3, err=(r"d/r\.txt",)
    ),
    Case(
        "a file that isn't there beside one that is",
        {"x.html": BAD},
        "ud y.html x.html",
        2,
        out=(r"^x\.html:1:20: error: ",),
        err=(r"y\.html",),
    ),
    Case("a name with controls in its message", {}, "ud $'a\\e[31m\\u202eb.html'", 2, err=("can't be read",)),
) + tuple(
    Case(
        "a project's configuration: " + name,
        {"pyproject.toml": text, "x.html": PERCENT},
        "ud x.html",
        1,
        out=(r"\[percent\]$", r"!\[code-point\]$"),
    )
    for name, text in TABLES.items()
)
