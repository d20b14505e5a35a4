"""Holds the schemas of docs/schemas against what is real: schemas.py PROGRAM. Each line of reports in JSON, of PROGRAM and of
urlcheck.documents, is one by its schema; the configurations that the package takes are valid by the other. The package is on
PYTHONPATH."""

import importlib.util
import json
import os
import subprocess
import sys
import tempfile

TOP = os.path.join(os.path.dirname(os.path.abspath(__file__)), "..", "..", "..")
LEFT_OUT = [it for it in ("jsonschema", "tomllib") if not importlib.util.find_spec(it)]

CONFIGURATIONS = (
    "",
    'profile = "wide"\nbase = "https://example.com/"\nformat = "caret"\ngfm = true\nno-empty = false\n',
    "ignore = ['\\{\\{', 'x']\nexclude = ['drafts/*']\nselect = ['percent', 'no-link,empty']\nignore-rules = []\n",
    'kinds = { "md.in" = "markdown", x = "json-feed" }\n',
    'profile = "wider"\n', "profile = 1\n", "base = ['x']\n", "ignore = 'x'\n", "ignore = ['(']\n", "ignore = [1]\n",
    "select = ['percnt']\n", "select = 'percent'\n", "ignore-rules = ['percent,x']\n", "exclude = [true]\n", "gfm = 'yes'\n",
    "no-empty = 1\n", "format = 'xml'\n", "format = 1\n", "kinds = 'x'\n", 'kinds = { x = "y" }\n', "profiles = 'wide'\n",
)
"""Those that are right, and those that aren't."""

LINKS = (
    "http://h/a b", "http://h/%zz", "x", "http:h", "http://", "http://a_b/", "http://1.2.3/", "http://[::g]/", "a://b^/", "http://h:x/",
    "http://h:99999/", "http://h//a", "file://h/C:/x", "http://h/{{ x }}", "http://h/" + 3000 * "a" + "^", "https://https://h/", "\xff",
    70_000 * "a", "",
)
"""Lines of a list, of which almost all are refused."""

PAGE = "<img src=''><a href='x y'>\n<a href='http://h/ü^'><a href='{{ x }}'><a href='http://a_b/'>"


def schema(name):
    """The validator of a schema, which is one itself."""
    import jsonschema

    with open(os.path.join(TOP, "docs", "schemas", name + ".json"), encoding="utf-8") as file:
        found = json.load(file)
    jsonschema.Draft7Validator.check_schema(found)
    return jsonschema.Draft7Validator(found, format_checker=jsonschema.FormatChecker(["regex"]))


def lines_of(words, given=b""):
    """The lines that a program writes."""
    ran = subprocess.run(words, input=given, stdout=subprocess.PIPE, stderr=subprocess.DEVNULL, check=False)
    return ran.stdout.decode().splitlines()


def reports(program, room):
    """Lines of reports in JSON, each as a value."""
    links = b"".join(it.encode("latin-1") + b"\n" for it in LINKS)
    located = b"".join(b"a.html:%d:7:%s\n" % (at, it.encode("latin-1")) for at, it in enumerate(LINKS, 1)) + b"no place\n"
    page = os.path.join(room, "a.html")
    with open(page, "w", encoding="utf-8") as file:
        file.write(PAGE)
    lint, documents = [program, "lint", "--format", "json"], [sys.executable, "-m", "urlcheck.documents", "--format", "json"]
    lines = lines_of([*lint, "-"], links) + lines_of([*lint, "--all", "--base", "urn:x", "-"], links)
    lines += lines_of([*lint, "--located", "-"], located) + lines_of([*documents, page])
    if importlib.util.find_spec("markdown_it"):
        lines += lines_of([*documents, "--gfm", "--type", "markdown", "-"], b"[a](b c)")
    return [json.loads(it) for it in lines]


def is_taken(text, room):
    """Whether the package takes a configuration."""
    for name, data in ((".urlcheck.toml", text), ("a.html", "<a href=x>")):
        with open(os.path.join(room, name), "w", encoding="utf-8") as file:
            file.write(data)
    words = [sys.executable, "-m", "urlcheck.documents", "-q", os.path.join(room, "a.html")]
    return subprocess.run(words, cwd=room, stdout=subprocess.DEVNULL, stderr=subprocess.DEVNULL, check=False).returncode != 2


def main():
    if LEFT_OUT:
        print("library: the schemas are left out, since {} isn't installed".format(" and ".join(LEFT_OUT)))
        return
    import tomllib

    of_reports, of_configurations, taken = schema("json"), schema("configuration"), 0
    with tempfile.TemporaryDirectory() as room:
        found = reports(sys.argv[1], room)
        for it in found:
            of_reports.validate(it)
        for text in CONFIGURATIONS:
            taken += is_taken(text, room)
            if is_taken(text, room) != of_configurations.is_valid(tomllib.loads(text)):
                sys.exit("FAILED: docs/schemas/configuration.json and the package judge this otherwise: {!r}".format(text))
    rules = {it["rule"] for it in found}
    missing = set(of_reports.schema["properties"]["rule"]["enum"]) - rules - {"no-link"}
    if missing or not 3 < taken < len(CONFIGURATIONS) - 3:
        sys.exit("FAILED: no report has the rules {}, or {} configurations are taken".format(sorted(missing), taken))
    for key in of_reports.schema["required"] + ["mended"]:
        spoiled = {name: value for name, value in next(it for it in found if "mended" in it).items() if name != key}
        if of_reports.is_valid(spoiled) or of_reports.is_valid({**found[0], "more": 1}):
            sys.exit("FAILED: docs/schemas/json.json takes a diagnostic without {}".format(key))
    print("library: {} lines of JSON and {} configurations by their schemas".format(len(found), len(CONFIGURATIONS)))


if __name__ == "__main__":
    main()
