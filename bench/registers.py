"""What the checker costs in SQLite and in Python: registers.py LINKS MODULE PATTERN (see registers.sh). Each figure is the least
processor time of three rounds; those that are wanted fail the run where they are missed by more than 5 %."""

import re
import sqlite3
import sys
import time

import urlcheck

try:
    import numpy
    import pandas
except ImportError:
    numpy = pandas = None
try:
    import pyarrow
except ImportError:
    pyarrow = None

WANTED = {"is_valid": 0.6, "check, its parts read": 1.5, "resolve": 1.5, "check_many, a list": 0.5, "check_many, Arrow": 0.15}
failed = []


def least(run, rounds=3):
    found = []
    for _ in range(rounds):
        begun = time.process_time()
        run()
        found.append(time.process_time() - begun)
    return min(found)


def say(name, seconds, count):
    each = seconds / count * 1e6
    wanted = WANTED.get(name)
    missed = wanted is not None and each > wanted * 1.05
    print("  {:32} {:7.3f} us a link{}".format(name, each, "" if wanted is None else ", wanted {}{}".format(wanted, ": MISSED" * missed)))
    if missed:
        failed.append(name)


def sqlite(links, module, pattern):
    database = sqlite3.connect(":memory:")
    try:
        database.enable_load_extension(True)
    except AttributeError:
        print("SQLite: Python's sqlite3 loads no extensions here")
        return
    database.load_extension(module)
    matcher = re.compile(pattern)
    database.create_function("regexp", 2, lambda _, text: matcher.match(text) is not None, deterministic=True)
    rows = [(link,) for link, valid in zip(links, urlcheck.is_valid_many(links)) if valid and matcher.match(link)]
    print("SQLite: inserts of {} links from Python, and scans".format(len(rows)))
    checks = {"no check": "", "url_is_valid": "CHECK (url_is_valid(url))", "url_require": "CHECK (url_require(url))",
              "the pattern, in Python": "CHECK (url REGEXP 'x')"}
    for name, check in checks.items():
        def fill():
            database.execute("DROP TABLE IF EXISTS link")
            database.execute("CREATE TABLE link (url TEXT {})".format(check))
            database.executemany("INSERT INTO link VALUES (?)", rows)
        say("insert, " + name, least(fill), len(rows))
    for name in ("length(url)", "url_is_valid(url)", "url_is_valid(url, 'http://h/')", "url_host(url)", "url_resolve(url)", "url REGEXP 'x'"):
        say("scan, " + name, least(lambda: database.execute("SELECT count({}) FROM link".format(name)).fetchone()), len(rows))


def calls(links):
    some = links[: min(len(links), 200_000)]
    print("Python {}.{}: calls over {} links, and over {} at once".format(*sys.version_info[:2], len(some), len(links)))

    def read(link):
        answer = urlcheck.check(link)
        return answer and (answer.scheme, answer.host, answer.port, answer.path, answer.query, answer.fragment)

    base = urlcheck.Base("http://h/")
    for name, call in (("is_valid", urlcheck.is_valid), ("is_valid, a base", lambda link: urlcheck.is_valid(link, base)),
                       ("check, its parts read", read), ("resolve", urlcheck.resolve), ("mend", urlcheck.mend)):
        def each():
            for link in some:
                call(link)
        say(name, least(each), len(some))
    columns = {"a list": links}
    if numpy:
        columns["a numpy array of objects"] = numpy.array(links, object)
        columns["a pandas Series"] = pandas.Series(links)
    if pyarrow:
        columns["Arrow"] = pyarrow.array(links)
    for kind, column in columns.items():
        for call in (urlcheck.check_many, urlcheck.is_valid_many, urlcheck.resolve_many, urlcheck.mend_many):
            say("{}, {}".format(call.__name__, kind), least(lambda: call(column)), len(links))


def main(path, module, pattern):
    with open(path, encoding="utf-8", newline="\n") as file:
        links = file.read().split("\n")[:-1]
    sqlite(links, module, pattern)
    calls(links)
    return 1 if failed else 0


if __name__ == "__main__":
    sys.exit(main(*sys.argv[1:]))
