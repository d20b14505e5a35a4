"""The extension for SQLite, from Python.

    sqlite.py tests MODULE             tests of tables, bases that are kept, and errors
    sqlite.py answers MODULE CASES     answers each case of a file of cases (see vectors.py)
"""

import json
import os
import sqlite3
import sys
import unittest

sys.path.insert(0, os.path.join(os.path.dirname(os.path.abspath(__file__)), "..", "library"))

from cases import PROFILES, unpacked
from vectors import COLUMNS

MODULE = sys.argv[2]


def connected():
    database = sqlite3.connect(":memory:")
    database.enable_load_extension(True)
    database.load_extension(MODULE)
    database.enable_load_extension(False)
    return database


class Registers(unittest.TestCase):
    def setUp(self):
        self.database = connected()

    def tearDown(self):
        self.database.close()

    def one(self, query, *values):
        row = self.database.execute(query, values).fetchone()
        return row[0] if row and len(row) == 1 else row

    def refuses(self, error, said, query, *values):
        with self.assertRaisesRegex(error, said):
            self.database.execute(query, values).fetchall()

    def says(self, said, query):
        """The statement is an error of these words."""
        with self.assertRaises(sqlite3.OperationalError) as refused:
            self.database.execute(query).fetchall()
        self.assertEqual(str(refused.exception), said)

    def test_sentences(self):
        for words, said in (
            ("'http://h/a b'", "invalid URL: U+0020 SPACE is not allowed in a URL (rule code-point at place 11); a valid text in its "
             "place: http://h/a%20b"),
            ("'http:a', 'http://h/'", "invalid URL: // has to follow this scheme (rule two-slashes at place 6); a valid text in its "
             "place, maybe of another URL: http://a"),
            ("'https://h//a'", "invalid URL: the path begins with //; write one slash, or use profile 'wide' (rule "
             "first-segment-empty at place 11); the same URL, written validly, is: https://h/.//a"),
            ("'https://h/%s'", "invalid URL: U+0025 PERCENT SIGN has to be followed by two hex digits; this looks like a template: "
             "check what it makes (rule percent at place 11); the same text, percent-encoded, is: https://h/%25s"),
            ("'tel:+1 2 '", "invalid URL: U+0020 SPACE is not allowed in a URL; write a number without spaces, as in "
             "tel:+1-555-0100 (rule code-point at place 7); a valid URL string that is near it is: tel:+1%202"),
            ("CAST(x'687474703a2f2f682fff' AS TEXT)", "invalid URL: the bytes from here on are not UTF-8 (rule no-utf8 at place 10)"),
            ("'x', 'no base'", "invalid base URL: it has no scheme (rule no-scheme at place 1 of the base)"),
            ("'x', NULL, 'loose'", 'unrecognized profile: valid profiles are "standard", "wide", and "parser"'),
        ):
            with self.subTest(words):
                self.says(said, "SELECT url_require({})".format(words))

    def test_constraints(self):
        self.database.execute("CREATE TABLE link (url TEXT CHECK (url_is_valid(url)))")
        self.database.execute("CREATE TABLE said (url TEXT CHECK (url_require(url)))")
        for table in ("link", "said"):
            self.database.execute("INSERT INTO {} VALUES ('http://h/'), (NULL)".format(table))
        self.refuses(sqlite3.IntegrityError, "CHECK constraint failed", "INSERT INTO link VALUES ('http://h/a b')")
        wanted = (
            r"invalid URL: U\+0020 SPACE is not allowed in a URL \(rule code-point at place 11\); "
            r"a valid text in its place: http://h/a%20b$"
        )
        self.refuses(sqlite3.OperationalError, wanted, "INSERT INTO said VALUES ('http://h/a b')")
        self.assertEqual(self.one("SELECT count(*) FROM said"), 2)

    def test_a_register(self):
        self.database.execute(
            "CREATE TABLE register (written TEXT CHECK (url_require(written)), "
            "url TEXT GENERATED ALWAYS AS (url_resolve(written)) STORED UNIQUE)"
        )
        self.database.execute("INSERT INTO register VALUES ('HTTP://H/a/../b'), ('http://h/c')")
        self.refuses(sqlite3.IntegrityError, "UNIQUE", "INSERT INTO register VALUES ('http://h:80/b')")
        self.database.execute("INSERT INTO register VALUES ('http://h:80/b') ON CONFLICT (url) DO NOTHING")
        self.assertEqual(self.database.execute("SELECT url FROM register ORDER BY 1").fetchall(),
                         [("http://h/b",), ("http://h/c",)])

    def test_an_index(self):
        self.database.execute("CREATE TABLE link (url TEXT)")
        self.database.execute("CREATE INDEX host ON link (url_host(url))")
        self.database.executemany("INSERT INTO link VALUES (?)", [("http://h{}/".format(n),) for n in range(100)])
        plan = self.database.execute("EXPLAIN QUERY PLAN SELECT * FROM link WHERE url_host(url) = 'h7'").fetchall()
        self.assertIn("USING INDEX host", str(plan))
        self.assertEqual(self.one("SELECT url FROM link WHERE url_host(url) = 'h7'"), "http://h7/")

    def test_a_schema_that_is_not_trusted(self):
        self.database.execute("PRAGMA trusted_schema = off")
        self.database.execute("CREATE TABLE link (url TEXT CHECK (url_is_valid(url)))")
        self.database.execute("CREATE VIEW wrong AS SELECT rule FROM link, url_faults(link.url)")
        self.database.execute("INSERT INTO link VALUES ('http://h/')")
        self.assertEqual(self.database.execute("SELECT * FROM wrong").fetchall(), [])

    def test_a_base_is_kept(self):
        """A base that stays is checked once, and one that changes, or its profile, at each row."""
        self.database.execute("CREATE TABLE link (url TEXT, base TEXT, profile TEXT)")
        rows = [("x", "http://h/", None), ("x", "mailto:x", None), ("//a_b/", "http://h/", "wide"), ("//a_b/", "http://h/", None)]
        self.database.executemany("INSERT INTO link VALUES (?, ?, ?)", rows * 3)
        found = self.database.execute("SELECT url_is_valid(url, base, profile) FROM link").fetchall()
        self.assertEqual([it for it, in found], [1, 0, 1, 0] * 3)
        found = self.database.execute("SELECT url_is_valid('//a_b/', 'http://h/', profile) FROM link").fetchall()
        self.assertEqual([it for it, in found], [0, 0, 1, 0] * 3)
        found = self.database.execute("SELECT url_is_valid(url, 'mailto:x') FROM link").fetchall()
        self.assertEqual([it for it, in found], [0] * 12)

    def test_tables(self):
        self.assertEqual(self.database.execute("SELECT rule, place FROM url_faults('http://h/a b|c%zz')").fetchall(),
                         [("code-point", 11), ("code-point", 13), ("percent", 15)])
        self.assertEqual(self.database.execute("SELECT * FROM url_faults(NULL)").fetchall(), [])
        self.assertEqual(self.one("SELECT count(*) FROM url_faults('http://h/' || printf('%.10000c', ' '))"), 10000)
        self.assertEqual(self.one("SELECT url, base FROM url_faults('a b', 'http://h/')"), ("a b", "http://h/"))
        self.assertEqual(self.one("SELECT valid, host, path FROM url_check('//h/x', 'http://b/')"), (1, "h", "/x"))
        self.assertEqual(self.one("SELECT valid, rule, place, path FROM url_check('a b', 'http://b/')"),
                         (0, "code-point", 2, None))
        self.database.execute("CREATE TABLE link (id INTEGER, url TEXT)")
        self.database.execute("INSERT INTO link VALUES (1, 'http://h/a b'), (2, 'http://h/'), (3, 'x')")
        found = self.database.execute("SELECT id, rule, place FROM link, url_faults(link.url)").fetchall()
        self.assertEqual(found, [(1, "code-point", 11), (3, "no-scheme", 1)])
        found = self.database.execute("SELECT id, c.scheme FROM link LEFT JOIN url_check(link.url) c ON c.valid").fetchall()
        self.assertEqual(found, [(1, None), (2, "http"), (3, None)])
        for table in ("url_check", "url_faults"):
            self.says("a url is wanted: (url [, base [, profile]])", "SELECT * FROM " + table)

    def test_bad_arguments(self):
        for function in ("url_is_valid", "url_resolve", "url_mend", "url_mend_kind", "url_host"):
            self.refuses(sqlite3.OperationalError, "unrecognized profile", "SELECT {}('x', NULL, 'loose')".format(function))
            self.refuses(sqlite3.OperationalError, r"invalid base URL: it has no scheme \(rule no-scheme at place 1",
                         "SELECT {}('x', 'no base')".format(function))
        for table in ("url_check", "url_faults"):
            self.refuses(sqlite3.OperationalError, "unrecognized profile", "SELECT * FROM {}('x', NULL, 'loose')".format(table))
            self.refuses(sqlite3.OperationalError, "invalid base URL", "SELECT * FROM {}('x', 'http://h/^')".format(table))
        self.refuses(sqlite3.OperationalError, "wrong number of arguments", "SELECT url_is_valid()")

    def test_bytes_that_are_no_utf8(self):
        wrong = "CAST(x'687474703a2f2f682fc3bcff' AS TEXT)"
        self.assertEqual(self.one("SELECT url_is_valid({0}), url_rule({0}), url_place({0}), url_resolve({0})".format(wrong)),
                         (0, "no-utf8", 11, None))
        self.assertEqual(self.one("SELECT rule, place FROM url_faults({})".format(wrong)), ("no-utf8", 11))
        self.refuses(sqlite3.OperationalError, "invalid base URL: the bytes from here on are not UTF-8", "SELECT url_is_valid('x', {})".format(wrong))

    def test_messages(self):
        """As `urlcheck lint` says them, in the words of SQL; in a longer text than 4096 bytes later faults only by their rules."""
        self.assertEqual(self.one("SELECT url_message('http://a_b/'), url_message('http://a_b/', NULL, 'wide')"),
                         ("U+005F LOW LINE is not allowed in a domain; profile 'wide' allows it", None))
        self.assertEqual(self.one("SELECT url_message('//a_b/', 'http://h/'), url_message('//a_b/ ', 'http://h/')"),
                         ("U+005F LOW LINE is not allowed in a domain; profile 'wide' allows it",
                          "U+005F LOW LINE is not allowed in a domain"))
        self.assertEqual(self.one("SELECT url_message('http://a..b/'), url_message('www.example.com')"),
                         ("a label of this domain is empty",
                          "there is no scheme and no base; write https:// before a host, or give the address of its page (base)"))
        self.assertEqual(self.one("SELECT url_message('http://u@h/', 'http://h/')"),
                         "a URL string has no credentials: no user name, password or @ before its host; leave them out")
        for length, said in ((4096, "U+005E CIRCUMFLEX ACCENT"), (4097, "this code point")):
            text = "http://h/".ljust(length - 1, "a") + "^"
            found = self.one("SELECT f.message, c.message, url_message(?1) FROM url_faults(?1) f, url_check(?1) c", text)
            self.assertEqual(found, (said + " is not allowed in a URL", *2 * ["U+005E CIRCUMFLEX ACCENT is not allowed in a URL"]))

    def test_nothing_is_stored(self):
        """No row stays from a statement that meets a bad argument, or a text that is refused."""
        self.database.execute("CREATE TABLE link (url TEXT CHECK (url_require(url)), base TEXT, made TEXT AS (url_resolve(url, base)) STORED)")
        for rows in ("('http://h/', NULL), ('http://h/ b', NULL)", "('http://h/', NULL), ('http://h/', 'no base')"):
            with self.assertRaises(sqlite3.OperationalError):
                self.database.execute("INSERT INTO link (url, base) VALUES " + rows)
        self.assertEqual(self.one("SELECT count(*) FROM link"), 0)

    def test_other_values(self):
        self.assertEqual(self.one("SELECT url_is_valid(5), url_is_valid(x''), url_is_valid(x'687474703a2f2f682f')"), (0, 0, 1))
        self.assertEqual(self.one("SELECT url_is_valid('http://h/' || char(0)), url_place('http://h/' || char(0))"), (0, 10))

    def test_a_text_of_100_mb(self):
        text = "http://h/" + 100_000_000 * "a"
        self.assertEqual(self.one("SELECT url_is_valid(?), length(url_resolve(?))", text, text), (1, 100_000_009))
        self.assertEqual(self.one("SELECT url_place(?)", text + " "), 100_000_010)
        self.refuses(sqlite3.OperationalError, r"at place 100000010\)$", "SELECT url_require(?)", text + " ")

    def test_the_version(self):
        self.assertRegex(self.one("SELECT urlcheck_version()"), r"^\d+\.\d+\.\d+$")


def answers(path):
    database = connected()
    words = "?1, ?2, ?3"
    columns = COLUMNS.format(words)
    names = ("rule", "place", "scheme", "host", "port", "path", "query", "fragment")
    for number, (text, base) in enumerate(unpacked(path)):
        for profile in PROFILES:
            try:
                row = list(database.execute("SELECT {}, url_is_valid({})".format(columns, words), (text, base, profile)).fetchone())
                check = database.execute("SELECT valid, {} FROM url_check({})".format(", ".join(names), words),
                                         (text, base, profile)).fetchone()
                faults = database.execute("SELECT rule, place FROM url_faults({})".format(words), (text, base, profile)).fetchall()
            except sqlite3.OperationalError as error:
                if not str(error).startswith("invalid base URL"):
                    raise
                continue
            row[-1] = bool(row[-1])
            print(json.dumps([number, profile, *row, dict(zip(("valid", *names), check)), faults]))


if __name__ == "__main__":
    if sys.argv[1] == "answers":
        answers(sys.argv[3])
    else:
        unittest.main(argv=sys.argv[:1])
