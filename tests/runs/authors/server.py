"""Tests of urlcheck-language-server by a client of its own: places, changes, actions, settings, limits, and what no client
should send. The package is on PYTHONPATH."""

import importlib.util
import json
import os
import queue
import random
import re
import subprocess
import sys
import tempfile
import threading
import time
import unittest

import urlcheck
from urlcheck._editors.editing import LinePlaces, Text, lines_of

PROGRAM = [sys.executable, "-m", "urlcheck.language_server"]
LINK = "[x](http://h/a^b)"
PATIENCE = 60
"""How many seconds a server may take to say something."""


def at(line, begin, end=None, last=None):
    """A range of a line, or of several."""
    start = {"line": line, "character": begin}
    return {"start": start, "end": {"line": line if last is None else last, "character": begin if end is None else end}}


class Client:
    """Speaks with a server."""

    def __init__(self, options=None, capabilities=None):
        self.process = subprocess.Popen(PROGRAM, stdin=subprocess.PIPE, stdout=subprocess.PIPE, stderr=subprocess.PIPE)
        self.number = 0
        self.notified = []
        # (what was said of other documents while one was waited for)
        self.passed = []
        self.asked = []
        self.versions = {}
        self.patience = PATIENCE
        self.said = queue.Queue()
        self.reader = threading.Thread(target=self.receive, daemon=True)
        self.reader.start()
        if capabilities is not False:
            given = {"processId": None, "rootUri": None, "capabilities": capabilities or {}, "initializationOptions": options}
            self.can = self.ask("initialize", given)["result"]
            self.tell("initialized", {})

    def write(self, data):
        self.process.stdin.write(data)
        self.process.stdin.flush()

    def send(self, message):
        data = message if isinstance(message, bytes) else json.dumps(message).encode()
        self.write(b"Content-Length: %d\r\n\r\n" % len(data) + data)

    def tell(self, method, params):
        self.send({"jsonrpc": "2.0", "method": method, "params": params})

    def begin(self, method, params):
        self.number += 1
        self.send({"jsonrpc": "2.0", "id": self.number, "method": method, "params": params})
        return self.number

    def receive(self):
        """Takes what the server says, until its end."""
        length = 0
        for line in iter(self.process.stdout.readline, b""):
            if line.startswith(b"Content-Length: "):
                length = int(line.split(b":")[1])
            if line == b"\r\n":
                self.said.put(json.loads(self.process.stdout.read(length).decode()))
        self.said.put(None)

    def read(self):
        """What the server says next, or nothing at its end. One that says nothing for long fails the test."""
        try:
            return self.said.get(timeout=self.patience)
        except queue.Empty:
            raise AssertionError("the server has said nothing for {} seconds".format(self.patience)) from None

    def answer(self, number):
        """The answer to a request; notifications until then are kept."""
        while True:
            said = self.read()
            if said is None or ("method" not in said and said.get("id") == number):
                return said
            (self.asked if "id" in said else self.notified).append(said)

    def ask(self, method, params):
        return self.answer(self.begin(method, params))

    def open(self, uri, text, language="x"):
        self.versions[uri] = 1
        item = {"uri": uri, "languageId": language, "version": 1, "text": text}
        self.tell("textDocument/didOpen", {"textDocument": item})
        return self.diagnostics(uri)

    def change(self, uri, *changes):
        self.versions[uri] += 1
        item = {"uri": uri, "version": self.versions[uri]}
        self.tell("textDocument/didChange", {"textDocument": item, "contentChanges": list(changes)})

    def diagnostics(self, uri):
        """What is said of the document as it is now."""
        while True:
            said = self.notified.pop(0) if self.notified else self.read()
            params = said.get("params", {})
            if said.get("method") == "textDocument/publishDiagnostics" and params["uri"] == uri:
                if params.get("version", self.versions[uri]) == self.versions[uri]:
                    return params["diagnostics"]
            self.passed.append(said)

    def actions(self, uri, range, **context):
        params = {"textDocument": {"uri": uri}, "range": range, "context": {"diagnostics": [], **context}}
        return self.ask("textDocument/codeAction", params)["result"]

    def end(self):
        """Ends the server as the protocol says. Gives its status."""
        self.ask("shutdown", None)
        self.tell("exit", None)
        status = self.process.wait(20)
        self.close()
        return status

    def stop(self):
        """Ends a server that isn't ended."""
        self.process.kill()
        self.process.wait()
        self.close()

    def close(self):
        self.reader.join()
        for pipe in (self.process.stdin, self.process.stdout, self.process.stderr):
            try:
                pipe.close()
            except BrokenPipeError:
                pass


def shown(diagnostics):
    """Returns the beginning, the end and the rule of each."""
    found = [(it["range"]["start"], it["range"]["end"], it["code"]) for it in diagnostics]
    return [(a["line"], a["character"], b["line"], b["character"], code) for a, b, code in found]


class Texts(unittest.TestCase):
    def test_lines(self):
        for text, lines in (("", [""]), ("a", ["a"]), ("a\n", ["a\n", ""]), ("\r\n\r\r\n\n", ["\r\n", "\r", "\r\n", "\n", ""]),
                            ("a\rb\u2028c\x0b\n", ["a\r", "b\u2028c\x0b\n", ""])):
            self.assertEqual(lines_of(text), lines)

    def test_changes(self):
        """Random changes, against a text that is changed as a whole, in each unit."""
        chooser = random.Random(7)
        points = ["a", "b^", "\n", "\r", "\r\n", "\u00e9", "\U0001f600", "\u65e5", ""]
        sizes = {"utf-8": lambda it: len(it.encode()), "utf-16": lambda it: len(it.encode("utf-16-le")) // 2, "utf-32": len}
        for encoding, size in sizes.items():
            for _ in range(150):
                whole = "".join(chooser.choices(points, k=chooser.randrange(30)))
                text = Text(whole, encoding)
                for _ in range(20):
                    begin, end = sorted(chooser.randrange(len(whole) + 1) for _ in range(2))
                    # (no client names a place between the two parts of a line's end)
                    if any(whole[it - 1 : it + 1] == "\r\n" for it in (begin, end)):
                        continue
                    places = []
                    for offset in (begin, end):
                        lines = lines_of(whole[:offset])
                        # (where the text before ends with a carriage return, it ends a line)
                        places.append({"line": len(lines) - 1, "character": size(lines[-1])})
                    written = "".join(chooser.choices(points, k=chooser.randrange(4)))
                    text.change([{"range": {"start": places[0], "end": places[1]}, "text": written}])
                    whole = whole[:begin] + written + whole[end:]
                    self.assertEqual(text.whole(), whole)
                    self.assertEqual(text._lines, lines_of(whole))
                positions = LinePlaces(whole, encoding)
                for offset in range(len(whole) + 1):
                    if whole[offset - 1 : offset + 1] != "\r\n":
                        lines = lines_of(whole[:offset])
                        self.assertEqual(positions.position(offset), (len(lines) - 1, size(lines[-1])))


class Served(unittest.TestCase):
    def start(self, *given, **more):
        client = Client(*given, **more)
        self.addCleanup(client.stop)
        return client

    def test_kinds_and_places(self):
        client = self.start()
        self.assertEqual(client.can["capabilities"]["positionEncoding"], "utf-16")
        for name, text, places in (
            ("a.md", "# \U0001f600\n\U0001f600 " + LINK + "\r\n<a href='https:///y'>\n", [(1, 17, 1, 19, "code-point"), (2, 17, 2, 19, "host-missing")]),
            ("b.html", "<a href='http://h/&amp;a b'>\r<img srcset='a^.png 1x' src>", [(0, 24, 0, 26, "code-point"), (1, 14, 1, 19, "code-point"), (1, 27, 1, 27, "empty")]),
            ("c.xml", "<rss><channel><link>http://h/\u00e9 b</link></channel></rss>", [(0, 30, 0, 32, "code-point")]),
            ("d.links", "http://h/\n\nhttp://h/a b\nx\n", [(2, 10, 2, 12, "code-point"), (3, 0, 3, 1, "no-scheme")]),
            ("e.rst", "`a <http://h/^>`_\n", [(0, 13, 0, 14, "code-point")]),
            ("f.ipynb", '{"cells": [{"cell_type": "markdown", "source": ["\\u00e9 [a](b^)"]}]}', [(0, 61, 0, 62, "code-point")]),
            ("g%20h.css", "a { b: url(c^) }", [(0, 12, 0, 13, "code-point")]),
            ("h.unknown", "http://h/a b", []),
        ):
            with self.subTest(name):
                self.assertEqual(shown(client.open("file:///nowhere/" + name, text)), places)
        for language, count in (("markdown", 1), ("restructuredtext", 0), ("plaintext", 0)):
            self.assertEqual(len(client.open("untitled:" + language, LINK, language)), count)
        self.assertEqual(client.end(), 0)

    def test_units(self):
        for options, capabilities, wanted in (
            (None, {}, "utf-16"), (None, {"general": {"positionEncodings": ["utf-8", "utf-16"]}}, "utf-8"),
            (None, {"general": {"positionEncodings": ["utf-32"]}}, "utf-32"), ({"columns": "bytes"}, {}, "utf-8"),
            (None, {"general": {"positionEncodings": ["x", 1]}}, "utf-16"),
        ):
            client = self.start(options, capabilities)
            self.assertEqual(client.can["capabilities"]["positionEncoding"], wanted)
            place = {"utf-16": 17, "utf-8": 19, "utf-32": 16}[wanted]
            self.assertEqual(shown(client.open("file:///nowhere/a.md", "\U0001f600 " + LINK))[0][:2], (0, place))
            client.end()

    def test_changes_actions_and_hover(self):
        client = self.start()
        uri = "file:///nowhere/a.md"
        client.open(uri, "a\n" + LINK + " [y](http:/z) [z](http://a_b/)\n")
        hover = client.ask("textDocument/hover", {"textDocument": {"uri": uri}, "position": {"line": 1, "character": 9}})["result"]
        self.assertIn("**code-point**: U+005E CIRCUMFLEX ACCENT is not allowed in a URL\n\nA path, query", hover["contents"]["value"])
        self.assertEqual(hover["range"], at(1, 4, 16))
        place = {"textDocument": {"uri": uri}, "position": {"line": 0, "character": 0}}
        self.assertIsNone(client.ask("textDocument/hover", place)["result"])
        actions = client.actions(uri, at(1, 0, 99))
        self.assertEqual([(it["title"], it["isPreferred"]) for it in actions],
                         [("Write http://h/a%5Eb (the same URL)", True), ("Write http://z (the same URL)", False)])
        for action in actions[::-1]:
            (edit,) = action["edit"]["changes"][uri]
            client.change(uri, {"range": edit["range"], "text": edit["newText"]})
        left = client.diagnostics(uri)
        while len(left) > 1:
            left = client.diagnostics(uri)
        self.assertEqual([it["code"] for it in left], ["host-domain"])
        # An empty range and one that only touches; of all at once, those that stay the same URL or the same text.
        client.change(uri, {"text": "[a](b^) [c](d^) [e](f%zz)\n"})
        client.diagnostics(uri)
        self.assertEqual(len(client.actions(uri, at(0, 6))), 1)
        self.assertEqual(client.actions(uri, at(0, 8)), [])
        self.assertEqual(client.actions(uri, at(0, 0, 20), only=["refactor"]), [])
        (every,) = client.actions(uri, at(0, 0), only=["source.fixAll"])
        self.assertEqual([it["newText"] for it in every["edit"]["changes"][uri]], ["b%5E", "d%5E", "f%25zz"])
        client.tell("textDocument/didClose", {"textDocument": {"uri": uri}})
        self.assertEqual(client.diagnostics(uri), [])
        self.assertEqual(client.end(), 0)

    def test_addresses_of_the_rules(self):
        """A diagnostic leads to where its rule is in the URL Standard, and by a rule of a format to where that is."""
        client = self.start()
        lists = "x\nhttp:a\nhttps:///a\nhttp://a_b/\nhttp://256/\nhttp://[1]/\nfoo://a b/\nhttp://h:x/\nhttp://h:65536/\n"
        lists += "http://h//a\nfile://h/C:/\nurn:a b\nhttp://h/%z\n"
        rules = ["no-scheme", "two-slashes", "host-missing", "host-domain", "host-number", "host-ipv6", "host-code-point",
                 "port-digit", "port-range", "first-segment-empty", "drive-after-host", "code-point", "percent"]
        found = client.open("file:///nowhere/a.links", lists)
        self.assertEqual([it["code"] for it in found], rules)
        for it in found:
            href = it["codeDescription"]["href"]
            self.assertEqual(href, urlcheck.explain(it["code"]).url)
            self.assertTrue(href.startswith("https://url.spec.whatwg.org/#"), href)
        (found,) = client.open("file:///nowhere/b.html", "<img src=''>")
        self.assertEqual(found["code"], "empty")
        self.assertTrue(found["codeDescription"]["href"].startswith("https://html.spec.whatwg.org/multipage/urls-and-fetching.html#"))
        self.assertEqual(client.end(), 0)

    def test_what_is_not_offered(self):
        """A text whose author likely meant something else has no action, and the hover names what it is mended to."""
        client = self.start()
        uri = "file:///nowhere/a.html"
        client.open(uri, "<a href='{{ url }}'><a href='http://h//`a'><a href='b c'>")
        said = [client.ask("textDocument/hover", {"textDocument": {"uri": uri}, "position": {"line": 0, "character": at}})
                for at in (10, 32, 53)]
        first, second, third = [it["result"]["contents"]["value"].split("\n\n") for it in said]
        self.assertEqual(first[:2], ["**code-point**: U+007B LEFT CURLY BRACKET is not allowed in a URL; this looks like a "
                                     "template: check what it makes",
                                     "The same URL, written validly, is ` %7B%7B%20url%20%7D%7D `."])
        self.assertEqual(second[1], "The same URL, written validly, is ` http://h/.//%60a `.")
        self.assertTrue(third[1].startswith("A path, query"))
        self.assertEqual([it["title"] for it in client.actions(uri, at(0, 0, 99))], ["Write b%20c (the same URL)"])
        (every,) = client.actions(uri, at(0, 0), only=["source.fixAll"])
        self.assertEqual([it["newText"] for it in every["edit"]["changes"][uri]], ["b%20c"])
        self.assertEqual(client.end(), 0)

    def test_settings(self):
        client = self.start({"profile": "wide", "severity": "hint", "ignore": ["^x"], "gfm": True, "noEmpty": True})
        uri = "file:///nowhere/a.md"
        found = client.open(uri, "<http://a_b/> [a](x^) http://h/^ <img src=''>")
        self.assertEqual([(it["code"], it["severity"]) for it in found], [("code-point", 4)])
        client.tell("workspace/didChangeConfiguration", {"settings": {"urlcheck": {"base": "urn:a"}}})
        self.assertEqual([it["code"] for it in client.diagnostics(uri)], ["host-domain", "opaque-base", "empty"])
        client.tell("workspace/didChangeConfiguration",
                    {"settings": {"base": "x", "profile": 1, "severity": "x", "ignore": ["(", 1], "other": 1, "gfm": 1, "noEmpty": 2}})
        while len(client.notified) < 9:
            client.notified.append(client.read())
        told = [it["params"]["message"] for it in client.notified if it["method"] == "window/showMessage"]
        self.assertEqual(told, ["urlcheck: " + it for it in (
            "there is no setting other",
            "the profile is one of standard, wide, parser",
            "the severity is one of error, warning, information, hint",
            "the base isn't a valid URL string",
            "not a regular expression: (",
            "not a regular expression: 1",
            "gfm is true or false",
            "noEmpty is true or false",
        )])
        client.end()
        # A client that has settings is asked for them.
        client = self.start(None, {"workspace": {"configuration": True}})
        client.asked.append(client.read())
        self.assertEqual(client.asked[0]["method"], "workspace/configuration")
        client.send({"jsonrpc": "2.0", "id": client.asked[0]["id"], "result": [{"profile": "wide"}]})
        self.assertEqual(client.open(uri, "<http://a_b/>"), [])
        client.end()

    def test_comments(self):
        """A comment leaves out links; one that isn't needed or understood is a warning where it is."""
        client = self.start()
        uri = "file:///c/comments.html"
        wrong = "<a href='http://h/ ^'>\n"
        seen = client.open(uri, "<!-- urlcheck: ignore -->\n" + wrong + "<!-- urlcheck:ignore[code-point] -->\n" + wrong)
        self.assertEqual(seen, [])
        for comment, links in (("urlcheck: ingore", 1), ("urlcheck: ignore[percent]", 1), ("urlcheck: ignore-file", 0)):
            client.change(uri, {"text": "<!-- " + comment + " -->\n" + (wrong if links else "<a href='x'>")})
            seen = client.diagnostics(uri)
            self.assertEqual([(it["code"], it["severity"]) for it in seen], [("code-point", 1)] * links + [("comment", 2)])
            self.assertEqual(seen[-1]["range"], at(0, 4))
            self.assertIn("'" + comment + "' isn't ", seen[-1]["message"])

    def test_gfm_that_changes(self):
        """What blocks of Markdown were read as is kept for one choice of ``gfm``: of the text of code none is a link by it."""
        client = self.start()
        uri = "file:///nowhere/a.md"
        found = client.open(uri, "`http://h/^a` http://h/^b [x](y^)")
        for gfm, places in ((False, [31]), (True, [23, 31]), (False, [31])):
            client.tell("workspace/didChangeConfiguration", {"settings": {"urlcheck": {"gfm": gfm}}})
            found = client.diagnostics(uri)
            self.assertEqual([it["range"]["start"]["character"] for it in found], places)
        self.assertEqual(client.end(), 0)

    def test_a_project(self):
        if not any(map(importlib.util.find_spec, ("tomllib", "tomli"))):
            self.skipTest("nothing reads TOML")
        with tempfile.TemporaryDirectory() as room:
            with open(os.path.join(room, ".urlcheck.toml"), "w", encoding="utf-8") as file:
                file.write("profile = 'wide'\n")
            client = self.start()
            uri = "file://{}/a%20b.html".format(room)
            self.assertEqual(client.open(uri, "<a href='http://a_b/'>"), [])
            with open(os.path.join(room, ".urlcheck.toml"), "w", encoding="utf-8") as file:
                file.write("profil = 'wide'\n")
            client.tell("textDocument/didSave", {"textDocument": {"uri": uri}})
            client.change(uri, {"text": "<a href='http://a_b/'>"})
            self.assertEqual([it["code"] for it in client.diagnostics(uri)], ["host-domain", "note"])
            client.end()

    def test_what_cannot_be_read(self):
        client = self.start()
        for name, text, said in (
            ("a.xml", "<rss><channel>", "can't be read from here on: the document ends within an element"),
            ("b.ipynb", "{", "can't be read from here on: no JSON: "), ("c.ipynb", "[" * 50_000, "is nested too deeply"),
            ("d.xml", "<a/>", "its names aren't known"),
            ("f.html", "x" * (33 << 20), "has more than 32 MiB"), ("g.md", "\ud800 [a](b^)", None),
        ):
            found = client.open("file:///nowhere/" + name, text)
            self.assertEqual(len(found), 1)
            if said is None:
                self.assertEqual(found[0]["code"], "code-point")
            else:
                self.assertIn(said, found[0]["message"])
        self.assertEqual(client.end(), 0)

    def test_limits(self):
        """A text that takes all memory ends the process that checks, and the next text is checked by another."""
        client = self.start()
        client.patience = 300
        (found,) = client.open("file:///nowhere/a.md", "[a](<b c>)\n\n" * 400_000)
        self.assertIn("can't be checked: ", found["message"])
        self.assertEqual(len(client.open("file:///nowhere/b.md", LINK)), 1)
        self.assertEqual(client.end(), 0)

    def test_large_texts_and_many_changes(self):
        """A text of 5 MB that is typed into: changes and requests of another text wait for none of it."""
        client = self.start()
        large, small = "file:///nowhere/a.html", "file:///nowhere/b.html"
        text = "<p>text <a href='http://h/a'>a</a> and more of it\n" * 100_000
        self.assertEqual(client.open(large, text), [])
        self.assertEqual(len(client.open(small, "<a href='a b'>")), 1)
        begun = time.monotonic()
        for number in range(60):
            client.change(large, {"range": at(50_000, 3), "text": "x"})
        hover = client.ask("textDocument/hover", {"textDocument": {"uri": small}, "position": {"line": 0, "character": 11}})
        self.assertEqual(hover["result"]["range"], at(0, 9, 12))
        took = time.monotonic() - begun
        self.assertLess(took, 3)
        # A request on a text that changes before it is checked is answered at once.
        client.change(large, {"range": at(50_000, 3), "text": "y"})
        number = client.begin("textDocument/codeAction", {"textDocument": {"uri": large}, "range": at(0, 0), "context": {}})
        client.change(large, {"range": at(50_000, 3), "text": "<a href='^'>"})
        self.assertEqual(client.answer(number)["error"]["code"], -32801)
        self.assertEqual([it["code"] for it in client.diagnostics(large)], ["code-point"])
        self.assertEqual(client.end(), 0)

    def test_memory(self):
        """A text that is closed is forgotten, and one that is typed into keeps nothing of what it was."""
        def memory(client):
            with open("/proc/{}/statm".format(client.process.pid), encoding="ascii") as file:
                return int(file.read().split()[1]) * 4096

        client = self.start()
        for number in range(3):
            client.open("file:///nowhere/{}.html".format(number), "<a href='a b'>\n" * 2000)
            client.tell("textDocument/didClose", {"textDocument": {"uri": "file:///nowhere/{}.html".format(number)}})
        before = memory(client)
        for number in range(40):
            uri = "file:///nowhere/x{}.html".format(number)
            client.open(uri, "<a href='{} b'>\n".format(number) * 2000)
            client.tell("textDocument/didClose", {"textDocument": {"uri": uri}})
        self.assertLess(memory(client) - before, 8 << 20)
        client.end()

    def test_nonsense(self):
        """What isn't a message is answered by an error, and the server goes on."""
        client = self.start()
        for body, code in (
            (b"x", -32700), (b"\xff", -32700), (b"[" * 100_000, -32700), (b"1", -32600), (b"[]", -32600), (b"{}", -32600), (b'"a"', -32600),
            (b'{"jsonrpc":"1.0","id":1,"method":"x"}', -32600), (b'{"jsonrpc":"2.0","method":1}', -32600),
            (b'{"jsonrpc":"2.0"}', -32600), (b'{"jsonrpc":"2.0","id":[],"method":"shutdown","params":[1]}', -32602),
            (b'{"jsonrpc":"2.0","id":7,"method":"no/such"}', -32601), (b'{"jsonrpc":"2.0","id":8,"method":"textDocument/hover","params":{}}', -32602),
            (b'{"jsonrpc":"2.0","id":9,"method":"textDocument/hover","params":{"textDocument":{"uri":"x"},"position":1}}', -32602),
        ):
            with self.subTest(body[:60]):
                client.send(body)
                said = client.read()
                self.assertIn("error", said)
                self.assertIn(said["error"]["code"], (code, -32602, -32603), said)
                if code in (-32700, -32600, -32601):
                    self.assertEqual(said["error"]["code"], code)
        for method, params in (("textDocument/didChange", {"textDocument": {"uri": "x"}, "contentChanges": []}), ("no/such", {}),
                               ("textDocument/didOpen", {}), ("textDocument/didOpen", {"textDocument": {"uri": 1, "text": 2}}),
                               ("$/cancelRequest", {"id": 99}), ("$/cancelRequest", {}), ("textDocument/didClose", {"textDocument": {"uri": "x"}})):
            client.tell(method, params)
        uri = "file:///nowhere/a.md"
        client.open(uri, LINK)
        for change in ({"text": 1}, {}, {"range": 1, "text": ""}, {"range": at(-1, 0), "text": ""}, {"range": at(0, 5, 2), "text": ""}, 7):
            client.change(uri, change)
        client.change(uri, {"range": at(9, 9, 99, 99), "text": "\n" + LINK})
        found = client.diagnostics(uri)
        while len(found) < 2:
            found = client.diagnostics(uri)
        self.assertEqual(len(found), 2)
        # A request that is cancelled is answered, one way or the other.
        number = client.begin("textDocument/hover", {"textDocument": {"uri": uri}, "position": {"line": 0, "character": 5}})
        client.tell("$/cancelRequest", {"id": number})
        said = client.answer(number)
        self.assertTrue("result" in said or said["error"]["code"] == -32800, said)
        self.assertEqual(client.end(), 0)

    def test_lies_and_ends(self):
        """A length that isn't one, or that no message has, ends the server with 1, and so does a client that is gone."""
        for data in (b"", b"Content-Length: 5\r\n\r\n{}", b"Content-Length: x\r\n\r\n", b"Content-Length: -1\r\n\r\n", b"x\r\n\r\n", b"\r\n",
                     b"Content-Length: 99999999999999\r\n\r\n{}", b"Content-Length: 999999999\r\n\r\n{}", b"Content-Type: x\r\n\r\n{}",
                     b"Content-Length: 2", b"x" * 100_000):
            with self.subTest(data[:40]):
                client = self.start()
                begun = time.monotonic()
                try:
                    client.write(data)
                    client.process.stdin.close()
                except BrokenPipeError:
                    pass
                self.assertEqual(client.process.wait(20), 1)
                self.assertNotIn(b"Traceback", client.process.stderr.read())
                self.assertLess(time.monotonic() - begun, 10)
        # The end without `shutdown` is 1; before `initialize` nothing else is answered, and after `shutdown` neither.
        client = self.start()
        client.tell("exit", None)
        self.assertEqual(client.process.wait(20), 1)
        client = self.start(capabilities=False)
        self.assertEqual(client.ask("textDocument/hover", {})["error"]["code"], -32002)
        client.ask("initialize", {"capabilities": None, "initializationOptions": 3})
        client.ask("shutdown", None)
        self.assertEqual(client.ask("textDocument/hover", {})["error"]["code"], -32600)
        client.process.stdin.close()
        self.assertEqual(client.process.wait(20), 0)

    def test_sentences(self):
        """Each error is in these words and no others."""
        client = self.start(capabilities=False)
        self.assertEqual(client.ask("textDocument/hover", {})["error"]["message"], "the server isn't initialized")
        client.ask("initialize", {"capabilities": {"workspace": {"configuration": True}}})
        client.tell("initialized", {})
        # (an answer to what the server asks, with an identifier that isn't one)
        self.assertEqual(client.read()["method"], "workspace/configuration")
        client.send(b'{"jsonrpc":"2.0","id":[1],"result":1}')
        self.assertEqual(client.read()["error"]["message"], "this isn't a message of JSON-RPC 2.0")
        uri, place = "file:///nowhere/a.links", {"line": "x", "character": 0}
        client.open(uri, "a^")
        for body, said in (
            (b"x", "this isn't JSON in UTF-8"),
            (b"{}", "this isn't a message of JSON-RPC 2.0"),
            (b'{"jsonrpc":"2.0","id":1,"method":"shutdown","params":[1]}', "the parameters are named"),
        ):
            with self.subTest(body):
                client.send(body)
                self.assertEqual(client.read()["error"]["message"], said)
        said = client.ask("textDocument/hover", {"textDocument": {"uri": uri}})["error"]["message"]
        self.assertEqual(said, "these aren't the parameters of textDocument/hover")
        said = client.ask("textDocument/hover", {"textDocument": {"uri": uri}, "position": place})["error"]["message"]
        self.assertEqual(said, "this can't be answered")
        # (a text that changes again before it is checked)
        client.change(uri, {"text": "b^\n" * 200_000})
        number = client.begin("textDocument/hover", {"textDocument": {"uri": uri}, "position": {"line": 0, "character": 0}})
        client.change(uri, {"text": "c^"})
        self.assertEqual(client.answer(number)["error"]["message"], "the text has changed")
        client.ask("shutdown", None)
        self.assertEqual(client.ask("textDocument/hover", {})["error"]["message"], "the server is shut down")
        client.stop()
        for data, said in (
            (b"Content-Length: 2", "a header has no end"),
            (b"x\r\n\r\n", "a header has no colon"),
            (b"Content-Length: x\r\n\r\n", "a length isn't a number"),
            (b"Content-Type: x\r\n\r\n{}", "a message has no length"),
            (b"Content-Length: 999999999\r\n\r\n", "a message has more than 256 MiB"),
            (b"Content-Length: 5\r\n\r\n{}", "a message has less than its length"),
        ):
            with self.subTest(data):
                ran = subprocess.run(PROGRAM, input=data, capture_output=True)
                self.assertEqual((ran.returncode, ran.stderr.decode()), (1, "urlcheck-language-server: {}\n".format(said)))

    def test_what_is_named(self):
        """What a link is mended to that isn't offered, and what writes all links at once."""
        client = self.start()
        uri = "file:///nowhere/a.links"
        for text, said in (
            ("https://h/{{ x }}", "The same URL, written validly, is ` https://h/%7B%7B%20x%20%7D%7D `."),
            ("https://h/%s", "The same text, percent-encoded, is ` https://h/%25s `."),
            ("tel:+1 2 ", "A valid URL string that is near it is ` tel:+1%202 `."),
        ):
            client.open(uri, text)
            place = {"textDocument": {"uri": uri}, "position": {"line": 0, "character": 0}}
            value = client.ask("textDocument/hover", place)["result"]["contents"]["value"]
            self.assertEqual(value.split("\n\n")[1], said)
        client.open(uri, "http://h/a b")
        titles = [it["title"] for it in client.actions(uri, at(0, 0), only=["quickfix", "source.fixAll"])]
        self.assertEqual(titles, ["Write http://h/a%20b (the same URL)", "Write all links validly that stay the same"])
        self.assertEqual(client.end(), 0)

    def test_words(self):
        usage = (
            "usage: urlcheck-language-server [--version | --help]\n\n"
            "Speaks the Language Server Protocol on standard input and output: an editor\n"
            "starts it. Its settings come from the editor: docs/CONFIGURATION.md lists them.\n"
        )
        refused = usage + "urlcheck-language-server: it takes no arguments\n"
        for word, wanted in (("--help", (0, usage, "")), ("-h", (0, usage, "")), ("--port", (1, "", refused))):
            ran = subprocess.run([*PROGRAM, word], stdin=subprocess.DEVNULL, capture_output=True)
            self.assertEqual((ran.returncode, ran.stdout.decode(), ran.stderr.decode()), wanted)
        for words, status in ((["--version"], 0), (["--help"], 0), (["--port", "1"], 1)):
            ran = subprocess.run(PROGRAM + words, stdin=subprocess.DEVNULL, capture_output=True)
            self.assertEqual(ran.returncode, status)
            self.assertIn(b"urlcheck-language-server", ran.stdout + ran.stderr)
        # (a client may say how they speak)
        ran = subprocess.run(PROGRAM + ["--stdio"], stdin=subprocess.DEVNULL, capture_output=True)
        self.assertEqual((ran.returncode, ran.stdout), (1, b""))


if __name__ == "__main__":
    unittest.main()
