"""Tests of urlcheck-language-server over several documents: what they are checked by, which fixes are offered, and that no document
holds up or ends the checking of another one. The package is on PYTHONPATH."""

import importlib.util
import json
import os
import tempfile
import threading
import unittest

from server import LINK, Client, at
from urlcheck._editors.checking import Seen, failed
from urlcheck._editors.editing import Text
from urlcheck._editors.opened import Document, Opened

HAS_TOML = any(map(importlib.util.find_spec, ("tomllib", "tomli")))
WIDE = "<a href='http://a_b/'>"


class Together(unittest.TestCase):
    def start(self, *given, **more):
        client = Client(*given, **more)
        self.addCleanup(client.stop)
        return client

    def codes(self, client, uri):
        return [it["code"] for it in client.diagnostics(uri)]

    def configure(self, text):
        with open(os.path.join(self.room, ".urlcheck.toml"), "w", encoding="utf-8") as file:
            file.write(text)

    def settings(self, client, settings):
        client.tell("workspace/didChangeConfiguration", {"settings": settings})

    def setUp(self):
        room = tempfile.TemporaryDirectory()
        self.addCleanup(room.cleanup)
        self.room = room.name
        self.uri = "file://{}/a%20b.html".format(self.room)

    # ---- each by itself

    def test_names_of_no_files(self):
        """What a document's URL says of no file ends nothing: it is checked, and so is the next one."""
        client = self.start()
        deep = "file:///" + "a/" * 1100 + "x.html"
        for uri in ("file:///a%00b/x.html", "file://[b/x.html", deep, "file:x.html", "file:///%ff%fe/x.html", "x:", "\ud800.html", ""):
            with self.subTest(uri[:30]):
                found = client.open(uri, "<a href='http://h/^'>", "html")
                self.assertEqual([it["code"] for it in found], ["code-point"])
        self.assertEqual(client.end(), 0)

    def test_a_check_that_fails(self):
        """Whatever is raised is said of its document, in a line without names of files, and the next one is checked."""
        told, is_told = {}, threading.Semaphore(0)

        def check(_, document, text, is_superseded):
            if document.uri != "right":
                raise {"value": ValueError("a\n" + 900 * "\u202eb"), "memory": MemoryError(), "deep": RecursionError("deep")}[document.uri]
            return Seen([], [])

        def tell(document, seen, number):
            told[document.uri] = seen
            is_told.release()

        opened = Opened(check, tell)
        opened.start()
        self.addCleanup(opened.end)
        for uri in ("value", "memory", "deep", "right"):
            opened.put(Document(uri, "x", Text("", "utf-8"), 1))
        for _ in range(4):
            self.assertTrue(is_told.acquire(timeout=20), told)
        self.assertEqual(told.pop("right"), Seen([], []))
        for seen in told.values():
            (remark,) = seen.remarks
            self.assertEqual(remark.code, "not-read")
            self.assertTrue(remark.message.startswith("can't be checked: the program failed: "), remark)
            self.assertTrue(remark.message.isprintable() and len(remark.message) < 200, remark)
        self.assertIn("RecursionError: deep", failed(RecursionError("deep")).remarks[0].message)

    def test_a_text_that_takes_long(self):
        """It holds up no other: not the next one, not one that is typed into, and no request about that."""
        client = self.start()
        slow, quick = "file:///nowhere/slow.md", "file:///nowhere/quick.html"
        client.versions[slow] = 1
        text = "text *[a](http://h/)* and **more** `of` it\n\n" * 400_000
        client.tell("textDocument/didOpen", {"textDocument": {"uri": slow, "languageId": "x", "version": 1, "text": text}})
        self.assertEqual(len(client.open(quick, WIDE)), 1)
        for number in range(3):
            client.change(quick, {"text": WIDE * number})
            while len(client.diagnostics(quick)) != number:
                pass
        hover = client.ask("textDocument/hover", {"textDocument": {"uri": quick}, "position": {"line": 0, "character": 16}})
        self.assertIn("host-domain", hover["result"]["contents"]["value"])
        told = [it["params"]["uri"] for it in client.passed + client.notified if "uri" in it["params"]]
        self.assertNotIn(slow, told, "the slow text is checked too fast to hold up anything")
        self.assertEqual(client.diagnostics(slow), [])
        self.assertEqual(client.end(), 0)

    def test_no_traceback(self):
        """What is wrong with a request is said without the lines of a program and the names of its files."""
        client = self.start()
        client.open(self.uri, WIDE)
        uri, place = {"uri": self.uri}, {"line": 0, "character": 1}
        for method, params in (
            ("hover", {}), ("hover", {"textDocument": uri, "position": 1}), ("hover", {"textDocument": uri, "position": {}}),
            ("hover", {"textDocument": uri, "position": {"line": "x", "character": None}}), ("hover", {"textDocument": 5, "position": place}),
            ("codeAction", {"textDocument": uri, "range": [], "context": 1}), ("codeAction", {"textDocument": uri}),
            ("codeAction", {"textDocument": {"uri": []}, "range": at(0, 0)}), ("hover", {"a b": 1}),
        ):
            with self.subTest(params):
                said = client.ask("textDocument/" + method, params)
                self.assertEqual(set(said["error"]), {"code", "message"}, said)
                self.assertIn(said["error"]["code"], (-32602, -32603))
                self.assertNotRegex(json.dumps(said), r"Traceback|\.py|line \d")
        self.assertEqual(client.end(), 0)

    # ---- what they are checked by

    @unittest.skipUnless(HAS_TOML, "nothing reads TOML")
    def test_a_configuration_that_is_saved(self):
        """It is heeded at once in what is open: if the client says that it was saved, or that another document was."""
        client = self.start(None, {"workspace": {"didChangeWatchedFiles": {"dynamicRegistration": True}}})
        client.asked.append(client.read())
        (asked,) = client.asked
        (registration,) = asked["params"]["registrations"]
        self.assertEqual((asked["method"], registration["method"]), ("client/registerCapability", "workspace/didChangeWatchedFiles"))
        self.assertEqual({it["globPattern"] for it in registration["registerOptions"]["watchers"]}, {"**/.urlcheck.toml", "**/pyproject.toml"})
        client.send({"jsonrpc": "2.0", "id": asked["id"], "result": None})
        other = "file:///nowhere/other.html"
        self.assertEqual([it["code"] for it in client.open(self.uri, WIDE)], ["host-domain"])
        self.assertEqual(len(client.open(other, WIDE)), 1)
        for told in ("workspace/didChangeWatchedFiles", "textDocument/didSave"):
            params = {"changes": []} if told.startswith("workspace") else {"textDocument": {"uri": other}}
            for text, codes in (("profile = 'wide'", []), ("", ["host-domain"]), ("profil = 'x'", ["host-domain", "note"]), (None, ["host-domain"])):
                if text is None:
                    os.remove(os.path.join(self.room, ".urlcheck.toml"))
                else:
                    self.configure(text)
                client.tell(told, params)
                self.assertEqual(self.codes(client, self.uri), codes, (told, text))
        # (what is as it was isn't checked again)
        self.assertEqual([it["params"]["uri"] for it in client.notified], [])
        self.assertEqual(client.end(), 0)

    @unittest.skipUnless(HAS_TOML, "nothing reads TOML")
    def test_settings_go_before_the_project(self):
        """What an editor's user says counts, even if it is the default."""
        self.configure("profile = 'wide'\ngfm = true\nno-empty = true\n")
        client = self.start()
        self.uri = self.uri.replace(".html", ".md")
        wrong = "<http://a_b/> <img src=''> http://h/^\n"
        self.assertEqual([it["code"] for it in client.open(self.uri, wrong)], ["code-point"])
        for settings, codes in (
            ({"profile": "standard"}, ["host-domain", "code-point"]), ({"gfm": False}, []), ({"noEmpty": False}, ["empty", "code-point"]),
            ({"profile": "standard", "gfm": False, "noEmpty": False}, ["host-domain", "empty"]), ({}, ["code-point"]),
        ):
            self.settings(client, settings)
            self.assertEqual(self.codes(client, self.uri), codes, settings)
        self.assertEqual(client.end(), 0)

    def test_settings_that_are_taken_away(self):
        """They count no more; what the client said at the start then does again."""
        client = self.start({"noEmpty": True})
        wrong = WIDE + "<img src=''>"
        self.assertEqual([it["code"] for it in client.open(self.uri, wrong)], ["host-domain"])
        for settings, codes in (
            ({"urlcheck": {"profile": "wide"}}, ["empty"]), ({"urlcheck": {}}, ["host-domain"]), ({"profile": "wide", "noEmpty": True}, []),
            (None, ["host-domain"]), ({"urlcheck": {"noEmpty": False}}, ["host-domain", "empty"]), ({}, ["host-domain"]),
        ):
            self.settings(client, settings)
            self.assertEqual(self.codes(client, self.uri), codes, settings)
        client.end()
        client = self.start(None, {"workspace": {"configuration": True}})
        client.versions[self.uri] = 1
        item = {"uri": self.uri, "languageId": "x", "version": 1, "text": WIDE}
        for given, count in (([{"profile": "wide"}], 0), ([None], 1), ([{"profile": "wide"}], 0), ([{}], 1), ([], 1)):
            while not client.asked:
                said = client.read()
                (client.asked if "id" in said else client.notified).append(said)
            client.notified.clear()
            client.send({"jsonrpc": "2.0", "id": client.asked.pop()["id"], "result": given})
            if item is not None:
                client.tell("textDocument/didOpen", {"textDocument": item})
                item = None
            self.assertEqual(len(client.diagnostics(self.uri)), count, given)
            client.tell("workspace/didChangeConfiguration", {"settings": None})
        self.assertEqual(client.end(), 0)

    def test_wrong_settings(self):
        client = self.start({"gfm": "yes", "noEmpty": 1, "base": "x", "profile": "loose"})
        client.open(self.uri, WIDE)
        client.ask("textDocument/hover", {"textDocument": {"uri": self.uri}, "position": {"line": 0, "character": 0}})
        told = [it["params"]["message"] for it in client.notified if it["method"] == "window/showMessage"]
        self.assertEqual(client.end(), 0)

    # ---- what is fixed

    def test_what_is_written_unasked(self):
        """An action is preferred, and is among the actions for all, if `urlcheck-documents --fix` writes its text: the text of the same
        URL or of the same text percent-encoded, of what surely is a link, and with no host that is read as numbers."""
        client = self.start({"gfm": True}, {"workspace": {"workspaceEdit": {"documentChanges": True}}})
        self.uri = self.uri.replace(".html", ".md")
        text = "[a](http://h/a^b) [b](c d) see [sic](my own note) [e](foo:a^b) [f](http:/127.0.0.1/)\n"
        client.open(self.uri, text)
        client.change(self.uri, {"text": "# x\n\n" + text})
        actions = {}
        for action in client.actions(self.uri, at(2, 0, 200)):
            (change,) = action["edit"]["documentChanges"]
            self.assertEqual(change["textDocument"], {"uri": self.uri, "version": 2})
            self.assertNotIn("changes", action["edit"])
            (edit,) = change["edits"]
            actions[edit["newText"]] = action["isPreferred"]
        self.assertEqual(actions, {"http://h/a%5Eb": True, "c%20d": False, "my%20own%20note": False, "foo:a%5Eb": True, "http://127.0.0.1/": False})
        (every,) = client.actions(self.uri, at(0, 0), only=["source.fixAll"])
        (change,) = every["edit"]["documentChanges"]
        self.assertEqual(change["textDocument"]["version"], 2)
        self.assertEqual([it["newText"] for it in change["edits"]], ["http://h/a%5Eb", "foo:a%5Eb"])
        # A client that can't take versions gets the edits without.
        client = self.start()
        client.open(self.uri, LINK)
        (action,) = client.actions(self.uri, at(0, 5))
        self.assertEqual([it["newText"] for it in action["edit"]["changes"][self.uri]], ["http://h/a%5Eb"])
        self.assertEqual(client.end(), 0)


if __name__ == "__main__":
    unittest.main()
