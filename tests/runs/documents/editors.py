"""Tests of what the server for editors doesn't write, and of how it writes the rest. Its client is from the runs
of authors. The package is on PYTHONPATH."""

import os
import signal
import sys
import unittest

sys.path.insert(0, os.path.join(os.path.dirname(os.path.abspath(__file__)), "..", "authors"))

from server import Client, at  # noqa: E402

MOST_SECONDS = 120


class Written(unittest.TestCase):
    def setUp(self):
        # (a server that says nothing would be waited for)
        signal.alarm(MOST_SECONDS)
        self.addCleanup(signal.alarm, 0)

    def start(self, *given):
        client = Client(*given)
        self.addCleanup(client.stop)
        return client

    def all_of(self, client, uri):
        """What a fix of all writes."""
        actions = client.actions(uri, at(0, 0), only=["source.fixAll"])
        edits = [it["edit"] for it in actions]
        parts = [edit.get("changes", {}).get(uri, []) for edit in edits]
        parts += [change["edits"] for edit in edits for change in edit.get("documentChanges", [])]
        return [it["newText"] for part in parts for it in part]

    def test_what_only_looks_like_a_link(self):
        client = self.start({"gfm": True})
        uri = "file:///nowhere/a.md"
        client.open(uri, "Call handlers[i](event data), [x](<b c>)\n")
        self.assertEqual(self.all_of(client, uri), ["b%20c"])
        preferred = [it["title"] for it in client.actions(uri, at(0, 0, 99)) if it.get("isPreferred")]
        self.assertEqual(len(preferred), 1, preferred)
        self.assertIn("b%20c", preferred[0])

    def test_front_matter(self):
        client = self.start()
        uri = "file:///nowhere/a.md"
        client.open(
            uri, '---\nurl: "http://h/caf\\u00e9"\na: |\n  https://h/x hosts it\nb:\n  - https://h/x: /y\n---\n'
        )
        self.assertEqual(self.all_of(client, uri), [])

    def test_templates(self):
        client = self.start()
        uri = "file:///nowhere/a.html"
        links = "<?= $a b ?>", "[% a b %]", "*|A B|*", "%%A B%%", "@@A B@@", "$(a)/b c", "javascript:a({{ b }}, 'c d')"
        client.open(uri, "".join('<a href="{}">'.format(it) for it in links))
        self.assertEqual(self.all_of(client, uri), [])
        self.assertEqual([it["title"] for it in client.actions(uri, at(0, 0, 999))], [])

    def test_references(self):
        client = self.start()
        uri = "file:///nowhere/a.html"
        client.open(uri, '<a href="?a=1&amp;b=c d">')
        (written,) = self.all_of(client, uri)
        self.assertIn("&amp;b=c%20d", written)

    def test_one_slash(self):
        """On a page that is served by http it is a path."""
        client = self.start()
        uri = "file:///nowhere/a.html"
        client.open(uri, '<a href="http:/x">')
        self.assertEqual(self.all_of(client, uri), [])


if __name__ == "__main__":
    unittest.main()
