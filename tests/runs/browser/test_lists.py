"""The page with a list, or an HTML file: its report is the program's, and it can be stopped."""

from __future__ import annotations

import collections
import importlib
import json
import os
import subprocess
import sys
import types

from session import TOP, PageCase, without_options

# So many lines a list has, and in a sample.
LINES = 200_000
LINES_OF_SAMPLE = 20_000
# While a list is checked the page answers within so many milliseconds, but for this part of the time: a machine may be busy.
LONGEST_PAUSE = 500
LONGEST_PART = 0.25
# Lines that aren't texts, or odd ones.
ODD = [b"", b"\r", b"\xff\xfe", b"x" * 70_000, b"http://h/\x1b[31m\xe2\x80\xae\xd7\x90", b"\xc2\xadnope\r", b"/rel"]
ODD += [b"http://h/\xef\xbf\xbd\xc3\xa9\xe6\x97 \xff"]
ODD += ["http://a_b:x/ %4?^ \u05d0<b>".encode(), b"http://h/" + "\u00e9\U0001f600 ".encode()]
CLOSED = {it: "</{}>".format(it) for it in ("script", "iframe", "audio", "video", "object", "button")}


class Lists(PageCase):
    def test_long_list(self) -> None:
        """A list is checked as `urlcheck lint` checks it, and the page answers meanwhile."""
        count = LINES if self.session.is_whole else LINES_OF_SAMPLE
        self.write_list(count)
        pause = self.longest_pause()
        formats = self.page.run("return [...document.querySelectorAll('[data-format]')].map(it => it.dataset.format)")
        self.assertLessEqual({"gnu", "caret", "json", "sarif", "checkstyle"}, set(formats))
        for format in formats:
            ended = self.program("lint", "--format", format, "links.txt")
            self.assertTrue(ended.out, format)
            # (not by assertEqual, which would look for each difference of two long texts)
            is_same = self.page.kept(format) == without_options(ended.out)
            self.assertTrue(is_same, "the report differs from that of lint: " + format)
            word, rest = self.page.verdict("#report")
            self.assertEqual(word, "Refused")
            self.assertEqual("urlcheck: " + rest.replace(",", ""), ended.error.strip().replace(",", ""))
        self.shows_what_lint_says()
        told = "{:,} lines in {} formats as lint writes them, the longest pause {:.0f} ms"
        self.told = told.format(count, len(formats), pause)

    def write_list(self, count: int) -> None:
        """A list of mixed links, some of them wrong, and odd lines."""
        script = os.path.join(TOP, "bench", "links.py")
        links = subprocess.run([sys.executable, script, str(count), "3"], capture_output=True, check=True).stdout
        lines = links.split(b"\n")[:count]
        for number in range(0, count, 1000):
            lines[number] = ODD[number // 1000 % len(ODD)]
        with open(os.path.join(self.session.room, "links.txt"), "wb") as out:
            out.write(b"\xef\xbb\xbfhttp://h/ \n" + b"\n".join(lines[1:]))

    def longest_pause(self) -> float:
        """Has the list checked: so many milliseconds the page didn't answer meanwhile."""
        self.page.open(view="list")
        self.page.run(
            "window.pauses = []; let last = performance.now();"
            "setInterval(() => { const now = performance.now(); window.pauses.push(now - last); last = now }, 10)"
        )
        self.page.drop("links.txt", "/room/links.txt")
        self.page.wait(self.page.report_ended, 300)
        pauses = self.page.run("return window.pauses")
        without_answer = sum(it for it in pauses if it > LONGEST_PAUSE)
        self.assertLess(without_answer, LONGEST_PART * sum(pauses), "the page doesn't answer while a list is checked")
        return float(max(pauses))

    def shows_what_lint_says(self) -> None:
        """The counts by rule, and the first rows."""
        told = without_options(self.program("lint", "--format", "json", "links.txt").out)
        wanted = [json.loads(line) for line in told.splitlines()]
        chart = self.page.run(
            "return [...document.querySelectorAll('.chart tr')].map(it =>"
            " [it.querySelector('code').textContent, +it.querySelector('.count').textContent.replace(/,/g, '')])"
        )
        self.assertEqual(dict(chart), collections.Counter(it["rule"] for it in wanted))
        first = self.page.run("return [...document.querySelector('.rows tbody tr').cells].map(it => it.textContent)")
        self.assertEqual([int(it.replace(",", "")) for it in first[:2]], [wanted[0]["line"], wanted[0]["column"]])
        self.assertEqual(first[2], "{message} {rule}".format(**wanted[0]))
        count = "return document.querySelectorAll('.rows tbody tr').length"
        before = self.page.run(count)
        self.page.run("document.querySelector('#report .card > .button').click()")
        self.page.wait(lambda: bool(self.page.run(count) > before))

    def test_stopping(self) -> None:
        """A job that takes long can be stopped, and lists that are changed are checked again."""
        self.page.open(view="list")
        self.write("long.txt", "".join("http://b\u00fccher{}.example/ x\n".format(it) for it in range(400_000)))
        self.page.drop("long.txt", "/room/long.txt")
        self.page.wait(lambda: bool(self.page.run("return document.querySelector('#report progress')?.value > 0.02")))
        self.page.run("[...document.querySelectorAll('#report button')].find(it => it.textContent === 'Stop').click()")
        self.page.wait(self.page.report_ended, 300)
        word, self.told = self.page.verdict("#report")
        self.assertEqual(word, "Stopped", self.told)
        self.page.fill("list", "http://h/\nx\n\nhttp://h/ ")
        self.page.wait_for_report("3 lines, 2 refused")
        self.page.fill("base", "http://h/")
        self.page.wait_for_report("3 lines, 1 refused")
        self.page.fill("base", "x")
        self.page.wait_for_report("Base refused")

    def test_html_file(self) -> None:
        """Links as the browser's own parser takes them, against the base that the document names."""
        self.write(
            "document.html",
            "<!doctype html><base href='/docs/'><p><a href='a b'>1</a><a href=' c '>2</a><img src=x%zz.png>"
            "<script>document.write('<a href=\"%\">no</a>')</script><a name=x>no</a><a href=''>4</a>"
            "<form action='http://h:1x/'></form><a href=http://x_y/>6<a href='&#x25;41&amp;'>7"
            "<img srcset='d 1x, e f.png 2x'><template><a href=g></a></template><q cite=i></q>",
        )
        self.page.open(view="html", base="https://example.com/")
        self.page.drop("document.html", "/room/document.html")
        self.page.wait(self.page.report_ended)
        self.assertEqual(self.page.verdict("#report")[1], "11 links, 5 refused")
        self.assertIn("https://example.com/docs/", self.page.text("#report .note"))
        self.page.wait(lambda: bool(self.page.run("return document.querySelectorAll('.rows tbody tr').length === 5")))
        rows = self.page.run(
            "return [...document.querySelectorAll('.rows tbody tr')].map(it => [it.cells[0].textContent,"
            " it.cells[1].textContent, it.querySelector('code').textContent, it.querySelector('.where').textContent])"
        )
        wanted = [["1", "2", "code-point", "a href"], ["3", "2", "percent", "img src"]]
        wanted += [["5", "11", "port-digit", "form action"], ["6", "8", "host-domain", "a href"]]
        self.assertEqual(rows, [*wanted, ["9", "2", "code-point", "img srcset"]])
        found = self.page.kept("gnu").splitlines()
        self.assertEqual(
            found[0], "document.html.links:1:2: error: U+0020 SPACE is not allowed in a URL [code-point]"
        )
        self.page.run("document.querySelector('input[value=wide]').click()")
        self.page.wait_for_report("11 links, 4 refused")
        self.told = "11 links"

    def test_encodings(self) -> None:
        """A document is read in the encoding that it names, and one that isn't in it is refused."""
        self.page.open(view="html")
        link = "<a href='http://\u00e9.example/'>"
        for name, text, encoding, told in (
            ("latin.html", "<meta charset=iso-8859-1>" + link, "latin-1", "1 link, 0 refused"),
            ("marked.html", "\ufeff" + link, "utf-16-le", "1 link, 0 refused"),
            ("named.html", "<meta http-equiv=x content='text/html; charset=windows-1252'>" + link, "latin-1", "1 link, 0 refused"),
            ("plain.html", link, "utf-8", "1 link, 0 refused"),
            ("wrong.html", link, "latin-1", "the file isn\u2019t in utf-8, which it is read as"),
        ):
            with open(os.path.join(self.session.room, name), "wb") as out:
                out.write(text.encode(encoding))
            self.page.drop(name, "/room/" + name)
            self.page.wait_for_report(told)

    def test_what_stays(self) -> None:
        """A list that waits to be checked isn't shown in another view, and a long paste keeps what is in the field."""
        self.page.open(view="list")
        self.page.fill("list", "http://h/ ")
        self.page.run("document.querySelector('nav a[data-view=text]').click()")
        self.page.run_until_done("setTimeout(done, 1000)")
        self.assertTrue(self.page.run("return document.querySelector('#report').hidden"))
        self.page.run("document.querySelector('nav a[data-view=list]').click()")
        self.page.fill("list", "http://first/ ")
        self.page.run(
            "const data = new DataTransfer(); data.setData('text/plain', 'http://h/\\n'.repeat(60_000));"
            "document.querySelector('#list').dispatchEvent("
            "new ClipboardEvent('paste', { clipboardData: data, bubbles: true, cancelable: true }))"
        )
        self.page.wait_for_report("60,000 lines, 1 refused")

    def test_long_attributes(self) -> None:
        """The links of long attributes are found in a time that grows with them."""
        self.page.open()
        took = self.page.run_until_done(
            "import(words[0] + 'page/links.js').then(({ linksOf }) => {"
            "const html = `<a href='a${' '.repeat(200_000)}b'><img srcset='a${','.repeat(200_000)}b 1x'>`;"
            "const start = performance.now(); linksOf(html); done(performance.now() - start) }).catch(failed)",
            self.page.address,
        )
        self.assertLess(took, 3000, "the links of long attributes take long")

    def test_all_attributes(self) -> None:
        """The links of each attribute that holds some are those that `urlcheck-documents` takes."""
        self.page.open()
        html = "<!doctype html>" + "".join(document_of_links())
        links = self.page.run_until_done(
            "import(words[0] + 'page/links.js').then(({ linksOf }) =>"
            " done(linksOf(words[1]).links.map(it => it.text))).catch(failed)",
            self.page.address,
            html,
        )
        # (the readers of documents ask for no library, which the whole package does)
        package = types.ModuleType("urlcheck")
        package.__path__ = [os.path.join(TOP, "bindings", "python", "urlcheck")]
        sys.modules["urlcheck"] = package
        reader, source = (importlib.import_module("urlcheck." + it) for it in ("_readers.html_links", "_readers.source"))
        wanted = [link.text for link in reader.links_of(source.Source(html)).links]
        self.assertEqual(links, wanted)
        self.assertGreater(len(wanted), 30)
        self.told = "{} links of all attributes".format(len(wanted))


def document_of_links() -> list[str]:
    """A document with each attribute that holds links on each element of the list, one link each, in its order."""
    parts: list[str] = []
    with open(os.path.join(TOP, "tools", "link-attributes.txt"), encoding="utf-8") as listed:
        rows = [line.split() for line in listed if line.strip() and not line.startswith("#")]
    for kind, attribute, *elements in rows:
        for name in (it.rstrip("!") for it in elements):
            # (a browser takes these elsewhere, or under another name)
            element = {"*": "p", **dict.fromkeys(("image", "html", "frame"), "b")}.get(name, name)
            link = {"url": " u{} ", "urls": "u{0} v{0}", "candidates": "u{0} 2x, v{0} w{0} 3x,x{0}"}[kind]
            value = link.format(len(parts) + 1)
            parts.append("<{0} {1}='{2}'>{3}".format(element, attribute, value, CLOSED.get(element, "")))
    return parts
