"""The page itself: its address, three widths in light and dark, what a keyboard and a screen reader find, and what it
loads."""

from __future__ import annotations

import os
import re

from page import Page
from selenium.webdriver.common.by import By
from selenium.webdriver.common.keys import Keys
from selenium.webdriver.remote.webelement import WebElement
from session import HERE, PageCase

WIDTHS = (320, 800, 1280)
WIDTHS_OF_SAMPLE = (320,)
RESIZED = (500, 1280, 320, 1000)
FEW = "http://x_y/\nhttp://h/a b\n" * 5 + "http://h/" + "a" * 400 + " "
TEXTS = ("http://a_b:x/ %4?^\u202e", "https://user.example:8080/" + "a" * 200 + "?q#f")
# What has to have a name.
CONTROLS = "a, button, input, select, textarea, progress, [role=radiogroup], [role=region], [tabindex]"
ROLES = {"link", "button", "textbox", "combobox", "radio", "radiogroup", "progressbar", "region"}
# What the tab key reaches, one after the other: each by its identifier, its text or its value.
STOPS = ["One text", "A list", "An HTML file", "example", "text", "base", "standard", "http://h/a%20b", "http://h/a b"]
# The focus, and whether an outline shows it, perhaps on the label next to a hidden control.
FOCUSED = (
    "const it = document.activeElement; const other = it.nextElementSibling ?? it;"
    "const isSeen = [it, other].some(one => parseFloat(getComputedStyle(one).outlineWidth) > 0"
    " && getComputedStyle(one).outlineStyle !== 'none');"
    "return [it.id || it.textContent.trim() || it.value, isSeen]"
)


# The words of the page in a view, but for what is said of a text, a list or a document.
WORDS = (
    "const all = names => [...document.querySelectorAll(names)].filter(it => it.getClientRects().length > 0);"
    "const texts = all('h1, header p, nav a, form label, form .hint, #profile-name, .drop, footer p');"
    "const named = name => all(`form [${name}], nav[${name}], section[${name}]`).map(it => it.getAttribute(name));"
    "const examples = [...document.querySelectorAll('#example option')].slice(0, 6);"
    "return [document.title, document.querySelector('meta[name=description]').content,"
    " ...[...texts, ...examples].map(it => it.textContent), ...named('placeholder'), ...named('aria-label')]"
    ".map(it => it.replace(/\\s+/g, ' ').trim())"
)
HEAD = [
    "urlcheck: is it a valid URL string?",
    "Says whether a text is a valid URL string (WHATWG URL Standard), and why it isn't.",
    "urlcheck",
    "Is it a valid URL string? The written grammar of the URL Standard, checked by proved code in your browser.",
    *("One text", "A list", "An HTML file"),
]
OPTIONS = ["Base (optional)", "(optional)", "Profile", "standard", "wide", "parser"]
FOOT = [
    "Nothing leaves this page: it loads its own files alone, and checks in the browser. Version N.",
    *("choose one", "valid, with all parts", "valid, an opaque path", "valid against a base"),
    *("several violations", "hidden controls"),
]
# What is read in each view, under one of the profiles each.
VIEWS: tuple[tuple[str, str, list[str], list[str]], ...] = (
    (
        "text",
        "standard",
        ["Text", "Example", *OPTIONS, "The URL Standard\u2019s valid URL strings."],
        ["none", "What to check", "Answer"],
    ),
    (
        "list",
        "wide",
        [
            *("Links, one a line", "Choose a file", "or drop one anywhere on this page", *OPTIONS),
            "Also _ and hyphens anywhere in domains, and any segments after an authority.",
        ],
        ["Paste a list here, or drop a file", "none", "What to check", "Report"],
    ),
    (
        "html",
        "parser",
        [
            "Drop an HTML file here. This browser's own parser finds the links of its attributes, but not those of style "
            "sheets or of a refresh; no script of it runs, and nothing is loaded.",
            "Choose a file",
            "A relative link is read against the document's base, else against the base below.",
            *OPTIONS,
            "Each text that the Standard\u2019s parser accepts without a validation error, and no other.",
        ],
        ["none", "What to check", "Report"],
    ),
)


class Looks(PageCase):
    def test_words(self) -> None:
        """What is read on the page before anything is checked."""
        for view, profile, words, names in VIEWS:
            self.page.open(view=view, profile=profile)
            found = [re.sub(r"\d+\.\d+\.\d+", "N", it) for it in self.page.run(WORDS)]
            self.assertEqual(found, [*HEAD, *words, *FOOT, *names])
        self.told = "{} views".format(len(VIEWS))

    def test_the_address(self) -> None:
        """A case can be sent as a link."""
        self.page.open()
        self.page.fill("text", "/\u00e9 %&#=+")
        self.page.fill("base", "http://h/?&#x")
        self.page.find("input[value=wide]").click()
        self.page.wait(lambda: "wide" in self.page.run("return location.hash"))
        address, verdict = self.page.run("return location.href"), self.page.verdict()
        self.page.browser.get("about:blank")
        self.page.browser.get(address)
        self.page.wait(lambda: self.page.verdict() == verdict)
        values = self.page.run("return ['text', 'base'].map(it => document.getElementById(it).value)")
        self.assertEqual(values, ["/\u00e9 %&#=+", "http://h/?&#x"])
        self.page.run("location.hash = 'view=text&text=urn:a+b&profile=parser'")
        self.page.wait(lambda: bool(self.page.run("return document.getElementById('text').value") == "urn:a b"))
        parser = self.page.run("return document.querySelector('input[value=parser]').checked")
        self.assertTrue(parser, "the profile of the address isn't taken")
        self.assertEqual(self.page.verdict()[0], "Valid")
        self.page.run("location.hash = 'view=list&list=x%0Ay'")
        self.page.wait_for_report("2 lines, 2 refused")
        self.told = address.partition("#")[2]

    def test_looks(self) -> None:
        """No text with little contrast, and nothing wider than the window, in three widths and both colours."""
        self.write("few.txt", FEW)
        widths = WIDTHS if self.session.is_whole else WIDTHS_OF_SAMPLE
        for dark in (False, True):
            page = self.session.page(dark)
            for width in widths:
                for text in TEXTS:
                    self.open(page, width, dark, view="text", text=text)
                    self.check_look(page, width, dark)
                self.open(page, width, dark, view="list")
                page.drop("few.txt", "/room/few.txt")
                page.wait(lambda: page.report_ended() and page.run("return !!document.querySelector('.rows tbody tr')"))
                self.check_look(page, width, dark)
        told = "contrast of 4.5 and no overflow at {} pixels, in light and dark"
        self.told = told.format(", ".join(map(str, widths)))

    def open(self, page: Page, width: int, dark: bool, **state: str) -> None:
        page.open_in_frame(width, self.session.address + "runs/frame.html", **state)
        shown = page.run("return [innerWidth, matchMedia('(prefers-color-scheme: dark)').matches]")
        self.assertEqual(shown, [width, dark])

    def check_look(self, page: Page, width: int, dark: bool) -> None:
        page.wait(lambda: bool(page.run("return document.getAnimations().length === 0")))
        self.assertLessEqual(page.run("return document.documentElement.scrollWidth"), width, "the page is wider")
        with open(os.path.join(HERE, "contrast.js"), encoding="utf-8") as script:
            poor = page.run(script.read())
        self.assertEqual(poor[:5], [], "little contrast at {}, {}".format(width, "dark" if dark else "light"))

    def test_resizing(self) -> None:
        """The page fits each width that a window gets after it was shown in another one."""
        page = self.session.page(False)
        self.open(page, RESIZED[-1], False, view="text", text=TEXTS[0])
        for width in RESIZED:
            page.resize_frame(width)
            self.assertLessEqual(page.run("return document.documentElement.scrollWidth"), width, "the page is wider")
            right, card = page.run(
                "return ['#example', '#input'].map(it => document.querySelector(it).getBoundingClientRect().right)"
            )
            self.assertLess(right, card, "the examples are wider than their card")
        self.told = "{} pixels, one after the other".format(", ".join(map(str, RESIZED)))

    def test_names(self) -> None:
        """Each control has a role and a name for a screen reader, and what changes is told."""
        count = 0
        for view in ("text", "list", "html"):
            self.page.open(view=view, text="http://h/a b", list="http://h/a b")
            if view == "list":
                self.page.wait(self.page.report_ended)
            for control in self.page.browser.find_elements(By.CSS_SELECTOR, CONTROLS):
                count += self.is_named(control)
        self.page.open()
        self.assertEqual(self.page.find("#verdict").aria_role, "status")
        self.told = "{} controls".format(count)

    def is_named(self, control: WebElement) -> bool:
        """Whether a control is shown, which has a name then."""
        if not self.page.run("return arguments[0].getClientRects().length > 0", control):
            return False
        markup = self.page.run("return arguments[0].outerHTML.slice(0, 200)", control)
        self.assertIn(control.aria_role, ROLES, markup)
        self.assertTrue(control.accessible_name.strip(), "a control without a name: " + markup)
        return True

    def test_keyboard(self) -> None:
        """Each control is reached by the tab key, and shows that it has the focus."""
        self.page.open(view="text", text="http://h/a b")
        for name in STOPS:
            self.page.browser.switch_to.active_element.send_keys(Keys.TAB)
            self.page.wait(lambda: bool(self.page.run(FOCUSED)[0] == name))
            self.assertTrue(self.page.run(FOCUSED)[1], "the focus isn't seen: " + name)
        self.told = "{} stops of the tab key".format(len(STOPS))

    def test_own_files(self) -> None:
        """Only the page's own files are loaded, and nothing is refused or fails in any view."""
        page = self.session.other_page("watched")
        self.write("few.html", "<a href='a b'>x</a><img src='x y.png'>")
        page.open(view="text", text="http://a_b:x/ %4?^", base="http://h/")
        self.assertEqual(page.run("return window.wrong"), [])
        page.open(view="list")
        for name in ("few.txt", "few.html"):
            page.drop(name, "/room/few.html")
            page.wait(page.report_ended)
            page.kept("json")
        self.assertEqual(page.run("return window.wrong"), [])
        names = page.run("return performance.getEntriesByType('resource').map(it => it.name)")
        expected = (page.address, self.session.address + "room/few.html", "blob:")
        self.assertEqual([it for it in names if not it.startswith(expected)], [])
        self.assertGreater(len(names), 10)
        self.told = "{} files".format(len(names))
