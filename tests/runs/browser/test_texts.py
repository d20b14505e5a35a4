"""The page with one text: all vectors, typing, each rule's example, hostile texts, large ones, and want of memory."""

from __future__ import annotations

from typing import Any

from page import Page
from selenium.webdriver.common.keys import Keys
from session import PageCase, without_options

# In milliseconds: when the first answer comes at the latest, on a machine that does much else.
FIRST_ANSWER = 5000
# What would run where a text were read as markup.
MARKUP = '"><img src=x onerror="window.hacked=1"><script>window.hacked=1</script>\u202e\u2066\u05d0'
# So many cases are compared by one script.
CASES_AT_A_TIME = 100
# In a sample, of so many cases and rules one is tried.
CASES_OF_ONE = 10
RULES_OF_ONE = 4


class Texts(PageCase):
    def test_first_answer(self) -> None:
        """In one of some loads it comes soon."""
        times: list[float] = []
        while len(times) < 3 and (not times or times[-1] >= FIRST_ANSWER):
            self.page.open()
            times.append(self.page.run("return performance.getEntriesByName('urlcheck-first-answer')[0].startTime"))
        self.assertLess(times[-1], FIRST_ANSWER, "the first answer comes late")
        self.told = "{:.0f} ms to the first answer".format(times[-1])

    def test_all_vectors(self) -> None:
        """The module answers as the program does."""
        self.page.open()
        count = self.page.run_until_done(
            "Promise.all([import(words[0] + 'urlcheck.js'), import('/runs/compare.mjs'),"
            "fetch('/room/cases.json').then(answer => answer.json())])"
            ".then(async ([{ load }, { differences }, all]) => {"
            "const [urlcheck, cases] = [await load(), all.filter((_, at) => at % words[1] === 0)];"
            "window.compare = (from, end) => differences(urlcheck, cases.slice(from, end)); done(cases.length) })"
            ".catch(failed)",
            self.page.address,
            1 if self.session.is_whole else CASES_OF_ONE,
        )
        self.assertIsInstance(count, int, count)
        self.assertGreater(count, 0)
        compared = 0
        for start in range(0, count, CASES_AT_A_TIME):
            said = self.page.run("return window.compare(arguments[0], arguments[1])", start, start + CASES_AT_A_TIME)
            self.assertEqual(said["found"], [])
            compared += said["compared"]
        self.told = "{} cases in three profiles, {} answers, 0 differences".format(count, compared)

    def test_typing(self) -> None:
        """Each key gives the verdict that the program gives of what is there."""
        self.page.open(view="text", text="")
        typed = "http://ex ample.com:8x/%4?^#"
        for end in range(1, len(typed) + 1):
            self.type(typed[end - 1], typed[:end])
            self.checked_as_program(typed[:end])
        text = "https://user.example:8080/a/../b?q#f"
        self.page.find("#text").send_keys(Keys.CONTROL, "a")
        self.type(text, text)
        names = self.page.run(
            "return [...document.querySelectorAll('#drawn .part')].map(it => [it.title, it.textContent])"
        )
        wanted = [["scheme", "https"], ["host", "user.example"], ["port", "8080"], ["path", "/a/../b"], ["query", "q"]]
        self.assertEqual(names, [*wanted, ["fragment", "f"]])
        row = self.page.run("return document.querySelector('#comparison tbody tr').innerText.split(/\\s+/)")
        self.assertEqual(row[-2:], ["https://user.example:8080/b?q#f"] * 2)
        self.told = "each of {} keys".format(len(typed))

    def type(self, keys: str, text: str) -> None:
        """Presses keys, and waits until the field has this text."""
        self.page.find("#text").send_keys(keys)
        self.page.wait(lambda: bool(self.page.run("return document.getElementById('text').value") == text))

    def checked_as_program(self, text: str) -> None:
        ended = self.program("check", "--all", "--", text)
        word, rest = self.page.verdict()
        self.assertEqual(word, "Refused" if ended.status else "Valid", text)
        if ended.status == 0:
            return
        faults = ended.out.splitlines()
        self.assertIn("at place {}".format(faults[0].split(" ")[1]), rest, text)
        numbers = self.page.run(
            "return [...document.querySelectorAll('#drawn .number')].map(it => it.textContent).join()"
        )
        self.assertEqual(numbers, ",".join(str(it + 1) for it in range(len(faults))), text)

    def test_rules(self) -> None:
        """Each rule's example by its address: the rule, its place, what it asks, and what to write instead."""
        self.page.open()
        explained = self.page.run_until_done(
            "import(words[0] + 'urlcheck.js').then(async ({ load }) => { const it = await load();"
            "done(it.rules.map(rule => it.explain(rule))) }).catch(failed)",
            self.page.address,
        )
        self.assertIsInstance(explained, list, explained)
        mended = 0
        tried = explained if self.session.is_whole else explained[::RULES_OF_ONE]
        for rule in tried:
            mended += self.explains(rule)
        self.assertGreater(mended, 2 if self.session.is_whole else 0)
        self.told = "{} rules, and what to write instead for {}".format(len(tried), mended)

    def explains(self, rule: dict[str, Any]) -> bool:
        """Whether there is something to write instead of the rule's example, of which all is shown."""
        name, example = rule["rule"], rule["example"]
        state = {"view": "text", "text": example["text"], "base": example["base"] or ""}
        self.page.open(**state)
        self.assertEqual(self.page.verdict()[0], "Refused", name)
        shown, message = self.page.text("#faults"), self.message(name, example)
        self.assertEqual(shown.count(message), 1, (name, shown, message))
        self.assertNotIn(message, self.page.verdict()[1], name)
        # (the page has no options)
        self.assertNotIn("--", shown, name)
        self.assertIn(name, shown)
        self.assertIn(rule["requires"], shown, name)
        marked = self.page.run("return document.querySelector('#drawn .wrong .point').textContent")
        wrong = example["text"][example["place"] :][:1]
        self.assertEqual(marked, {"": "end", " ": "␣"}.get(wrong, wrong), name)
        wanted = self.mended(example)
        instead = self.page.run(
            "const it = document.querySelector('#drawn .instead');"
            "return it && ['mended ' + it.dataset.kind, it.querySelector('.try').textContent, it.firstChild.textContent]"
        )
        self.assertEqual(instead and instead[:2], wanted, name)
        # (of two slashes one may have been meant, and no host before a drive letter)
        is_kept = name in ("first-segment-empty", "drive-after-host")
        hint = "the same URL, written validly, is " if is_kept else "write instead "
        self.assertIn(instead and instead[2], (None, hint), name)
        for button in [".instead .try"] * (wanted is not None) + ["#faults .try:nth-of-type(2)"]:
            self.page.open(**state)
            self.page.find(button).click()
            self.page.wait(lambda: self.page.verdict()[0] == "Valid")
        return wanted is not None

    def message(self, name: str, example: dict[str, Any]) -> str:
        """The sentence that `lint` writes of a rule's example, as the page says it."""
        self.write(name, example["text"])
        told = without_options(self.program("lint", *self.base_of(example), name).out)
        message = told.partition(": error: ")[2].rpartition(" [")[0]
        self.assertTrue(message, told)
        return message

    def mended(self, example: dict[str, Any]) -> list[str] | None:
        """The lines of what `mend` writes in place of a rule's example, or None where it has nothing."""
        ended = self.program("mend", *self.base_of(example), "--", example["text"])
        return ended.out.splitlines() if ended.status == 0 else None

    def base_of(self, example: dict[str, Any]) -> list[str]:
        return [] if example["base"] is None else ["--base=" + example["base"]]

    def test_bases_and_profiles(self) -> None:
        """A base is checked too, and each profile checks as it does."""
        self.page.open(view="text", text="x", base="http://h/ \u00e9")
        word, rest = self.page.verdict()
        self.assertEqual(word, "Base refused")
        self.assertIn("at place 9", rest)
        self.page.fill("base", "http://h/\u00e9")
        self.assertEqual(self.page.verdict()[0], "Valid")
        self.page.open(view="text", text="http://a_b//x")
        self.choose("wide")
        self.page.fill("text", "http://a%2Db//x")
        self.assertEqual(self.page.verdict()[0], "Refused")
        self.choose("parser")
        self.told = "a refused base, and three profiles"

    def choose(self, profile: str) -> None:
        """Chooses a profile by a click, by which the text is valid."""
        self.assertEqual(self.page.verdict()[0], "Refused")
        self.page.find("input[value={}]".format(profile)).click()
        self.page.wait(lambda: self.page.verdict()[0] == "Valid")

    def test_hostile_texts(self) -> None:
        """No text is run, read as markup, or turns the direction of what is shown."""
        self.page.open()
        for text in ("http://h/" + MARKUP, MARKUP, "http://h/\0\x07\x1b[31m\u200f\u2028"):
            self.page.fill("text", text)
            self.page.fill("base", text)
            self.page.fill("base", "")
        self.page.fill("text", "http://h/\u202e\x07")
        shown = self.page.text("#drawn .drawn")
        self.assertIn("U+202E", shown)
        self.assertIn("U+0007", shown)
        self.assertNotIn("\u202e", shown)
        self.page.run(
            "const field = document.getElementById('text'); field.value = 'http://h/' + String.fromCharCode(0xd800);"
            "field.dispatchEvent(new Event('input', { bubbles: true }))"
        )
        word, rest = self.page.verdict()
        self.assertEqual(word, "Not checked")
        self.assertIn("lone surrogate", rest)
        self.drop_hostile_files()
        # (an error of a broken image, if one were made, comes before this script's end)
        self.page.run_until_done("const image = new Image(); image.onerror = () => done(); image.src = '/room/none'")
        self.assertFalse(self.page.run("return window.hacked"), "markup was run")
        found = self.page.run("return [document.images.length, document.scripts.length]")
        self.assertEqual(found, [1, 1], "markup was read")
        self.told = "markup, controls and marks of direction"

    def drop_hostile_files(self) -> None:
        link = "<base href='{0}'><a href='{0}'>{0}</a>".format(MARKUP.replace("'", ""))
        self.write("hostile", (MARKUP + "\n") * 3 + link)
        for name in ("list.txt", "page.html"):
            self.page.drop(MARKUP + name, "/room/hostile")
            self.page.wait(self.page.report_ended)

    def test_large_texts(self) -> None:
        """A text of millions of units is checked, and not drawn whole."""
        self.page.open()
        for units in (100_000, 3_000_000):
            self.page.fill("text", "http://h/" + "a^" * (units // 2))
            word, rest = self.page.verdict()
            self.assertEqual(word, "Refused")
            self.assertIn("at place 10", rest)
            self.page.fill("text", "http://h/" + "é" * units)
            self.assertEqual(self.page.verdict()[0], "Valid")
            self.assertLess(len(self.page.text("#drawn")), 5000, "all of a long text is drawn")
        self.told = "3,000,000 units"

    def test_little_memory(self) -> None:
        """A text for which there is no memory isn't checked, and the next one is."""
        page: Page = self.session.other_page("limited")
        page.open()
        for _ in range(3):
            page.fill("text", "http://h/" + "é" * 1_000_000)
            word, rest = page.verdict()
            self.assertEqual(word, "Not checked")
            self.assertIn("out of memory", rest)
            page.fill("text", "http://h/\u00e9")
            self.assertEqual(page.verdict()[0], "Valid")
        self.told = "out of memory, and the next text"
