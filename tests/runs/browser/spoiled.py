"""Copies of the page that are spoiled in one place each, with the test that has to find it, and what it says then."""

from __future__ import annotations

import os
import shutil
from dataclasses import dataclass


@dataclass(frozen=True)
class Spoiled:
    """An edit of a file of the page: the test of this name fails by it, and says these words. Some are always tried."""

    what: str
    test: str
    says: str
    file: str
    old: str
    new: str
    is_always_tried: bool = False

    def made(self, folder: str, copy: str) -> None:
        """Makes the copy, in which the old text, which is there once, is the new one."""
        shutil.copytree(folder, copy)
        path = os.path.join(copy, self.file)
        with open(path, encoding="utf-8") as file:
            text = file.read()
        if text.count(self.old) != 1:
            raise AssertionError("{}: {} has it {} times".format(self.what, self.file, text.count(self.old)))
        with open(path, "w", encoding="utf-8") as out:
            out.write(text.replace(self.old, self.new))


FOCUS = "\n:focus-visible {\n  outline: "
MARKUP = "for (const it of children) typeof it === 'string' ? (made.innerHTML += it) : it && made.append(it)"
LATE = "setTimeout(() => performance.mark('urlcheck-first-answer'), 6000)"
BUSY = "take(message) {\n    for (const end = performance.now() + 4000; performance.now() < end;);"

ALL = (
    Spoiled(
        "a wrong offset of a fault's place", "all_vectors", "check and violations differ",
        "layout.js", "export const FAULT_BYTE_PLACE = 4\n", "export const FAULT_BYTE_PLACE = 2\n", True,
    ),
    Spoiled(
        "an answer that comes late", "first_answer", "comes late",
        "page/main.js", "performance.mark('urlcheck-first-answer')", LATE,
    ),
    Spoiled(
        "a key that isn't heard", "typing", "not found in 'at place 0'",
        "page/main.js", "byId('text').addEventListener('input'", "byId('text').addEventListener('change'", True,
    ),
    Spoiled(
        "a sentence with an option of the command line", "rules", "unexpectedly found in",
        "page/text-view.js", "{ profile, wording: 'none' }", "{ profile, wording: 'options' }",
    ),
    Spoiled(
        "a rule that asks nothing", "rules", "not found in",
        "page/text-view.js", "element('p', { class: 'asks' }, requires,", "element('p', { class: 'asks' },",
    ),
    Spoiled(
        "a base whose refusal is called one of the text", "bases_and_profiles", "Base refused",
        "page/text-view.js", "return ['bad', 'Base refused', where]", "return ['bad', 'Refused', where]",
    ),
    Spoiled(
        "texts that are read as markup", "hostile_texts", "markup was",
        "page/elements.js", "made.append(...children.filter(child => child !== null))", MARKUP, True,
    ),
    Spoiled(
        "a long text that is drawn whole", "large_texts", "is drawn",
        "page/drawing.js", "export const DRAWN_UNITS = 3000\n", "export const DRAWN_UNITS = 300_000\n",
    ),
    Spoiled(
        "want of memory that is called something else", "little_memory", "out of memory",
        "page/text-view.js", "message: 'out of memory: the text is too large'", "message: 'the text is too large'",
    ),
    Spoiled(
        "a report with other lines", "long_list", "differs from that of lint",
        "page/worker.js", "number: this.lines + line,", "number: this.lines + line + 1,",
    ),
    Spoiled(
        "a page that doesn't answer meanwhile", "long_list", "doesn't answer",
        "page/report-view.js", "take(message) {", BUSY,
    ),
    Spoiled(
        "a job that isn't stopped", "stopping", "Stopped",
        "page/worker.js", "if (data.kind === 'stop') job.isStopped = true", "",
    ),
    Spoiled(
        "candidates that are read as one link", "html_file", "links, ",
        "page/links.js", "return linksOfCandidates(value)", "return [value]",
    ),
    Spoiled(
        "an attribute that isn't read", "all_attributes", "Lists differ",
        "page/attributes.js", "['cite', 'blockquote del ins q']", "['cite', 'blockquote del ins']",
    ),
    Spoiled(
        "an address without its profile", "the_address", "the profile of the address",
        "page/state.js", "PROFILES.find(profile => profile === words.get('profile')) ?? PROFILES[0]", "PROFILES[0]",
    ),
    Spoiled(
        "little contrast in dark colours", "looks", "little contrast",
        "page/style.css", "--hint: #a5abc0;", "--hint: #555b70;", True,
    ),
    Spoiled(
        "a text that is wider than a narrow window", "looks", "is wider",
        "page/answers.css", "white-space: pre-wrap;\n  overflow-wrap: anywhere;", "white-space: pre-wrap;",
    ),
    Spoiled(
        "examples that are wider than a window that got narrow", "resizing", "wider",
        "page/style.css", "  width: 12rem;\n", "  width: 40rem;\n",
    ),
    Spoiled(
        "a word that is spoiled", "words", "Lists differ",
        "index.html", "or drop one anywhere on this page", "or drop it anywhere on this page",
    ),
    Spoiled(
        "a field without a name", "names", "without a name",
        "index.html", '<label for="text">', "<label>",
    ),
    Spoiled(
        "a focus that isn't seen", "keyboard", "isn't seen",
        "page/style.css", FOCUS + "3px solid var(--accent);", FOCUS + "none;", True,
    ),
    Spoiled(
        "a picture from elsewhere", "own_files", "policy: img-src",
        "index.html", "<main>", '<main><img src="https://example.com/a.png" alt="">', True,
    ),
    Spoiled(
        "an error that no one sees", "own_files", "rejection: ",
        "page/report-view.js", "showEnd(message) {", "showEnd(message) {\n    Promise.reject(new Error('unseen'))",
    ),
)
