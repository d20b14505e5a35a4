#!/usr/bin/env python3
"""How the pages read: forms that a native writer would change, long sentences and rows of short ones, words that
CONTRIBUTING.md avoids, first lines, lengths, and spelling. The messages of the programs avoid these words too, and those
forms are looked for in the messages of the Python package, in the manual pages that are written by hand, and in the
comments of the crates and of that package.

    tests/runs/prose.py [TOP]            sees that each page keeps to the limits below; 1 where one doesn't
    tests/runs/prose.py --table [TOP]    writes a row for each page: its words, its sentences, and what they are allowed

TOP is the folder of the pages, by default the one above this file's. Spelling is looked at by codespell where it is installed.
"""

import ast
import pathlib
import re
import shutil
import subprocess
import sys
import tempfile

import pages

MOST_WORDS = 30
# So many sentences of so few words, one after the other and with no word that joins them, read like a list of notes.
SHORT_WORDS, SHORT_ROW = 9, 3
JOINED = re.compile(r"\b(because|so|but|since|if|when|then|that|which|who|until|before|after|as|to)\b|[:?]", re.I)
# Forms that make a sentence odd, each with what a writer does instead.
ODD = (
    (r"^Where [^,]*,", "'Where ..' at the start: write if, or when"),
    (r"\b(only|fails|exactly|empty) where\b", "'where' for if or when"),
    (r"^Of [^,]*, ", "'Of ..' at the start: begin with the subject"),
    (r"(?<!there )\b(is|are|was|were) no(ne)?\b(?! longer\b)", "'is no ..': write isn't a .."),
    (r"\b(that|those|the ones?|the same) of\b|\bthe (former|latter)\b", "a pronoun in place of a noun: repeat the noun"),
    (r"(?<!checked )(?<!string )(?<!host )(?<!text )(?<!is read )(?<!, )\balone\b(?!,? (or|and) against\b)", "'alone' for only"),
    (r"\b(Standard|rules?|scheme|format|contract|header) asks?\b", "'asks' of a thing: write requires, or needs"),
    (r"\banew\b", "'anew': write again"),
    (r"\balso (if|when|where)\b", "'also if': write even if"),
    (r"[;,] (and |or )?else\b", "'else' at the start of a clause: write otherwise"),
    (r"\bwhoever\b", "'whoever': write anyone who, or name them"),
    (r"\bin the place of\b", "write in place of"),
    (r"\bbeside\b", "'beside': write next to, besides, or compared with"),
    (r"\bin silence\b", "'in silence': write silently, or without an error"),
    (r"\bseldom\b", "'seldom': write rarely"),
    (r"\bby (the|every|each|any|another|its own) ([a-z']+ )?profile\b", "'by' a profile: write under"),
    (r"\bcounts (where|if)\b", "'counts': write applies"),
    (r"\b(install\w*|buil[dt]\w*|measured|removed?|make|give \w+ \w+) (the \w+ )?by Code\b", "'by' a tool: write with"),
    (r"\b(one|object|ns|µs|dozen) a (line|link|text|crate)\b", "'a' for per"),
    (r"\bwithout it Code\b", "'without it' in a table of options: write by default"),
    (r"\b(what|nothing|much) is (said|told)\b", "name who says it"),
)
GUIDE_LINES = 120
AVOIDED = pathlib.Path("CONTRIBUTING.md")
# How the first line of a page begins, by its section in docs/README.md.
FIRST_LINES = {"Start": "For ", "Guides": "For ", "Reference": "Reference for ", "Background": "For "}
# The manual pages that aren't made from the help of the program.
MANUALS = ("urlcheck-documents.1", "urlcheck-language-server.1")
# Messages that the program `urlcheck` has too, and the first line of a file that older versions wrote.
KEPT = ("a part of its path is no folder", "# urlcheck baseline 1: faults that are known, one a line")
# What pages are allowed beyond this, and why: how many longer sentences, and how many avoided words.
HISTORY = "what a version said isn't rewritten"
ALLOWED = {
    "CHANGELOG.md": (1, 24, HISTORY),
}
# Words that codespell takes for slips: a name, and the inputs of examples.
SPELLED = ("crate", "ans", "nd", "fo", "te", "als", "ist", "oder")


def avoided(top):
    """The words that the pages avoid, as a pattern; "stand for" is fine."""
    text = (top / AVOIDED).read_text(encoding="utf-8").partition("## Words that the pages avoid")[2].partition("\n## ")[0]
    words = [word for line in text.splitlines() if line.startswith("| `") for word in re.findall(r"`([^`]+)`", line.split("|")[1])]
    if len(words) < 10:
        sys.exit("FAILED: {}: the table of avoided words is missing".format(AVOIDED))
    # ("of these pages" is fine too)
    whole = [re.escape(word) + (r"(?=[.,;:|)])" if word == "of these" else "") for word in words]
    return re.compile(r"\b({})(?!\w| for\b)".format("|".join(whole)), re.I)


def sentences_of(text):
    """The sentences of a page with at least three words: the line, the sentence, the number of its words."""
    found = []
    for line, unit in pages.units_of(text):
        for sentence in pages.sentences_of(unit.replace("*" + pages.HEADLINE + "*", "").replace(pages.HEADLINE, "")):
            # (a list of words of code counts as one word, and what a `;` parts is read apart)
            short = re.sub(r"Code(,? (and |or )?Code)+", "Code", sentence)
            for part in short.split(";"):
                words = len(part.split())
                if words > 2:
                    found.append((line, part.strip(), words))
    return found


def odd_in(sentences):
    """What makes sentences odd: the line of each, its words, and what a writer does instead."""
    for line, sentence, _ in sentences:
        for pattern, advice in ODD:
            if re.search(pattern, sentence, re.I if pattern.startswith("(?<!there") else 0):
                yield line, sentence, advice


def short_rows(text):
    """Finds several short sentences that follow each other in one paragraph: the line of the paragraph, and the first one."""
    for line, unit in pages.units_of(text):
        row = 0
        for sentence in pages.sentences_of(unit):
            is_short = sentence.endswith(".") and len(sentence.split()) <= SHORT_WORDS and not JOINED.search(sentence)
            row = row + 1 if is_short else 0
            if row == SHORT_ROW:
                yield line, sentence


def avoided_in(text, pattern):
    """The avoided words of a page, each with its line; what is code, a link's target or a heading's anchor isn't looked at."""
    found = []
    for number, line in enumerate(pages.prose_of(text), start=1):
        plain = re.sub(r"\]\([^)]*\)", "]", re.sub(r"``.*?``|`[^`]*`", "", line))
        found += [(number, word) for word in pattern.findall(plain)]
    return found


def messages_of(file):
    """The texts between quotation marks in a source of Rattle or Python, but for comments and what says what a thing is."""
    text = file.read_text(encoding="utf-8")
    if file.suffix == ".py":
        nodes = list(ast.walk(ast.parse(text)))
        said = {id(node.value) for node in nodes if isinstance(node, ast.Expr)}
        return [it.value for it in nodes if isinstance(it, ast.Constant) and isinstance(it.value, str) and id(it) not in said]
    code = re.sub(r"^\s*//.*$", "", text, flags=re.M)
    return re.findall(r'"((?:[^"\\]|\\.)*)"', re.sub(r"""'\\?"'""", "", code), flags=re.S)


def check_messages(top, pattern, wrong):
    """The words that the programs' texts shouldn't have."""
    # (the crates `test_*` print nothing)
    files = [it for it in sorted((top / "crates").glob("*/src/**/*.rt")) if "/test_" not in str(it)]
    files += sorted((top / "bindings/python/urlcheck").rglob("*.py"))
    if len(files) < 2:
        wrong.append("no source of a program is there")
    for file in files:
        for word in (it for message in messages_of(file) for it in pattern.findall(message)):
            wrong.append("{}: a message has '{}', which the pages avoid".format(file.relative_to(top), word))


def words_of_manual(file):
    """The paragraphs of a manual page, without its macros."""
    text = re.sub(r"^\.[A-Z]+ ?", "", file.read_text(encoding="utf-8").replace("\\-", "-"), flags=re.M)
    return re.split(r"\n\s*\n|\nPP\n", text)


# What a comment begins with, by the ending of a source.
COMMENTS = {".rt": r"\s*//[/!]? ?(.*)", ".antt": r"\s*-- ?(.*)", ".py": r"\s*# ?(.*)"}


def comments_of(file):
    """The comments of a source, each on its lines; a line of code is empty. In Python, docstrings are among them."""
    text = file.read_text(encoding="utf-8")
    lines = [re.match(COMMENTS[file.suffix], line) for line in text.split("\n")]
    said = [line.group(1) if line else "" for line in lines]
    for node in ast.walk(ast.parse(text)) if file.suffix == ".py" else ():
        if isinstance(node, ast.Expr) and isinstance(node.value, ast.Constant) and isinstance(node.value.value, str):
            said[node.lineno - 1 : node.end_lineno] = node.value.value.split("\n")
    return "\n".join(said)


def check_comments(top, wrong):
    """The forms that make a sentence odd, in comments of the crates and of the Python package."""
    folders = ("crates/*/src", "crates/*/specs", "crates/*/proofs", "bindings/python/urlcheck")
    files = (it for folder in folders for it in sorted(top.glob(folder + "/**/*")))
    for file in (it for it in files if it.suffix in COMMENTS):
        for line, sentence, advice in odd_in(sentences_of(comments_of(file))):
            wrong.append("{}:{}: {}: {} ..".format(file.relative_to(top), line, advice, sentence[:60]))


def check_forms(top, wrong):
    """The forms that make a sentence odd, in messages and manual pages."""
    files = sorted((top / "bindings/python/urlcheck").rglob("*.py")) + [top / "docs/share/man" / name for name in MANUALS]
    for file in files:
        texts = messages_of(file) if file.suffix == ".py" else words_of_manual(file)
        for text in texts:
            units = [] if text.strip() in KEPT else sentences_of(re.sub(r"\s+", " ", text))
            wrong += ["{}: {}: {} ..".format(file.relative_to(top), advice, it[:60]) for _, it, advice in odd_in(units)]


def allowed_of(page):
    """How many longer sentences and avoided words a page may have, and why."""
    for name, allowance in ALLOWED.items():
        if page.match(name):
            return allowance
    return 0, 0, ""


def kinds_of(top):
    """The pages of docs/ by their kind: the section of docs/README.md that has their link."""
    parts = re.split(r"^## (.*)\n", (top / pages.INDEX).read_text(encoding="utf-8"), flags=re.M)
    return {
        (top / "docs" / target.partition("#")[0]).resolve(): kind
        for kind, section in zip(parts[1::2], parts[2::2])
        for target in pages.links_of(section)
    }


def first_line(text):
    """The first line of a page after its heading."""
    lines = [line for line in text.split("\n") if line and not line.startswith(("#", "!"))]
    return lines[0] if lines else ""


def check_form(top, page, text, kind, wrong):
    """A guide's length, and that the first line says who needs the page."""
    lines = text.count("\n")
    if page.parent.name == "guides" and lines > GUIDE_LINES:
        wrong.append("{}: {} lines, and a guide has at most {}".format(page, lines, GUIDE_LINES))
    if page.parent.name in ("docs", "guides") and not first_line(text).startswith(FIRST_LINES.get(kind, "For ")):
        wrong.append("{}: its first line doesn't say who needs it: {}".format(page, first_line(text)[:60]))


def check_page(page, text, pattern, wrong):
    """The sentences and words of a page, and what it is allowed."""
    long_ones, words_allowed, reason = allowed_of(page)
    sentences = sentences_of(text)
    mean = sum(words for _, _, words in sentences) / max(1, len(sentences))
    if not reason:
        wrong += ["{}:{}: {}: {} ..".format(page, line, advice, it[:60]) for line, it, advice in odd_in(sentences)]
        row = "{}:{}: {} sentences in a row of at most {} words: .. {}"
        wrong += [row.format(page, line, SHORT_ROW, SHORT_WORDS, it[:60]) for line, it in short_rows(text)]
    longer = [it for it in sentences if it[2] > MOST_WORDS]
    if len(longer) > long_ones:
        for line, sentence, words in longer:
            wrong.append("{}:{}: a sentence of {} words: {} ..".format(page, line, words, sentence[:60]))
    found = avoided_in(text, pattern)
    if len(found) > words_allowed:
        wrong += ["{}:{}: the pages avoid '{}'".format(page, line, word) for line, word in found]
    return mean, max((words for _, _, words in sentences), default=0), len(longer), len(found)


def check_spelling(top, found, wrong):
    """What codespell takes for a slip, outside of code."""
    if not shutil.which("codespell"):
        print("prose: spelling is left out, since codespell isn't installed")
        return
    with tempfile.TemporaryDirectory() as folder:
        for page in found:
            lines = [re.sub(r"``.*?``|`[^`]*`", "", line) for line in pages.prose_of((top / page).read_text(encoding="utf-8"))]
            copy = pathlib.Path(folder) / page
            copy.parent.mkdir(parents=True, exist_ok=True)
            copy.write_text("\n".join(lines), encoding="utf-8")
        words = ["codespell", "-L", ",".join(SPELLED), folder]
        said = subprocess.run(words, capture_output=True, text=True, check=False).stdout
    wrong += [line.replace(folder + "/", "") for line in said.splitlines() if "==>" in line]


def main():
    words = sys.argv[1:]
    table = words[:1] == ["--table"]
    rest = words[1:] if table else words
    if len(rest) > 1 or (rest and rest[0].startswith("-")):
        sys.exit(__doc__)
    top = pathlib.Path(rest[0]).resolve() if rest else pathlib.Path(__file__).resolve().parents[2]
    pattern, wrong, kinds = avoided(top), [], kinds_of(top)
    found = pages.pages_of(top)
    means, most, longer, avoided_words = [], 0, 0, 0
    for page in found:
        text = (top / page).read_text(encoding="utf-8")
        mean, longest, over, words_found = check_page(page, text, pattern, wrong)
        check_form(top, page, text, kinds.get((top / page).resolve()), wrong)
        means.append(mean)
        most, longer, avoided_words = max(most, longest), longer + over, avoided_words + words_found
        if table:
            row = "{:34} {:5} words, {:4.1f} a sentence, at most {:2}; {:2} above {}, {:2} avoided words  {}"
            print(row.format(str(page), len(text.split()), mean, longest, over, MOST_WORDS, words_found, allowed_of(page)[2]))
    check_spelling(top, found, wrong)
    check_messages(top, pattern, wrong)
    check_forms(top, wrong)
    check_comments(top, wrong)
    for line in wrong:
        print("FAILED: " + line)
    print("prose: {} pages, {:.1f} to {:.1f} words a sentence".format(len(found), min(means), max(means)))
    allowed = "prose: allowed are {} sentences of more than {} words, and {} avoided words, in {}"
    print(allowed.format(longer, MOST_WORDS, avoided_words, ", ".join(ALLOWED)))
    return int(bool(wrong))


if __name__ == "__main__":
    sys.exit(main())
