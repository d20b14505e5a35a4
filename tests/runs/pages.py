#!/usr/bin/env python3
"""Checks the pages of this repository: at its top, in docs/ and its folders, and each folder's README.md.

    tests/runs/pages.py texts [TOP]               lengths, links, paths and names; no program is needed
    tests/runs/pages.py commands PROGRAM [TOP]    runs each block of `console` commands, and compares what they print

TOP is the folder of the pages, by default the one above this file's. It ends with 1 where something is wrong.
"""

import pathlib
import re
import subprocess
import sys
import tempfile
import textwrap

# Two screens of a terminal, whose lines wrap at 80 columns.
README_ROWS = 100
FIRST_SCREEN = 32
HEADLINE = (
    "where the checker says yes to a string, alone or against a base, the Standard's parser started on it runs to its"
    " end without failure or validation error, in at most 3n + 16 steps, and its record has exactly the scheme, host,"
    " port, path, query and fragment that the string's parts denote; and the checker says yes exactly to the profile's"
    " written grammar."
)
# Folders of the repository: a word of code that begins with one of them is the path of something that is there.
FOLDERS = "bench", "bindings", "crates", "docs", "platform", "release", "tests", "tools"
FENCE = re.compile(r"^\s*```(.*)$")
# A script of the repository, as a block of commands calls it.
SCRIPT = re.compile(r"(?:^|[ (])((?:\./|(?:bench|platform|release|tests|tools)/)[\w./-]+)", flags=re.M)


def pages_of(top):
    """The pages, each with its path from the top."""
    folders = "", "docs", "docs/guides", "docs/rules", "bindings/*", "bindings/engines/*", "tests/*"
    found = [page for folder in folders for page in sorted(top.glob((folder + "/*.md").lstrip("/")))]
    return [page.relative_to(top) for page in dict.fromkeys(found)]


def blocks_of(text):
    """The fenced blocks: the line where each begins, its language, and its lines."""
    blocks, inside = [], None
    for number, line in enumerate(text.split("\n"), start=1):
        fence = FENCE.match(line)
        if fence and inside is None:
            inside = (number, fence.group(1).strip(), [])
        elif fence:
            blocks.append(inside)
            inside = None
        elif inside:
            inside[2].append(line)
    return blocks


def prose_of(text):
    """The text without its fenced blocks, as lines; a line of a block is empty."""
    lines, inside = [], False
    for line in text.split("\n"):
        fenced = FENCE.match(line)
        lines.append("" if inside or fenced else line)
        inside = inside != bool(fenced)
    return lines


# ---- sentences


def units_of(text):
    """What sentences are in: paragraphs, items of lists, cells of tables and headings, each with its first line."""
    units, lines, first = [], [], 0
    for number, line in enumerate(prose_of(text) + [""], start=1):
        stripped = line.strip()
        begins = re.match(r"(#+|[-*]|\d+\.) ", stripped)
        if lines and (not stripped or begins or stripped.startswith("|")):
            units.append((first, " ".join(lines)))
            lines = []
        if stripped.startswith("|"):
            units.extend((number, cell.strip()) for cell in re.split(r"(?<!\\)\|", stripped.strip("|")))
        elif stripped:
            first = first if lines else number
            lines.append(re.sub(r"^(#+|[-*]|\d+\.) ", "", stripped))
    return units


def sentences_of(unit):
    """The sentences of a paragraph. A word of code is one word, and a link is its text."""
    plain = re.sub(r"`[^`]*`", "Code", unit)
    plain = re.sub(r"!?\[([^\]]*)\]\([^)]*\)", r"\1", plain)
    return re.split(r"(?<=[.!?])[\"')*_]*\s+(?=[\"'(*_]*[A-Z0-9])", plain)


# ---- links, paths and names


def anchors_of(text):
    """The anchors that the headings of a page make."""
    anchors = set()
    for line in prose_of(text):
        heading = re.match(r"#+ (.*)", line)
        if heading:
            kept = re.sub(r"[^\w\- ]", "", heading.group(1).replace("`", "").lower())
            anchors.add(kept.strip().replace(" ", "-"))
    return anchors


def links_of(text):
    """The targets of the links and pictures of a page, without those that name another host."""
    found = re.findall(r"\]\(([^)\s]+)\)", "\n".join(prose_of(text)))
    return [target for target in found if not re.match(r"[a-z]+:", target)]


def check_links(top, page, text, wrong):
    for target in links_of(text):
        path, _, anchor = target.partition("#")
        file = (top / page).parent / path if path else top / page
        if not file.exists():
            wrong.append("{}: a link to {}, which isn't there".format(page, target))
        elif anchor and anchor not in anchors_of(file.read_text(encoding="utf-8")):
            wrong.append("{}: a link to {}, and no heading makes this anchor".format(page, target))


def check_paths(top, page, text, wrong):
    for code in re.findall(r"`([^`\s]+)`", "\n".join(prose_of(text))):
        if code.split("/")[0] in FOLDERS and "/" in code and not re.search(r"[*<>()|$]|\bout/|NAME|\.\.", code):
            if not (top / code).exists():
                wrong.append("{}: `{}` isn't there".format(page, code))
    for line, language, lines in blocks_of(text):
        # (the commands of docs/DOCUMENTS.md, in blocks of this language, are run with the package)
        if language not in ("console", "shell-session") and any(it.startswith("$ ") for it in lines):
            wrong.append("{}:{}: commands in a block that no run takes".format(page, line))
        # (the commands of a page below bindings/ are for its own folder)
        for script in SCRIPT.findall("\n".join(lines)) if language == "sh" and page.parts[0] != "bindings" else []:
            if not (top / script).exists():
                wrong.append("{}:{}: {} isn't there".format(page, line, script))


def check_index(top, pages, texts, wrong):
    navigation = (top / "mkdocs.yml").read_text(encoding="utf-8")
    linked = {(top / "docs" / target.partition("#")[0]).resolve() for target in links_of(texts[INDEX])}
    for page in pages:
        if page.parent.name in ("docs", "guides") and page != INDEX and (top / page).resolve() not in linked:
            wrong.append("{}: no link leads to {}".format(INDEX, page))
        if page.parts[0] == "docs" and not re.search(r": {}$".format(re.escape(str(page))), navigation, flags=re.M):
            wrong.append("mkdocs.yml: its navigation has no {}".format(page))


INDEX = pathlib.Path("docs/README.md")
PROVED = pathlib.Path("docs/PROVED.md")
LIBRARY = pathlib.Path("docs/LIBRARY.md")
HISTORY = pathlib.Path("CHANGELOG.md")


def contracts_of(top):
    """The names of the clauses of each function with a contract, by its crate and its name."""
    listed = subprocess.run([top / "tools" / "make-contracts", top], capture_output=True, text=True, check=True).stdout
    rows = [line.split("\t") for line in listed.splitlines()]
    return {(crate, name.split("::")[-1]): clauses.split() for crate, name, clauses, _, _ in rows}


def check_claims(top, text, wrong):
    """Each row of docs/PROVED.md names functions and clauses that tools/make-contracts lists, and its command that function."""
    known = contracts_of(top)
    claims = re.findall(r"^\|(?: [^|]* \|)? `(\w+)` \| (`[^|]*`) \|([^|]*)\|(.*)\|$", text, flags=re.M)
    for crate, functions, clauses, rest in claims:
        for function in re.findall(r"`(\w+)`", functions):
            for clause in re.findall(r"`(\w+)`", clauses):
                if clause not in known.get((crate, function), [clause]):
                    wrong.append("{}: `{}` of {} has no clause `{}`".format(PROVED, function, crate, clause))
            if (crate, function) not in known:
                wrong.append("{}: {} has no `{}`".format(PROVED, crate, function))
        for path in re.findall(r"`rt check --only ([\w:]+)`", rest):
            module, _, function = path.rpartition("::")
            file = top / "crates" / crate / "src" / "{}.rt".format(module.replace("::", "/"))
            code = file.read_text(encoding="utf-8") if file.exists() else ""
            if "`{}`".format(function) not in functions or not re.search(r"\bfn {}\b".format(function), code):
                wrong.append("{}: no function {} is in {}".format(PROVED, path, crate))
    if len(claims) < 10:
        wrong.append("{}: there are {} rows of claims alone".format(PROVED, len(claims)))


def check_quotes(top, text, wrong):
    """Each clause that docs/PROVED.md quotes is one of the code."""
    files = sorted((top / "crates").glob("*/src/**/*.rt"))
    code = " ".join(" ".join(file.read_text(encoding="utf-8").split()) for file in files)
    clauses = re.split(r"^(?=ensures )", "\n".join("\n".join(lines) for _, _, lines in blocks_of(text)), flags=re.M)[1:]
    for clause in clauses:
        if " {} ".format(" ".join(clause.split())) not in code:
            wrong.append("{}: no function has the clause {}".format(PROVED, clause.strip()))
    if len(clauses) < 7:
        wrong.append("{}: it quotes {} clauses alone".format(PROVED, len(clauses)))


def check_lengths(top, text, wrong):
    """Each definition of which docs/PROVED.md gives the length has so many lines."""
    lengths = re.findall(r"`(crates/[\w/]+\.antt)` \((\d+) lines\)", re.sub(r"\s+", " ", text))
    for file, length in lengths:
        lines = (top / file).read_text(encoding="utf-8").count("\n") if (top / file).exists() else 0
        if lines != int(length):
            wrong.append("{}: {} has {} lines, not {}".format(PROVED, file, lines, length))
    if len(lengths) < 10:
        wrong.append("{}: there are {} definitions to read alone".format(PROVED, len(lengths)))


def check_header(top, text, wrong):
    """docs/LIBRARY.md names each function of the header for C, and each verdict with its number."""
    header = re.sub(r"/\*.*?\*/", "", (top / "bindings/c/include/urlcheck.h").read_text(encoding="utf-8"), flags=re.S)
    for name in dict.fromkeys(re.findall(r"\b(urlcheck_\w+)\(", header)):
        # (the page says once how the calls that end with `_to` are to the others)
        plain = name[: -len("_to")] if name.endswith("_to") else name
        if "`{}`".format(plain) not in text and not re.search(r"\b{}\(".format(plain), text):
            wrong.append("{}: no word on `{}`".format(LIBRARY, name))
    for name, number in re.findall(r"(\w+) = (\d+)", header.partition("enum urlcheck_outcome {")[2].partition("}")[0]):
        if "| `{}` | {} |".format(name, number) not in text:
            wrong.append("{}: no verdict `{}` with the number {}".format(LIBRARY, name, number))


def words_of_code(top):
    """Every word of the code, of the definitions, and of the names of files: what a page may name."""
    words = set()
    for folder in FOLDERS:
        for file in (top / folder).rglob("*"):
            if "out" in file.relative_to(top).parts or not file.is_file() or file.suffix == ".md":
                continue
            words.update(re.findall(r"\w+", str(file.relative_to(top))))
            if file.suffix not in (".svg", ".json"):
                words.update(re.findall(r"\w+", file.read_text(encoding="utf-8", errors="replace")))
    return words


def names_before(text):
    """The names of earlier versions: the first column of a table that begins with `Until`."""
    tables = re.findall(r"^\| Until .*\n\|[-|]*\n((?:\|.*\n)*)", text, flags=re.M)
    return {name for table in tables for row in table.splitlines() for name in re.findall(r"\w+", row.split("|")[1])}


def check_words(top, texts, wrong):
    """Each word that a page gives as code, and that has the form of a name or of its beginning, is somewhere. What was
    renamed may be named by the page that says so, and by what tells of earlier versions."""
    known = words_of_code(top)
    before = names_before(texts.get(HISTORY, ""))
    for page, text in texts.items():
        for code in re.findall(r"`([A-Za-z][\w:]*)`", "\n".join(prose_of(text))):
            name = code.split("::")[-1]
            stands = name in known or (name.endswith("_") and any(word.startswith(name) for word in known))
            stands = stands or (name in before and page == HISTORY)
            if re.search(r"_|[a-z][A-Z]|::", code) and not stands:
                wrong.append("{}: `{}` is the name of nothing here".format(page, code))


def check_notice(top, wrong):
    """NOTICE has a row for each crate of the toolchain that crates.txt names."""
    lines = [line for line in (top / "crates.txt").read_text(encoding="utf-8").split("\n") if ":" in line]
    crates = [line.partition(":") for line in lines if not line.startswith("#")]
    own = {name.split()[0] for name, _, _ in crates}
    notice = (top / "NOTICE").read_text(encoding="utf-8")
    for crate in sorted({word for _, _, below in crates for word in below.split()} - own):
        if not re.search(r"^{} ".format(crate), notice, flags=re.M):
            wrong.append("NOTICE: no row for {}, which crates.txt names".format(crate))


def check_readme(top, text, wrong):
    lines = text.rstrip("\n").split("\n")
    rows = sum(max(1, len(textwrap.wrap(line, 80, break_on_hyphens=False))) for line in lines)
    if rows > README_ROWS:
        wrong.append("README.md: {} rows of 80 columns, and at most {} are wanted".format(rows, README_ROWS))
    version = (top / "VERSION").read_text(encoding="utf-8").strip()
    if "Version {},".format(version) not in text:
        wrong.append("README.md: it doesn't name the version of VERSION, {}".format(version))
    if not any(re.match(r"\s+\^$", line) for line in lines[:FIRST_SCREEN]):
        wrong.append("README.md: no diagnostic with a caret on the first screen")


def check_texts(top):
    wrong = []
    pages = pages_of(top)
    texts = {page: (top / page).read_text(encoding="utf-8") for page in pages}
    for page, text in texts.items():
        check_links(top, page, text, wrong)
        check_paths(top, page, text, wrong)
    check_readme(top, texts[pathlib.Path("README.md")], wrong)
    check_index(top, pages, texts, wrong)
    check_claims(top, texts[PROVED], wrong)
    check_quotes(top, texts[PROVED], wrong)
    check_lengths(top, texts[PROVED], wrong)
    if HEADLINE not in re.sub(r"\s+", " ", texts[PROVED]):
        wrong.append("{}: the headline isn't there, word for word".format(PROVED))
    check_header(top, texts[LIBRARY], wrong)
    check_words(top, texts, wrong)
    check_notice(top, wrong)
    return wrong, "{} pages".format(len(pages))


# ---- commands


def commands_of(block):
    """The commands of a block, each with the lines that it prints. One that ends with `\\` or `|` goes on."""
    commands = []
    for line in block:
        if commands and commands[-1][0].endswith(("\\", "|")) and not commands[-1][1]:
            commands[-1] = (commands[-1][0] + "\n" + line, [])
        elif line.startswith("$ "):
            commands.append((line[2:], []))
        elif commands:
            commands[-1][1].append(line)
    return commands


def room_for(top, program, folder):
    """A folder as a reader has it: the repository's files, and the program on the path and as ./urlcheck."""
    room = pathlib.Path(folder)
    (room / "path").mkdir()
    (room / "here").mkdir()
    (room / "path" / "urlcheck").symlink_to(program)
    (room / "here" / "urlcheck").symlink_to(program)
    (room / "here" / "tests").symlink_to(top / "tests")
    return room


def script_of(commands, room):
    """A script that runs the commands one after the other, as one shell does, each with its output in a file."""
    lines = ["export PATH={}:$PATH LC_ALL=C.UTF-8".format(room / "path"), "cd {}".format(room / "here")]
    for number, (command, _) in enumerate(commands):
        lines += ["(exit ${status:-0})", "{", command, "} >%s 2>&1" % (room / str(number)), "status=$?"]
    return "\n".join(lines) + "\n"


def check_own_links(top, program):
    """The links of the pages that name another host are valid URL strings, as the program says."""
    wrong, links = [], set()
    for page in pages_of(top):
        text = "\n".join(prose_of((top / page).read_text(encoding="utf-8")))
        links.update(re.findall(r"\]\(([a-z]+:[^)\s]+)\)|<([a-z]+:[^>\s]+)>", text))
    listed = sorted(one or other for one, other in links)
    ran = subprocess.run([program, "links"], input="\n".join(listed) + "\n", capture_output=True, text=True, check=False)
    for line in ran.stdout.splitlines()[:-1]:
        if line.split()[1] != "ok":
            wrong.append("a link of the pages, {}: {}".format(listed[int(line.split()[0]) - 1], line))
    if not listed or ran.returncode > 1:
        wrong.append("the links of the pages weren't checked: {}".format(ran.stderr))
    return wrong


def check_commands(top, program):
    wrong, count = check_own_links(top, program), 0
    for page in pages_of(top):
        blocks = blocks_of((top / page).read_text(encoding="utf-8"))
        commands = [command for _, language, block in blocks if language == "console" for command in commands_of(block)]
        with tempfile.TemporaryDirectory() as folder:
            room = room_for(top, program, folder)
            subprocess.run(["bash"], input=script_of(commands, room), text=True, check=False)
            for number, (command, printed) in enumerate(commands):
                out = room / str(number)
                said = out.read_text(encoding="utf-8") if out.exists() else "nothing: it wasn't run\n"
                if said != "".join(line + "\n" for line in printed):
                    wrong.append("{}: {}\n it printed\n{}".format(page, command, said))
        count += len(commands)
    if not count:
        wrong.append("no page has a command")
    return wrong, "{} commands".format(count)


def main():
    words = sys.argv[1:]
    here = pathlib.Path(__file__).resolve().parents[2]
    if words[:1] == ["texts"] and len(words) <= 2:
        wrong, what = check_texts(pathlib.Path(words[1]).resolve() if len(words) == 2 else here)
    elif words[:1] == ["commands"] and len(words) in (2, 3):
        program = pathlib.Path(words[1]).resolve()
        wrong, what = check_commands(pathlib.Path(words[2]).resolve() if len(words) == 3 else here, program)
    else:
        sys.exit(__doc__)
    for line in wrong:
        print("FAILED: " + line)
    print("pages: {}, {}".format(what, "as they should be" if not wrong else "{} wrong".format(len(wrong))))
    sys.exit(1 if wrong else 0)


if __name__ == "__main__":
    main()
