"""Tests of what words ask urlcheck.documents for: options, folders, what is left out. The package is on PYTHONPATH."""

import gzip
import importlib.util
import os
import re
import subprocess
import sys
import unittest

from room import PROGRAM, TOP, Texts
from urlcheck import RULES
from urlcheck._documents.habits import habit


class Words(Texts):
    def test_folders_and_input(self):
        os.mkdir(os.path.join(self.room, "d"))
        self.write("d/b.html", "<a href=x>")
        self.write("d/a.html", "<a href=y>")
        self.write("d/c.txt", "<a href=z>")
        self.assertEqual(self.run_on("--list", "d")[1], "d/a.html:1:9:y\nd/b.html:1:9:x\n")
        self.assertEqual(self.run_on("--list", "--type", "html", "-", stdin=b"\n<a href=x>")[1], "-:2:9:x\n")
        wanted = "standard input: it has no name that says its kind: give --type html, xml, markdown or another kind\n"
        status, _, said = self.run_on("--list", "--quiet", "-")
        self.assertEqual((status, said), (2, "urlcheck-documents: " + wanted))

    def test_folders_that_give_nothing(self):
        os.mkdir(os.path.join(self.room, "empty"))
        self.write("a.html", "<a href=x>")
        status, out, said = self.run_on("empty", "a.html")
        self.assertEqual((status, out), (2, ""))
        self.assertIn("empty: has no document: no name in this folder ends in .html, ", said)
        self.assertIn("1 document, 1 link", said)

    def test_excluded(self):
        names = ["d/a.html", "d/a.min.html", "d/drafts/x.html", "d/drafts/deep/y.html", "d/modules/m.html",
                 "d/sub/v.html", "d/sub/drafts/z.html", "d/sub/modules/n.html", "d/v.html/p.html"]
        for name in names:
            os.makedirs(os.path.join(self.room, os.path.dirname(name)), exist_ok=True)
            self.write(name, "<a href=x>")
        for patterns, out in (
            ([], ""),
            (["modules"], "mn"),
            (["modules", "*.min.html", "drafts/*"], "mn-xy"),
            (["drafts"], "xyz"),
            (["*/drafts"], "z"),
            (["drafts/deep"], "y"),
            (["d*s/x*"], "x"),
            (["sub/*"], "vzn"),
            (["**/n.html"], "n"),
            (["v.html"], "vp"),
            (["v.html/"], "p"),
            (["*/"], "xymvznp"),
            (["?.html"], "axymvznp"),
            (["[hx].html"], "x"),
            (["[!a]*.html"], "xymvznp"),
            # What matches nothing: another case, a part of a name, the folder that is named, a path of the shell.
            (["A.html", "min.html", "d", "d/*", "./a.html", "/a.html", "", "/", "[", "{a,v}.html", "*.min"], ""),
        ):
            # (a letter stands for the document that is named so, and - for the one with a longer name)
            left = [it for it in names if ("-" if ".min." in it else os.path.basename(it)[0]) not in out]
            words = [word for pattern in patterns for word in ("--exclude", pattern)]
            with self.subTest(patterns):
                status, found, said = self.run_on("--list", "--quiet", *words, "d")
                self.assertEqual((status, found, said), (0, "".join(it + ":1:9:x\n" for it in left), ""))

    def test_what_is_named_is_read(self):
        """A pattern leaves nothing out that is an argument itself."""
        os.makedirs(os.path.join(self.room, "d", "e"))
        self.write("d/a.html", "<a href=x>")
        self.write("d/e/b.html", "<a href=x>")
        folder = os.path.join(self.room, "d")
        for pattern, name, found in (
            ("*", "d/a.html", ["d/a.html"]),
            ("d", "d", ["d/a.html", "d/e/b.html"]),
            ("e", "d/e", ["d/e/b.html"]),
            ("e/*", "d/", ["d/a.html"]),
            ("d/e/*", ".", ["./d/a.html"]),
            ("e/*", ".", ["./d/a.html", "./d/e/b.html"]),
            ("e/*", folder, [folder + "/a.html"]),
        ):
            with self.subTest(pattern=pattern, name=name):
                status, out, _ = self.run_on("--list", "--exclude", pattern, name)
                self.assertEqual((status, out), (0, "".join(it + ":1:9:x\n" for it in found)))

    def test_excluded_without_a_word(self):
        """What is left out is neither read nor counted; a folder of which nothing is left has no document."""
        os.mkdir(os.path.join(self.room, "d"))
        self.write("d/a.html", "<a href=x>")
        os.symlink("missing", os.path.join(self.room, "d", "b.html"))
        status, _, said = self.run_on("--list", "d")
        self.assertEqual(status, 2)
        self.assertIn("urlcheck-documents: d/b.html: can't be read: there is no such file\n", said)
        said = self.run_on("--list", "--exclude", "b.*", "d")[2]
        self.assertEqual(said, "urlcheck-documents: 1 document, 1 link, 0 ignored\n")
        status, out, said = self.run_on("--list", "--exclude", "*.html", "d")
        self.assertEqual((status, out), (2, ""))
        self.assertIn("d: has no document: no name in this folder that isn't excluded ends in .html, ", said)

    def test_the_package_as_a_program(self):
        """`python3 -m urlcheck` is the same program."""
        self.write("a.html", "<a href='x y'>")
        for words in (["a.html"], ["--list", "a.html"], ["--version"], ["--no"]):
            ran = [subprocess.run([sys.executable, "-m", name, *words], cwd=self.room, capture_output=True)
                   for name in ("urlcheck", "urlcheck.documents")]
            self.assertEqual(*((it.returncode, it.stdout, it.stderr) for it in ran))

    def test_quiet(self):
        """Only the counts are left out."""
        self.write("a.html", "<a href='x y'>")
        for quiet in ("-q", "--quiet"):
            for words, wanted in ((["--list", "a.html"], 0), (["a.html"], 1), (["--check", "a.html"], 1)):
                status, out, said = self.run_on(quiet, *words)
                self.assertEqual((status, out.count("\n"), said), (wanted, 1, ""))
            status, _, said = self.run_on("--list", quiet, "b.html", "a.html")
            self.assertEqual((status, said), (2, "urlcheck-documents: b.html: can't be read: there is no such file\n"))

    def test_options_between_documents(self):
        """Options are before, between and after the documents; after `--` each word is one."""
        for name in ("a.html", "b.html", "--check", "-q"):
            self.write(name, "<a href='x y'>")
        links = "a.html:1:10:x y\nb.html:1:10:x y\n"
        line = "{}.html:1:11: error: U+0020 SPACE is not allowed in a URL [code-point]\n"
        refused = line.format("a") + line.format("b")
        for words, wanted in (
            ("-q --list a.html b.html", links),
            ("a.html --list -q b.html", links),
            ("a.html b.html --quiet --list", links),
            ("-q a.html b.html", refused),
            ("a.html --check b.html -q", refused),
            ("-q a.html --check --format gnu b.html", refused),
            ("a.html --base http://h/ b.html --format=gnu --quiet --check", refused),
            ("a.html --check -q -- b.html", refused),
            ("-q --list -- a.html b.html", links),
            ("--list --quiet --type html -- --check", "--check:1:10:x y\n"),
            ("--type=html a.html --list -q -- -q", "a.html:1:10:x y\n-q:1:10:x y\n"),
        ):
            with self.subTest(words):
                status, out, said = self.run_on(*words.split())
                self.assertEqual((status, out, said), (int("--list" not in words.split()), wanted, ""))
        self.assertEqual(self.run_on("--list", "--type", "html", "-q", "--", "--", "-q"), (2, "-q:1:10:x y\n",
                         "urlcheck-documents: --: can't be read: there is no such file\n"))

    def test_wrong_words(self):
        self.write("a.html", "<a href='x y'>")
        for words, wanted in (
            ("", "there is no FILE; - is standard input"),
            ("--list", "there is no FILE; - is standard input"),
            ("--list --", "there is no FILE; - is standard input"),
            ("--base", "--base needs a value"),
            ("a.html --base -- a.html", "--base needs a value"),
            ("--ignore --list a.html", "--ignore needs a value"),
            ("--format -q a.html", "--format needs a value"),
            ("--list=x a.html", "--list doesn't accept a value"),
            ("--quiet=yes a.html", "--quiet doesn't accept a value"),
            ("--check= a.html", "--check doesn't accept a value"),
            ("a.html --version=2", "--version doesn't accept a value"),
            ("--help=check a.html", "--help doesn't accept a value"),
            ("--list --format json a.html", "--list checks nothing, so that --format has no use"),
            ("--format=gnu -q a.html --list", "--list checks nothing, so that --format has no use"),
            ("--list --check a.html", "--list checks nothing, so that --check has no use"),
            ("a.html --all a.html", "there is no option --all; pipe the links, which --list prints, into "
             "urlcheck lint --located --all -"),
            ("a.html --wide=yes --all", "there is no option --wide; write --profile wide"),
            ("a.html --located", "there is no option --located"),
            ("a.html --output-format=json", "there is no option --output-format; write --format FORMAT"),
            ("--json a.html", "there is no option --json; write --format json"),
            ("-j 4 a.html", "there is no option -j; write --jobs N"),
            ("-x a.html", "there is no option -x"),
            ("--lst a.html", "there is no option --lst; the nearest is --list"),
            ("a.html --Quite=1", "there is no option --Quite; the nearest is --quiet"),
            ("-j4 a.html", "there is no option -j4; write --jobs N"),
            ("a.html -v", "there is no option -v; --format caret shows each link, and --version the version"),
            ("--recursive docs", "there is no option --recursive; a folder is read with all folders in it"),
            ("-r docs", "there is no option -r; a folder is read with all folders in it"),
            ("--timeout=5 a.html", "there is no option --timeout; no link is fetched: only how it is written is checked"),
            ("--watch docs", "there is no option --watch; the language server checks while a document is edited"),
            ("--no-cache docs", "there is no option --no-cache; each run reads all, and needs no cache"),
            ("--\x1b[31m a.html", "there is no option --\ufffd[31m"),
            ("--- a.html", "there is no option ---"),
        ):
            with self.subTest(words):
                status, out, said = self.run_on(*words.split())
                usage = "usage: urlcheck-documents [OPTIONS] FILE..\nurlcheck-documents: "
                self.assertEqual((status, out, said), (2, "", usage + wanted + "\n"))

    def test_options_of_other_tools(self):
        """An option of other tools of which `urlcheck` says what to write here is known to this command too."""
        with open(os.path.join(TOP, "crates/uv_messages/src/habits.rt"), encoding="utf-8") as file:
            table = file.read()
        names = [name for some in re.findall(r'"(--?[a-zA-Z][^"]*)"', table) for name in some.split() if name.startswith("-")]
        self.assertGreater(len(names), 80)
        for name in names:
            if not habit(name):
                with self.subTest(name):
                    self.assertNotIn("there is no option", self.run_on(name)[2])

    def test_what_other_options_are_here(self):
        """Each option of other tools, and what to write here."""
        none = "no link is fetched: only how it is written is checked"
        for names, said in (
            ("--fix-only --write -w", "--fix mends the links for which a text is offered"),
            ("--dry-run --fix-dry-run", "--diff shows what --fix would write"),
            ("--extend-select --rule", "--select RULES reports violations of these rules only"),
            ("--extend-ignore --disable", "--ignore RULES leaves out violations of these rules"),
            ("--ignore-pattern --ignore-url --ignore-urls", "--ignore FILE leaves out links by regular expressions"),
            ("--include --skip", "--exclude PATTERN leaves out files and folders"),
            ("-r -R --recursive", "a folder is read with all folders in it"),
            ("--output-format --reporter --formatter", "write --format FORMAT"),
            ("--json", "write --format json"),
            ("--sarif", "write --format sarif"),
            ("--colour --no-color --no-colour --colors --colours", "--color WHEN takes auto, always and never"),
            ("-v --verbose", "--format caret shows each link, and --version the version"),
            ("--debug --explain --show-source", "--format caret shows each link; urlcheck explain RULE explains a rule"),
            ("-s --silent", "--quiet leaves out the counts"),
            ("-o --output-file", "write --output FILE"),
            ("--stats --count --summary", "write --statistics"),
            ("--no-fail", "write --exit-zero"),
            ("--max-warnings --severity --minAlertLevel", "each refused link is an error"),
            ("-j --threads --parallel", "write --jobs N"),
            ("--watch", "the language server checks while a document is edited"),
            ("--cache --no-cache", "each run reads all, and needs no cache"),
            ("-c --config --rcfile", "a configuration is found by its name: .urlcheck.toml or pyproject.toml"),
            ("--isolated --norc", "write --no-config"),
            ("--timeout --offline --online --retries --max-retries --max-redirects --recursion-level", none),
            ("--user-agent --method --insecure --accept --check-extern --disable-external --external", none),
            ("--wide", "write --profile wide"),
            ("--strict", "the standard profile is the strictest, and the one without --profile"),
            ("--list-rules --show-rules --rules", "urlcheck explain explains every rule"),
            ("--all", "pipe the links, which --list prints, into urlcheck lint --located --all -"),
            ("--base-url", "--base URL is what relative links are resolved against"),
            ("--stdin", "- in place of a document's name is standard input"),
            ("--stdin-filename --stdin-display-name", "--stdin-name NAME names standard input"),
        ):
            for name in names.split():
                self.assertEqual(habit(name), said, name)

    def test_shortened_options(self):
        """An option is written whole: a beginning of its name isn't one."""
        self.write("a.html", "<a href='x y'>")
        for words, option, nearest in (
            ("--form json a.html", "--form", "--format"),
            ("--lis a.html", "--lis", "--list"),
            ("--prof=wide a.html", "--prof", "--profile"),
            ("--quie a.html", "--quie", "--quiet"),
            ("--c a.html", "--c", None),
        ):
            wanted = "there is no option " + option + ("; the nearest is " + nearest if nearest else "")
            with self.subTest(words):
                status, out, said = self.run_on(*words.split())
                self.assertEqual((status, out, said.splitlines()[1:]), (2, "", ["urlcheck-documents: " + wanted]))

    def test_wrong_names(self):
        """A name that there isn't is told as by `urlcheck`, with the nearest one and all that there are."""
        self.write("a.html", "<a href='x y'>")
        formats = "the formats: gnu caret json github sarif checkstyle junit gitlab rdjson"
        units = "the column units: code-points bytes utf16 screen"
        profiles, kinds = "the profiles: standard wide parser", "the kinds: html xml markdown mdx rst notebook epub css json-feed"
        for words, wanted, names in (
            (["--format", "sarfi"], "no format is named 'sarfi'; the nearest is sarif", formats),
            (["--format=JSON"], "no format is named 'JSON'; the nearest is json", formats),
            (["--format", "html"], "no format is named 'html'", formats),
            (["--format="], "no format is named ''", formats),
            (["--format", "xml"], "no format is named 'xml'", formats),
            (["--columns", "utf-16"], "no column unit is named 'utf-16'; the nearest is utf16", units),
            (["--columns", "points"], "no column unit is named 'points'; the nearest is code-points", units),
            (["--columns", "code"], "no column unit is named 'code'; the nearest is code-points", units),
            (["--columns", "\x1b[31m\n"], "no column unit is named '\ufffd[31m\ufffd'", units),
            (["--format", "sarif", "--columns", "byte"],
             "no column unit is named 'byte'; the nearest is bytes", units),
            (["--format", "sarif", "--columns", "bytes"],
             "sarif doesn't support the column unit bytes", "the column units of sarif: code-points utf16"),
            (["--profile", "wider"], "no profile is named 'wider'; the nearest is wide", profiles),
            (["--profile", ""], "no profile is named ''", profiles),
            (["--type", "htm"], "no kind is named 'htm'; the nearest is html", kinds),
            (["--type", "md"], "no kind is named 'md'; the nearest is markdown", kinds),
            (["--type", "ipynb"], "no kind is named 'ipynb'; the nearest is notebook", kinds),
            (["--type", "pdf"], "no kind is named 'pdf'", kinds),
            (["--type", ""], "no kind is named ''", kinds),
        ):
            with self.subTest(words):
                lines = "urlcheck-documents: {}\nurlcheck-documents: {}\n".format(wanted, names)
                self.assertEqual(self.run_on(*words, "a.html"), (2, "", lines))

    def test_what_is_meant_by_a_name(self):
        """A command of `urlcheck` that isn't a file, and a list of links, are told of."""
        self.write("a.html", "<a href='x y'>")
        missing, more = "{}: can't be read: there is no such file", "; links are checked without a command"
        for name, wanted in (("check", missing + more), ("lint", missing + more), ("mend", missing),
                             ("./check", missing), ("check.html", missing)):
            status, out, said = self.run_on("--list", "-q", name, "a.html")
            wanted = "urlcheck-documents: {}\n".format(wanted.format(name))
            self.assertEqual((status, out, said), (2, "a.html:1:10:x y\n", wanted))
        no_kind = "{}: it has no known file extension: give --type html, xml, markdown or another kind"
        template = "{}: it has no known file extension: --type html reads it as a page of HTML"
        more = "; urlcheck lint checks a list of links"
        for name, wanted in (
            ("l.txt", no_kind + more), ("l.csv", no_kind + more), ("l.TSV", no_kind + more), ("l.text", no_kind),
            ("a.b.json", no_kind + more), ("x.links", no_kind + more), ("txt.d", no_kind), ("check", no_kind),
            ("page.php", template), ("a.html.J2", template),
        ):
            self.write(name, "a b\n")
            for words in (["--list", "-q", name], ["-q", name]):
                said = "urlcheck-documents: {}\n".format(wanted.format(name))
                self.assertEqual(self.run_on(*words), (2, "", said))

    def test_options(self):
        """The manual page, the completions and the page have the options of the help, and no other."""
        shown = subprocess.run([*PROGRAM, "--help"], capture_output=True).stdout.decode()
        found = re.findall(r"^  (?:(-[A-Za-z]), )?(--[a-z-]+)", shown, re.M)
        wanted = {name for names in found for name in names if name}
        self.assertLessEqual({"-h", "-q", "--exclude", "-V", "--version"}, wanted)
        for path, part, name in (
            ("docs/DOCUMENTS.md", r"^\| (`-.*?) \|", r"`(--?[A-Za-z-]+)"),
            ("docs/share/man/urlcheck-documents.1", r"^\.B[IR]* (\\-.*)", r"(?<![a-z-])--?[A-Za-z-]*[A-Za-z]"),
            ("docs/share/completions/urlcheck-documents.bash", r"^ *\*\) words='(.*?)'", r"\S+"),
            ("docs/share/completions/_urlcheck-documents", r"^    (.*)", r"(?<=[',{*])--?[A-Za-z-]+(?=[\[=,}])"),
            ("docs/share/completions/urlcheck-documents.fish", r"^complete -c [a-z-]+(.*) -d", r" (-[sl] [A-Za-z-]+)"),
        ):
            with self.subTest(path), open(os.path.join(TOP, path), encoding="utf-8") as file:
                parts = "\n".join(re.findall(part, file.read(), re.M)).replace("\\-", "-")
                names = {it.replace("-s ", "-").replace("-l ", "--") for it in re.findall(name, parts)}
                self.assertEqual(names, wanted)

    def test_short_help(self):
        """`-h` has what most people need within a screen, and leads to the help, which has each of its options."""
        status, out, said = self.run_on("-h")
        self.assertEqual((status, said), (0, ""))
        lines = out.splitlines()
        self.assertTrue(10 < len(lines) <= 23 and max(map(len, lines)) < 80, out)
        whole = self.run_on("--help")[1]
        self.assertEqual({it for it in re.findall("--[a-z-]+", out) if it not in whole}, set())
        self.assertIn("--help lists all options.", lines)

    def test_values_of_options(self):
        """The completions have the values that the help names, of each option that takes one of several, and the
        rules."""
        helped = re.split(r"^  (?=-)", self.run_on("--help")[1], flags=re.M)
        shown = [re.match(r"--([a-z-]+) [A-Z]+ .*?: (.*); default: ", " ".join(it.split())) for it in helped]
        wanted = {it.group(1): set(re.split(", | or ", it.group(2))) for it in shown if it}
        self.assertEqual(wanted["columns"], {"code-points", "bytes", "utf16", "screen"})
        self.assertEqual({"color", "columns", "format", "profile", "type"}, set(wanted))
        wanted["select"] = {*RULES, "empty", "no-link"}
        for path, pattern in (
            ("docs/share/completions/urlcheck-documents.bash", r"--([a-z]+)\) words='(.*?)'"),
            ("docs/share/completions/_urlcheck-documents", r"--([a-z]+)=\[.*?\]:[A-Z]+:\((.*?)\)"),
            ("docs/share/completions/urlcheck-documents.fish", r"-l ([a-z]+) -x -a '(.*?)'"),
        ):
            with self.subTest(path), open(os.path.join(TOP, path), encoding="utf-8") as file:
                found = {name: set(values.split()) for name, values in re.findall(pattern, file.read())}
                self.assertEqual(found.pop("ignore", wanted["select"]), wanted["select"])
                self.assertEqual(found, wanted)

    def test_examples(self):
        """Each example of the help and of the manual page checks, and finds the wrong link."""
        wrong = '<a href="x y">'
        for name in ("site/a.html", "docs/a.html", "vendor/a.min.html"):
            self.write(name, wrong)
        # (without the reader of Markdown there is none, since it can't be read)
        if importlib.util.find_spec("markdown_it"):
            self.write("README.md", wrong + "\n")
        self.write("sitemap.xml.gz", gzip.compress(b"<urlset><loc>http://h/ a</loc></urlset>"))
        shown = self.run_on("--help")[1].split("Examples:\n")[1]
        with open(os.path.join(TOP, "docs", "share", "man", "urlcheck-documents.1"), encoding="utf-8") as page:
            manual = page.read().split(".SH EXAMPLES\n.nf\n")[1].split(".fi\n")[0].replace("|\n", "|")
        lines = (shown + manual.replace("\\-", "-").replace("\\(aq", "'")).splitlines()
        lines = [it.strip() for it in lines if it.strip()]
        self.assertGreater(len(lines), 6)
        prelude = 'urlcheck-documents() {{ "{}" -m urlcheck.documents "$@"; }}\n'.format(sys.executable)
        for line in lines:
            if "README.md" in line and not os.path.exists(os.path.join(self.room, "README.md")):
                continue
            with self.subTest(line):
                # (the list goes to `cat`, since the program isn't there)
                command = re.sub(r"urlcheck lint .*", "cat", line)
                ran = subprocess.run(["bash", "-c", prelude + command], cwd=self.room, capture_output=True)
                self.assertEqual((ran.returncode, ran.stderr.count(b" refused")), (0, 0) if command != line else (1, 1))

    def test_ignored(self):
        self.write("patterns", "# templates\n\\{\\{\n")
        self.write("a.html", '<a href="{{ a }}"><a href="b c">')
        self.checks("a.html", [("1:29", "code-point")], "--ignore", "patterns")
        self.assertIn("1 ignored", self.run_on("--list", "--ignore", "patterns", "a.html")[2])
        self.write("wrong", "(\n")
        self.assertEqual(self.run_on("--list", "--ignore", "wrong", "a.html")[0], 2)

    def test_the_file_of_ignored_links(self):
        """A byte order mark isn't a part of its first line; a line ends with LF, CR LF or CR; a place is told."""
        self.write("a.html", '<a href="{{ a }}"><a href="b c"><a href="\ufeffd">')
        for patterns, count in (("\ufeff^\\{\\{\n", 1), ("\ufeff# ^b\n^b", 1), ("\ufeff\n", 0), ("^b\r\n^\\{\r\n", 2),
                                ("^b\r^\\{", 2), ("\n\ufeff\n", 1), ("b\x0b\n", 0), ("", 0)):
            with self.subTest(patterns):
                self.write("patterns", patterns)
                counts = "urlcheck-documents: 1 document, 3 links, {} ignored\n".format(count)
                self.assertEqual(self.run_on("--list", "--ignore", "patterns", "a.html")[2], counts)
        for data, wanted in (
            (b"\xef\xbb\xbf(", "1: not a regular expression: "), (b"a\r\n(\r\n", "2: not a regular expression: "),
            (b"\xef\xbb\xbf\xc3\xa9\xff", "1:2: this isn't UTF-8"), (b"\n\xc3", "2:1: this isn't UTF-8"),
        ):
            self.write("p\x1b", data)
            status, out, said = self.run_on("--list", "--ignore", "p\x1b", "a.html")
            wanted = "urlcheck-documents: p\ufffd:" + wanted
            self.assertEqual((status, out, said[: len(wanted)], said.count("\n")), (2, "", wanted, 1))

    def test_several_files_of_ignored_links(self):
        """Each file counts, as one file of all their lines would."""
        self.write("braces", "\\{\\{\n")
        self.write("bars", "# bars\n\\|\n")
        self.write("none", "")
        self.write("wrong", "x\n(\n")
        self.write("a.html", '<a href="{{ a }}"><a href="b c"><a href="|">')
        for names, places, count in (
            ([], ["1:10", "1:29", "1:42"], 0),
            (["braces"], ["1:29", "1:42"], 1),
            (["bars"], ["1:10", "1:29"], 1),
            (["braces", "bars"], ["1:29"], 2),
            (["bars", "none", "braces", "bars"], ["1:29"], 2),
        ):
            words = [word for name in names for word in ("--ignore", name)]
            with self.subTest(names):
                self.checks("a.html", [(place, "code-point") for place in places], *words)
                counts = "urlcheck-documents: 1 document, 3 links, {} ignored\n".format(count)
                self.assertEqual(self.run_on("--list", *words, "a.html")[2], counts)
        for name, why in (("wrong", "wrong:2: not a regular expression: "), ("missing", "missing: can't be read: ")):
            status, out, said = self.run_on("--ignore", "braces", "--ignore", name, "a.html")
            self.assertEqual((status, out), (2, ""))
            self.assertTrue(said.startswith("urlcheck-documents: " + why), said)


if __name__ == "__main__":
    unittest.main()
