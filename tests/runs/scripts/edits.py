#!/usr/bin/env python3
"""Where wrong edits lie in a source, and what tools/try-edits makes of them with a prover that proves nothing. What is wanted is worked out
by hand."""

import os
import pathlib
import re
import shutil
import subprocess
import sys
import tempfile
import unittest

sys.dont_write_bytecode = True
HERE = pathlib.Path(__file__).resolve().parent
TOOLS = HERE.parents[2] / "tools"
sys.path.insert(0, str(TOOLS))

import edits
import verdicts

LAID_OUT = """\
const MOST: u8 = 9;

pub trait Source {
    fn read(&mut self) -> u8
        ensures { result < 10 };
}

impl<R: Read> Source for FromReader<R> {
    fn read(&mut self) -> u8 {
        self.0
    }
}

impl<'a> Sink<'a> {
    pub fn new(
        room: usize,
    ) -> Sink<'a>
        ensures { result ≡ record {
          room = room;
        } }
    {
        if room > 0 {
            one(room)
        }
    }
}

pub(crate) struct Held(u8);

impl Held {
    fn new() -> Held {
        Held(1)
    }
}

#[unsafe(no_mangle)]
pub extern "C" fn law()
    ensures { ⊤ }
{}

pub(crate) fn two(text: &str) -> u8
    ensures { result ≡ 2 }
{
    MOST - 7
}
"""

CODE = """\
const SEVEN: u8 = 7;
const EIGHT: u8 = 8;
const NINE: u8 = 9;

fn low() -> u8
{
    1
}

fn middle() -> u8
{
    low() + 1
}

fn high() -> u8
{
    middle() + 2
}

fn seven() -> u8
{
    SEVEN
}

fn eight() -> u8
{
    EIGHT
}
"""


def edit_of(*texts):
    """The lines of an edit of src/lib.rt, which puts each second text in the place of the one before it."""
    return "file: src/lib.rt\n" + "".join(f"old: {old}\nnew: {new}\n" for old, new in zip(texts[::2], texts[1::2]))


class Sources(unittest.TestCase):
    """The functions of a source."""

    def names(self, path):
        types = {"Sink": "src/sinks.rt", "FromReader": "src/readers.rt", "Held": "src/others.rt"}
        return [it.name for it in edits.functions(path, LAID_OUT, types)]

    def test_names(self):
        self.assertEqual(self.names("src/lib.rt"), ["FromReaderSource::read", "sinks::Sink::new", "Held::new", "law", "two"])
        self.assertEqual(self.names("src/a/b.rt")[:3], ["a::b::FromReaderSource::read", "sinks::Sink::new", "a::b::Held::new"])
        self.assertEqual(self.names("src/a/b.rt")[3], "a::b::law")

    def test_bodies(self):
        bodies = [LAID_OUT[it.body : it.end] for it in edits.functions("src/lib.rt", LAID_OUT, {})]
        new = "        if room > 0 {\n            one(room)\n        }\n"
        self.assertEqual(bodies, ["        self.0\n", new, "        Held(1)\n", "", "    MOST - 7\n"])

    def test_forms_of_edits(self):
        self.assertEqual(edits.changes_of("file: f\nold: a: b\nnew:\nold:  c\nnew: d\n"), (("f", "a: b", ""), ("f", " c", "d")))
        for text in "file: f\nold: a\n", "old: a\nnew: b\n", "file: f\nold: a\nnew: b\nand more\n", "":
            self.assertIsNone(edits.changes_of(text))


class Verdicts(unittest.TestCase):
    """What the prover's words come to."""

    def test_only_reasons_of_its_own(self):
        said = "fn c::a::b: no proof: it calls `c::a::d`, which is not proved\n./proofs/a/d2/Answers.antt:1:2: error: `returns`: no\n"
        said += "fn c::a::d: no proof: expected answers in ./proofs/a/d/Answers.antt; `search` did not prove `returns`, `met`; "
        said += "it calls `c::e`, which is not proved\n"
        said += "fn c::e: not proved\nproofs/e/Answers.antt:2:3: error: `returns`: the two types differ\n"
        said += "fn c::a::g::closure: no proof: `search` did not prove `met`\n"
        self.assertEqual(verdicts.reasons(said, "c", "a::b"), [])
        self.assertEqual(verdicts.reasons(said, "c", "a::d"), ["`search` did not prove `returns`, `met`"])
        self.assertEqual(verdicts.reasons(said, "c", "e"), ["`returns`: the two types differ"])
        self.assertEqual(verdicts.reasons(said, "c", "a::g"), ["`search` did not prove `met`"])
        self.assertEqual(len(verdicts.reasons(said, "c")), 4)

    def test_what_rests_on_another(self):
        self.assertEqual(verdicts.reasons("proofs/e/Answers.antt:2:3: error: `Met` was not admitted\n", "c", "e"), [])

    def test_texts_that_cannot_be_read(self):
        for line in (
            "src/a.rt:28:23: error[mismatched-types]: expected `u64`, found `&str`",
            "src/a.rt:24:37: error: `ensures-1`: `nulll` is not in scope",
            "./specs/A.antt:3:1: error: cannot continue here",
        ):
            self.assertEqual(verdicts.UNREAD.search(f"note: a\n{line}\n")[0], line)
        for line in "proofs/a/Answers.antt:3:1: error: `returns`: `b` is not in scope", "specs/A.antt:3:1: error: `law`: the types differ":
            self.assertIsNone(verdicts.UNREAD.search(line))


class Tries(unittest.TestCase):
    """Edits that are tried."""

    def setUp(self):
        room = tempfile.TemporaryDirectory()
        self.addCleanup(room.cleanup)
        self.room = pathlib.Path(room.name)
        self.top = self.room / "repository"
        shutil.copytree(HERE / "kit", self.room / "kit")
        shutil.copy(HERE / "prover.py", self.room / "kit/bin/rattle")
        (self.top / "tools").mkdir(parents=True)
        for tool in [*TOOLS.glob("*.py"), TOOLS / "try-edits"]:
            shutil.copy(tool, self.top / "tools")
        self.write({"crates.txt": "one:\n", "crates/one/src/lib.rt": CODE, "crates/one/out/rlib/one.rlib": ""})

    def write(self, files):
        for name, text in files.items():
            (self.top / name).parent.mkdir(parents=True, exist_ok=True)
            (self.top / name).write_text(text, "utf-8")

    def tried(self, changes, *words):
        """What is said of these edits, by name, the functions of each check, and the status."""
        self.write({"tests/edits/one.edits": "\n".join(f"## {name}\n{edit_of(*change)}" for name, change in changes.items())})
        (self.room / "checks").write_text("")
        environment = {**os.environ, "PATH": f"{self.room}/kit/bin:{os.environ['PATH']}", "STUB": str(self.room)}
        ran = subprocess.run(["tools/try-edits", *words], cwd=self.top, env=environment, capture_output=True, text=True)
        self.said, self.complained = ran.stdout, ran.stderr
        self.assertNotIn("Traceback", ran.stderr)
        kinds = dict(re.findall(r"^one/(\S+): (refused|not refused|broken|no verdict): ", ran.stdout, re.M))
        return kinds, (self.room / "checks").read_text("utf-8").splitlines(), ran.returncode

    def last_line(self):
        return self.said.splitlines()[-1]

    def test_together(self):
        wrong = {"low_a": ("    1", "    wrong"), "low_b": ("    1", "    wrong too")}
        wrong |= {"high": ("+ 2", "+ wrong"), "eight": ("    EIGHT", "    wrong")}
        kinds, checks, status = self.tried(wrong)
        self.assertEqual(kinds, dict.fromkeys(wrong, "refused"))
        self.assertEqual(checks, ["low high eight", "low"])
        self.assertEqual((self.last_line(), status), ("4 refused, 0 failed", 0))

    def test_a_caller_is_tried_again_without_what_it_calls(self):
        kinds, checks, status = self.tried({"low": ("    1", "    wrong"), "high": ("+ 2", "+ 3"), "middle": ("+ 1", "+ 2")})
        self.assertEqual(kinds, {"low": "refused", "high": "not refused", "middle": "not refused"})
        self.assertEqual(checks, ["low high middle", "high middle"])
        self.assertEqual((self.last_line(), status), ("1 refused, 2 failed", 1))
        self.assertIn("try-edits: one/high: not refused: high: proved", self.complained)

    def test_what_does_not_compile_fails_alone(self):
        kinds, _, status = self.tried({"low": ("    1", "    wrong"), "high": ("+ 2", "+ broken"), "eight": ("    EIGHT", "    wrong")})
        self.assertEqual(kinds, {"low": "refused", "high": "broken", "eight": "refused"})
        self.assertEqual((self.last_line(), status), ("2 refused, 1 failed", 1))
        kinds, _, status = self.tried({"low": ("    1", "    wrong"), "high": ("+ 2", "+ unread")})
        self.assertEqual((kinds, status), ({"low": "refused", "high": "broken"}, 1))

    def test_what_ends_the_check_fails_alone(self):
        kinds, _, status = self.tried({"low": ("    1", "    killed"), "high": ("+ 2", "+ wrong"), "eight": ("    EIGHT", "    untold")})
        self.assertEqual(kinds, {"low": "broken", "high": "refused", "eight": "no verdict"})
        self.assertEqual((self.last_line(), status), ("1 refused, 2 failed", 1))

    def test_two_functions_by_themselves(self):
        kinds, checks, _ = self.tried({"both": ("    1", "    wrong", "    EIGHT", "    9"), "low": ("    1", "    wrong")})
        self.assertEqual((kinds, checks), ({"both": "refused", "low": "refused"}, ["low", "eight low"]))

    def test_constants_by_themselves(self):
        wrong = {"seven": ("= 7;", "= wrong;"), "eight": ("= 8;", "= 9;"), "nine": ("= 9;", "= wrong;"), "low": ("    1", "    wrong")}
        kinds, checks, status = self.tried(wrong)
        self.assertEqual(kinds, {"seven": "refused", "eight": "not refused", "nine": "not refused", "low": "refused"})
        # (no function names NINE, and all that name EIGHT are proved)
        self.assertEqual(sorted(checks), ["", "", "eight", "low", "seven"])
        self.assertEqual((self.last_line(), status), ("2 refused, 2 failed", 1))

    def test_only_names(self):
        kinds, _, status = self.tried({"low": ("    1", "    misnamed")})
        self.assertEqual((kinds, status), ({"low": "refused"}, 0))
        self.assertIn("refused only since its proof names what the edit takes away: 1\n", self.said)

    def test_must_fail(self):
        self.write({"crates/one/must-fail/high.edit": edit_of("+ 2", "+ wrong")})
        self.assertEqual(self.tried({"low": ("    1", "    wrong")})[0], {"low": "refused"})
        self.assertEqual(self.tried({"low": ("    1", "    wrong")}, "--must-fail")[0], {"low": "refused", "must-fail/high": "refused"})

    def test_what_does_not_fit(self):
        self.assertEqual(self.tried({"low": ("    1", "    wrong"), "high": ("+ 3", "+ 4")}, "--fit"), ({}, [], 1))
        why = "its old text has to be once in crates/one/src/lib.rt, and is there 0 times: + 3"
        self.assertIn(f"one/high can't be applied: {why}", self.complained)
        self.assertEqual(self.tried({"low": ("    1", "    1")}, "--fit")[2], 1)
        self.assertIn("it changes nothing", self.complained)
        self.assertEqual(self.tried({"low": ("    1", "    wrong")}, "--fit")[2], 0)
        self.assertEqual(self.last_line(), "try-edits: 1 edits fit the code")
        self.assertEqual(self.tried({"low": ("    1", "    wrong")}, "two")[2], 2)


if __name__ == "__main__":
    unittest.main()
