"""Tests of the package's errors and types: what is raised, that it can be sent to another process, and several texts.

One sentence of the extension module has no test: that a fixed text of the library is longer than its buffer of 512 bytes, which no text
of this library is."""

import copy
import ctypes
import dataclasses
import gc
import json
import multiprocessing
import pickle
import subprocess
import sys
import unittest
import weakref
from unittest import mock

import urlcheck
from urlcheck import _many, _native

ARGUMENTS = "(text, base=None, profile=None)"
RAISES = """

Raises ``BaseRefused`` where the base isn't valid alone, ``UnicodeEncodeError`` where a text holds a surrogate,
which is no code point of a text, ``TypeError`` where the text or the base is no ``str``, ``ValueError`` where no
profile has the number or the name, or the base has another one, and ``MemoryError``."""
ABOUT = {
    "check": "Whether the text is a valid URL string, alone or against the base.",
    "is_valid": "Whether the text is a valid URL string, alone or against the base, without its parts: the fastest call.",
    "resolve": "The text of the URL record that the text denotes, alone or against the base, or its refusal.",
    "mend": "What to write in place of a refused text: a valid one made of it by local edits, which keep all else.\n\n"
    "``None`` where the text is valid, and its refusal where the edits give no valid text.",
    "violations": "All that is wrong with the text, by place and at one place by the rule's number; none where it is valid.",
}
"""What ``help`` says of the functions."""


def holding(held):
    """A base that holds these bytes, or what a function makes of its own, in place of what was checked of it."""
    base = urlcheck.Base("http://h/")
    object.__setattr__(base, "_held", held(base._held) if callable(held) else held)
    return base


def diagnosed(line=1, kind=0, file="f"):
    """What the extension module writes of a link by these words and numbers."""
    return _native.diagnostic(0, False, True, (file, "percent", "", "m", "", "a", ""), (line, 1, 1, 2, 0, 0, 0, 0, 0, 0, 0, kind, 0))


def against(base):
    return urlcheck.check("x", base)


RELEASE = ctypes.CFUNCTYPE(None, ctypes.c_void_p)
FILL = ctypes.CFUNCTYPE(ctypes.c_int, ctypes.c_void_p, ctypes.c_void_p)
SAY = ctypes.CFUNCTYPE(ctypes.c_void_p, ctypes.c_void_p)


class ArrowSchema(ctypes.Structure):
    """The struct of Arrow's C data interface."""

    _fields_ = [("format", ctypes.c_char_p), ("name", ctypes.c_char_p), ("metadata", ctypes.c_char_p), ("flags", ctypes.c_int64),
                ("n_children", ctypes.c_int64), ("children", ctypes.c_void_p), ("dictionary", ctypes.c_void_p),
                ("release", RELEASE), ("private_data", ctypes.c_void_p)]


class ArrowArray(ctypes.Structure):
    """The struct of Arrow's C data interface."""

    _fields_ = [("length", ctypes.c_int64), ("null_count", ctypes.c_int64), ("offset", ctypes.c_int64), ("n_buffers", ctypes.c_int64),
                ("n_children", ctypes.c_int64), ("buffers", ctypes.c_void_p), ("children", ctypes.c_void_p),
                ("dictionary", ctypes.c_void_p), ("release", RELEASE), ("private_data", ctypes.c_void_p)]


class ArrowStream(ctypes.Structure):
    """The struct of Arrow's C stream interface."""

    _fields_ = [("get_schema", FILL), ("get_next", FILL), ("get_last_error", SAY), ("release", RELEASE), ("private_data", ctypes.c_void_p)]


class Stream:
    """A stream of arrays without texts that is written in Python, and fails after them or ends."""

    def __init__(self, arrays, fails):
        self.arrays, self.fails = arrays, fails
        self.said = ctypes.create_string_buffer(b"the disk is gone")
        self.released = []
        self.given = 0
        self.held = (ctypes.c_void_p * 3)()
        self.buffers = ctypes.addressof(self.held)
        # (all that is called is held as long as the stream is)
        self.calls = RELEASE(self.release_schema), RELEASE(self.release_array)
        self.stream = ArrowStream(
            FILL(self.schema), FILL(self.next), SAY(lambda _: ctypes.addressof(self.said)), RELEASE(lambda _: None), None
        )

    def schema(self, _, at):
        ctypes.memmove(at, ctypes.byref(ArrowSchema(format=b"u", name=b"", release=self.calls[0])), ctypes.sizeof(ArrowSchema))
        return 0

    def next(self, _, at):
        self.given += 1
        if self.given > self.arrays:
            return int(self.fails)
        ctypes.memmove(at, ctypes.byref(ArrowArray(n_buffers=3, buffers=self.buffers, release=self.calls[1])), ctypes.sizeof(ArrowArray))
        return 0

    def release_schema(self, at):
        self.released.append("schema")
        ArrowSchema.from_address(at).release = RELEASE()

    def release_array(self, at):
        self.released.append("array")
        ArrowArray.from_address(at).release = RELEASE()

    def __arrow_c_stream__(self, requested_schema=None):
        new = ctypes.pythonapi.PyCapsule_New
        new.restype, new.argtypes = ctypes.py_object, [ctypes.c_void_p, ctypes.c_char_p, ctypes.c_void_p]
        return new(ctypes.addressof(self.stream), b"arrow_array_stream", None)


class Errors(unittest.TestCase):
    def test_a_refused_base_is_copied(self):
        refused = urlcheck.BaseRefused("no-scheme", 0)
        for other in (pickle.loads(pickle.dumps(refused)), copy.copy(refused), copy.deepcopy(refused)):
            self.assertEqual((other.rule, other.place, str(other)), (refused.rule, refused.place, str(refused)))
        with multiprocessing.Pool(2) as pool, self.assertRaises(urlcheck.BaseRefused):
            pool.map(against, ["http://h/", "no base"])

    def test_names(self):
        """The package shows what it has for its callers."""
        self.assertEqual(dir(urlcheck), sorted(urlcheck.__all__))
        for name in urlcheck.__all__:
            self.assertTrue(hasattr(urlcheck, name), name)

    def test_json(self):
        """An answer is a dictionary by `dataclasses.asdict`, and JSON has that."""
        answer = dataclasses.asdict(urlcheck.check("http://h:8/a?b"))
        wanted = {"scheme": "http", "host": "h", "port": "8", "path": "/a", "query": "b", "fragment": None}
        self.assertEqual(json.loads(json.dumps(answer)), wanted)
        self.assertEqual(dataclasses.asdict(urlcheck.check("http://h/ ")), {"rule": "code-point", "place": 9})
        self.assertEqual([dataclasses.asdict(it) for it in urlcheck.violations("http://h/^")], [{"rule": "code-point", "place": 9}])
        mended = json.loads(json.dumps(dataclasses.asdict(urlcheck.mend("http://h/^"))))
        self.assertEqual(mended, {"text": "http://h/%5E", "kind": "same", "is_offered": True})

    def test_sentences(self):
        """What is said is these words and no others."""
        violation, none, lost = urlcheck.Violation("percent", 0), "no profile has this number", "a base has lost what was checked of it"
        profiled, wide = holding(lambda it: it[:24] + bytes([9]) + it[25:]), urlcheck.Base("http://h_/", "wide")
        for call, error, said in (
            (lambda: urlcheck.check(b"x"), TypeError, "a text is a str, not bytes"),
            (lambda: urlcheck.check("x", 5), TypeError, "a base is a str, a urlcheck.Base or None, not int"),
            (lambda: urlcheck.check("x", None, 3), ValueError,
             "no profile has the number 3: there are standard (0), wide (1), parser (2)"),
            (lambda: urlcheck.check("x", None, "Wide"), ValueError,
             "no profile has the name Wide: there are standard (0), wide (1), parser (2)"),
            (lambda: urlcheck.check("x", None, 1.0), TypeError, "a profile is a urlcheck.Profile or its name, not float"),
            (lambda: urlcheck.check("x", wide, "parser"), ValueError, "the base was checked by another profile: WIDE"),
            (lambda: urlcheck.check("x", holding(b"")), TypeError, lost),
            (lambda: urlcheck.check("x", holding(5)), TypeError, lost),
            (lambda: urlcheck.check("x", profiled), ValueError, none),
            (lambda: urlcheck.message("x", violation, base=profiled), ValueError, none),
            (lambda: urlcheck.Base(b"a:"), TypeError, "a base is a str, not bytes"),
            (lambda: setattr(wide, "text", "a:"), AttributeError, "a Base doesn't change: make another one"),
            (lambda: delattr(wide, "text"), AttributeError, "a Base doesn't change: make another one"),
            (lambda: urlcheck.check_each("x"), TypeError, "texts are wanted, not one str"),
            (lambda: urlcheck.check_many("x"), TypeError, "texts are wanted, not one str"),
            (lambda: urlcheck.column("x", 2), ValueError, "the place is after the end of the text"),
            (lambda: urlcheck.column("x", 0, "bytes", 0), ValueError, "a line or a column isn't from 1 to 4294967295"),
            (lambda: _native.column(b"\xff", 0, 1, 0), ValueError, "a text isn't UTF-8"),
            (lambda: _native.report_begin(9, 0), ValueError, "no format has this number"),
            (lambda: _native.report_begin(4, 1), ValueError, "the format has no word for this unit"),
            (lambda: _native.report_begin(0, 4), ValueError, "the format has no word for this unit"),
            (lambda: _native.report_end(0, 3), ValueError, "a report has no such end"),
            (lambda: _native.message("x", None, None, 4, 14, 0), ValueError, "no wording has this number"),
            (lambda: _native.message("x", None, None, 0, 15, 0), ValueError, "no rule has this number"),
            (lambda: diagnosed(kind=4), ValueError, "no kind of mended text has this number"),
            (lambda: diagnosed(line=0), ValueError, "a line or a column isn't from 1 to 4294967295"),
            (lambda: diagnosed(file=b"\xff"), ValueError, "a text isn't UTF-8"),
            (lambda: _native.use((), (), (), (), ()), ValueError, "the package isn't the module's"),
        ):
            with self.subTest(said):
                with self.assertRaises(error) as raised:
                    call()
                self.assertEqual(str(raised.exception), said)

    def test_a_stream_that_fails(self):
        """Why a stream gives no more is said, though what is released then runs Python, and each thing is released once."""
        stream = Stream(2, fails=True)
        with self.assertRaises(ValueError) as raised:
            urlcheck.check_many(stream)
        self.assertEqual(str(raised.exception), "the stream is broken: the disk is gone")
        self.assertEqual(sorted(stream.released), ["array", "array", "schema"])

    def test_a_base_of_several_arrays(self):
        """It is checked once for all of them."""
        for call in (urlcheck.check_many, urlcheck.is_valid_many, urlcheck.resolve_many, urlcheck.mend_many):
            stream = Stream(3, fails=False)
            with self.subTest(call.__name__), mock.patch.object(_many, "Base", wraps=urlcheck.Base) as made:
                call(stream, "http://h/")
                made.assert_called_once_with("http://h/", None)
            self.assertEqual(sorted(stream.released), ["array", "array", "array", "schema"])

    def test_help(self):
        self.assertEqual(_native.__doc__, "The library, called from Python.")
        for name, about in ABOUT.items():
            function = getattr(urlcheck, name)
            self.assertEqual(function.__doc__, about + RAISES)
            self.assertEqual(function.__text_signature__, ARGUMENTS)

    def test_what_is_wanted_is_said(self):
        for words, error, said in (
            ((b"x",), TypeError, "a text is a str, not bytes"),
            ((None,), TypeError, "a text is a str, not NoneType"),
            (("x", b"y"), TypeError, "a base is a str, a urlcheck.Base or None, not bytes"),
            (("x", None, 3), ValueError, "no profile has the number 3"),
            (("x", None, 7), ValueError, "no profile has the number 7"),
            (("x", None, -1), ValueError, "no profile has the number -1"),
            (("x", None, 1 << 40), ValueError, "no profile has the number"),
            (("x", None, "Wide"), ValueError, "no profile has the name Wide: there are standard"),
            (("x", None, 1.0), TypeError, "a profile is a urlcheck.Profile or its name, not float"),
            (("x\ud800",), UnicodeEncodeError, "surrogates not allowed"),
        ):
            for function in (urlcheck.check, urlcheck.violations, urlcheck.resolve, urlcheck.mend):
                with self.subTest(words), self.assertRaisesRegex(error, said):
                    function(*words)

    def test_a_refused_base_says_why(self):
        """In the words of `lint`: of a base the place, what is wrong there, and the rule."""
        for base, said in (
            ("x", "the base is refused at place 0: it has no scheme [no-scheme]"),
            ("", "the base is refused at place 0: it has no scheme [no-scheme]"),
            ("http://h/a b", "the base is refused at place 10: this code point is not allowed in a URL [code-point]"),
        ):
            for call in (urlcheck.Base, against, lambda it: next(urlcheck.check_each(["x"], it))):
                with self.assertRaises(urlcheck.BaseRefused) as refused:
                    call(base)
                self.assertEqual(str(refused.exception), said)
        for base in (None, b"a:", 5):
            with self.assertRaisesRegex(TypeError, "a base is a str, not "):
                urlcheck.Base(base)

    def test_a_base_is_held(self):
        base = urlcheck.Base("http://h_/a", urlcheck.Profile.WIDE)
        self.assertEqual(repr(base), "Base('http://h_/a', Profile.WIDE)")
        self.assertEqual(urlcheck.check("../x", base).path, "../x")
        self.assertEqual(urlcheck.resolve("../x", base), "http://h_/x")
        self.assertFalse(urlcheck.is_valid("a b", base))
        self.assertNotEqual(base, urlcheck.Base("http://h_/b", urlcheck.Profile.WIDE))
        self.assertNotEqual(base, urlcheck.Base("http://h_/a", urlcheck.Profile.PARSER))
        self.assertNotEqual(base, "http://h_/a")
        for other in (pickle.loads(pickle.dumps(base)), copy.copy(base), copy.deepcopy(base)):
            self.assertEqual((other, hash(other)), (base, hash(base)))
            self.assertEqual((other.text, other.profile), (base.text, base.profile))
            self.assertTrue(urlcheck.is_valid("//x_/y", other, urlcheck.Profile.WIDE))
        with self.assertRaises(urlcheck.BaseRefused) as refused:
            urlcheck.Base("http://h_/a")
        self.assertEqual((refused.exception.rule, refused.exception.place), ("host-domain", 7))
        narrow = urlcheck.Base("http://h/")
        for function in (urlcheck.check, urlcheck.violations, urlcheck.resolve, urlcheck.is_valid, urlcheck.mend):
            with self.assertRaisesRegex(ValueError, "another profile: STANDARD"):
                function("x", narrow, urlcheck.Profile.WIDE)
            with self.assertRaisesRegex(ValueError, "another profile: WIDE"):
                function("//a_b/", base, urlcheck.Profile.STANDARD)
        for name in ("text", "profile", "other"):
            with self.assertRaisesRegex(AttributeError, "a Base doesn't change"):
                setattr(narrow, name, "http://two.example/")
        with self.assertRaises(AttributeError):
            del narrow.text
        self.assertEqual({narrow: 1}[urlcheck.Base("http://h/")], 1)

    def test_profiles_by_name(self):
        for profile in urlcheck.Profile:
            name = profile.name.lower()
            for text in ("http://a_b/", "urn:a b"):
                wanted = urlcheck.check(text, None, profile)
                self.assertEqual(urlcheck.check(text, profile=name), wanted)
                self.assertEqual(next(urlcheck.check_each([text], None, name)), wanted)
                self.assertEqual(urlcheck.check_many([text], None, name).valid, [bool(wanted)])
            self.assertEqual(urlcheck.Base("urn:a", name).profile, profile)
        refused = urlcheck.check("http://a_b/")
        self.assertIn("; profile='wide' allows it", urlcheck.message("http://a_b/", refused, "standard"))
        self.assertNotIn("profile", urlcheck.message("http://a_b/ ", urlcheck.Violation("code-point", 11), "wide"))

    def test_the_package_is_loaded_again(self):
        """As a notebook does, or a test that takes the package away and imports it again."""
        script = (
            "import importlib, sys, urlcheck\n"
            "importlib.reload(urlcheck)\n"
            "assert urlcheck.check('http://h/a').path == '/a' and type(urlcheck.check('x')) is urlcheck.Refused\n"
            "for name in [it for it in sys.modules if it.partition('.')[0] == 'urlcheck']: del sys.modules[name]\n"
            "import urlcheck\n"
            "assert urlcheck.check('x', urlcheck.Base('http://h/')).path == 'x'\n"
        )
        ran = subprocess.run([sys.executable, "-c", script], stderr=subprocess.PIPE, universal_newlines=True, check=False)
        self.assertEqual((ran.returncode, ran.stderr), (0, ""))

    def test_each_profile_takes_more(self):
        texts = {"http://h/": 3, "http://a_b/": 2, "http://h//a": 2, "http://a%2Db/": 1, "http://1.2/": 1, "urn:a b": 1}
        texts.update({"file://h/C:/x": 1, "file://?q": 1, "urn:a ": 0, "http://256/": 0, "http://a%2Fb/": 0})
        for text, count in texts.items():
            taken = [profile for profile in urlcheck.Profile if urlcheck.is_valid(text, None, profile)]
            self.assertEqual(taken, list(urlcheck.Profile)[len(urlcheck.Profile) - count :], text)
        self.assertEqual(urlcheck.resolve("http://%31.2/", None, urlcheck.Profile.PARSER), "http://1.0.0.2/")
        self.assertEqual(urlcheck.resolve("#f", "urn:a ?q", urlcheck.Profile.PARSER), "urn:a%20?q#f")

    def test_a_text_is_mended(self):
        mended = urlcheck.mend("http://h/" + 300 * " " + "x")
        self.assertEqual(mended, urlcheck.Mended("http://h/" + 300 * "%20" + "x", urlcheck.MendKind.SAME))
        for other in (pickle.loads(pickle.dumps(mended)), copy.copy(mended), copy.deepcopy(mended)):
            self.assertEqual(other, mended)
        self.assertIsNone(urlcheck.mend("../x", urlcheck.Base("http://h/a")))
        self.assertFalse(urlcheck.mend("http://h/{{ x }}").is_offered)
        self.assertEqual(urlcheck.mend("http://h:x/"), urlcheck.Refused("port-digit", 9))

    def test_what_is_said_of_a_text(self):
        refused = urlcheck.check("http://h_/\u65e5", None)
        point = "U+005F LOW LINE is not allowed in a domain"
        for wording, more in (("arguments", "; profile='wide' allows it"), ("options", "; --profile wide allows it"),
                              ("sql", "; profile 'wide' allows it"), ("none", "")):
            self.assertEqual(urlcheck.message("http://h_/", refused, wording=wording), point + more)
            wrong = urlcheck.Diagnostic("f", 1, 8, "http://h_/", "host-domain", 7)
            said = "".join(urlcheck.report([wrong], wording=wording))
            self.assertEqual(said, "f:1:8: error: {}{} [host-domain]\n".format(point, more))
        self.assertEqual(urlcheck.message("http://h_/", refused), point + "; profile='wide' allows it")
        for base in "http://h/", urlcheck.Base("http://h/"):
            against = urlcheck.check("//h_/", base)
            self.assertEqual(urlcheck.message("//h_/", against), point)
            self.assertEqual(urlcheck.message("//h_/", against, base=base), point + "; profile='wide' allows it")
        with self.assertRaises(urlcheck.BaseRefused):
            urlcheck.message("//h_/", refused, base="h i")
        for call in (lambda: urlcheck.message("http://h_/", refused, wording="x"), lambda: urlcheck.report([], wording="x")):
            with self.assertRaisesRegex(ValueError, "no wording is named 'x': there are options, arguments, sql, none"):
                call()
        with self.assertRaises(urlcheck.BaseRefused) as base:
            urlcheck.Base("http://h/%")
        said = "U+0025 PERCENT SIGN has to be followed by two hex digits"
        self.assertEqual(urlcheck.message("http://h/%", base.exception), said)
        self.assertEqual(urlcheck.message("x^", urlcheck.violations("x^", "a:/")[0], urlcheck.Profile.PARSER)[:6], "U+005E")
        for words, error, why in (
            ((b"x", refused), TypeError, "a text is a str, not bytes"),
            (("http:", refused), ValueError, "the place is after the end of the text"),
            (("x", urlcheck.Violation("percent", -1)), ValueError, "the place is after the end of the text"),
            (("x", urlcheck.Violation("no-utf8", 0)), KeyError, "no-utf8"),
            (("x", urlcheck.Violation("percent", 0), 3), ValueError, "no profile has the number 3"),
            (("x", urlcheck.Violation("percent", 0), ""), ValueError, "no profile has the name"),
            (("x\ud800", urlcheck.Violation("percent", 0)), UnicodeEncodeError, "surrogates not allowed"),
        ):
            with self.subTest(words), self.assertRaisesRegex(error, why):
                urlcheck.message(*words)

    def test_columns(self):
        text = "e\u0301\u65e5\U0001f600\tx"
        for unit, columns in (("code-points", (1, 2, 3, 4, 5, 6, 7)), ("bytes", (1, 2, 4, 7, 11, 12, 13)),
                              ("utf16", (1, 2, 3, 4, 6, 7, 8)), ("screen", (1, 2, 2, 4, 6, 9, 10))):
            self.assertEqual(tuple(urlcheck.column(text, place, unit) for place in range(len(text) + 1)), columns)
        self.assertEqual(urlcheck.column("x\t", 2, "screen", 8), 17)
        for words, why in ((("x", 2), "the place is after the end"), (("x", -1), "the place is after the end"),
                           (("x", 0, "utf-16"), "no column unit is named 'utf-16': there are code-points, bytes, "),
                           (("x", 0, "bytes", 0), "isn't from 1 to 4294967295"),
                           (("x", 0, "bytes", 1 << 32), "isn't from 1 to 4294967295")):
            with self.subTest(words), self.assertRaisesRegex(ValueError, why):
                urlcheck.column(*words)

    def test_reports(self):
        wrong = urlcheck.Diagnostic("a", 1, 2, "x y", "code-point", 1)
        self.assertEqual(urlcheck.FORMATS[:6], ("gnu", "caret", "json", "github", "sarif", "checkstyle"))
        self.assertEqual(urlcheck.FORMATS[6:9], ("junit", "gitlab", "rdjson"))
        self.assertEqual(urlcheck.UNITS, ("code-points", "bytes", "utf16", "screen"))
        said = "a:1:2: error: U+0020 SPACE is not allowed in a URL [code-point]\n"
        self.assertEqual(list(urlcheck.report([wrong])), ["", said, ""])
        # Those of two files are told apart, and equal ones of a file if their caller counts them.
        several = [wrong, wrong._replace(line=2), wrong._replace(line=3, repeat=1), wrong._replace(file="b")]
        issues = json.loads("".join(urlcheck.report(several, "gitlab")))
        self.assertEqual(issues[0]["fingerprint"], issues[1]["fingerprint"])
        self.assertEqual(len({it["fingerprint"] for it in issues}), 3)
        moved = json.loads("".join(urlcheck.report([wrong._replace(line=9)], "gitlab")))
        self.assertEqual(moved[0]["fingerprint"], issues[0]["fingerprint"])
        for words, why in (
            (([], "xml"), "no format is named 'xml': there are gnu, "),
            (([], "gnu", "points"), "no column unit is named 'points': there are code-points, "),
            (([], "sarif", "bytes"), "sarif doesn't support the column unit bytes"),
            (([], "rdjson", "utf16"), "rdjson doesn't support the column unit utf16"),
        ):
            with self.subTest(words), self.assertRaisesRegex(ValueError, why):
                urlcheck.report(*words)
        for field, value, error in (("place", 4, ValueError), ("place", -1, ValueError), ("line", 0, ValueError),
                                    ("column", 1 << 32, ValueError), ("end", 1 << 32, ValueError), ("rule", "no-utf8", KeyError),
                                    ("profile", 9, ValueError), ("text", "\udfff", UnicodeEncodeError),
                                    ("file", "\udcff", UnicodeEncodeError)):
            with self.subTest(field), self.assertRaises(error):
                list(urlcheck.report([wrong._replace(**{field: value})]))

    def test_notes(self):
        for text, place, note in (
            ("https://https//example.com/x", 14, ""), ("URL: https://example.com/ x", 4, ""),
            ("https://h/ and more", 10, "note: the same URL, written validly, is https://h/%20and%20more\n"),
        ):
            refused, mended = urlcheck.check(text), urlcheck.mend(text)
            self.assertEqual((refused.place, mended.is_offered), (place, False))
            wrong = urlcheck.Diagnostic("a", 1, place + 1, text, refused.rule, place, mended=mended)
            said = "".join(urlcheck.report([wrong], "caret"))
            self.assertEqual(said.partition("\n")[2], text + "\n" + " " * place + "^\n" + note)

    def test_explanations(self):
        for rule in urlcheck.RULES:
            it = urlcheck.explain(rule)
            self.assertEqual((it.rule, it.sentence), (rule, urlcheck.sentence(rule)))
            self.assertEqual(urlcheck.check(it.example, it.base), urlcheck.Refused(rule, it.place))
            self.assertTrue(urlcheck.check(it.mended, it.base))
            self.assertTrue(it.requires.endswith(".") and it.section and it.url.startswith("https://url.spec.whatwg.org/#"))
        with self.assertRaises(KeyError):
            urlcheck.explain("empty")

    def test_several_texts(self):
        answers = list(urlcheck.check_each(["../x", "http://h:x/", ""], "http://h/a"))
        self.assertEqual([bool(it) for it in answers], [True, False, True])
        self.assertEqual(answers[1], urlcheck.Refused("port-digit", 9))
        for texts, said in (("http://h/", "texts are wanted, not one str"), (b"a:", "texts are wanted, not one bytes"),
                            (None, "'NoneType' object is not iterable"), (5, "'int' object is not iterable")):
            with self.assertRaisesRegex(TypeError, said):
                urlcheck.check_each(texts)
        for texts in ([None], [b"a:"], [5]):
            with self.assertRaisesRegex(TypeError, "a text is a str, not "):
                next(urlcheck.check_each(texts))

    def test_the_version(self):
        self.assertEqual(urlcheck.__version__, urlcheck.version())

    def test_numbers_that_are_none(self):
        """A place, a line, a column or a region, however large or small."""
        said = {
            "place": "the place is after the end of the text",
            "number": "a line or a column isn't from 1 to 4294967295",
            "region": "a region ends before it begins",
        }
        mended = urlcheck.Mended("a%20b", urlcheck.MendKind.SAME)
        for number in (-1, 4, 1 << 63, 1 << 64, (1 << 64) + 1, -(1 << 80)):
            with self.subTest(number=number), self.assertRaisesRegex(ValueError, said["place"]):
                urlcheck.column("a b", number)
            with self.subTest(number=number), self.assertRaisesRegex(ValueError, said["place"]):
                urlcheck.message("a b", urlcheck.Refused("code-point", number))
            with self.subTest(number=number), self.assertRaisesRegex(ValueError, said["place"]):
                list(urlcheck.report([urlcheck.Diagnostic("f", 1, 1, "a b", "code-point", number)]))
        large = (-1, 0, 1 << 32, 1 << 64, (1 << 64) + 1)
        wrong = [{field: number} for field in ("line", "column", "end") for number in large]
        regions = [((1, 1, 1, 4)[:at] + (number,) + (1, 1, 1, 4)[at + 1 :], "number")
                   for at in range(4) for number in (-2, 0, 1 << 32, (1 << 64) + 4)]
        regions += [((2, 1, 1, 4), "region"), ((1, 3, 1, 2), "region")]
        wrong += [{"region": urlcheck.Region(*region), "why": why} for region, why in regions]
        for given in wrong:
            given = dict(given)
            why = given.pop("why", "number")
            fields = {"file": "f", "line": 1, "column": 1, "text": "a b", "rule": "code-point", "place": 1}
            fields = {**fields, "mended": mended, **given}
            for name in urlcheck.FORMATS:
                with self.subTest(name=name, given=given), self.assertRaisesRegex(ValueError, said[why]):
                    list(urlcheck.report([urlcheck.Diagnostic(**fields)], name))
        for start in (-1, 0, 1 << 32, (1 << 64) + 1):
            with self.subTest(start=start), self.assertRaisesRegex(ValueError, said["number"]):
                urlcheck.column("a b", 1, start=start)

    def test_answers_are_in_no_cycle(self):
        """So the collector doesn't look at them, and they go as soon as nothing holds them."""
        answers = [urlcheck.check("http://h/a"), urlcheck.check("x"), urlcheck.mend("http://h/a b")]
        answers += urlcheck.violations("x")
        for answer in answers:
            self.assertFalse(gc.is_tracked(answer))
            self.assertEqual(copy.deepcopy(answer), answer)
        gone = weakref.ref(answers.pop())
        del answer
        self.assertIsNone(gone())

    @unittest.skipUnless(sys.version_info >= (3, 12), "interpreters have one lock")
    def test_interpreters_with_a_lock_of_their_own(self):
        try:
            import _interpreters as interpreters
        except ImportError:
            import _xxsubinterpreters as interpreters
        run = "import sys; sys.path[:] = {!r}; import urlcheck; "
        run += "assert urlcheck.is_valid_many(['http://h/', 'x', None]) == [True, False, None]; "
        run += "assert urlcheck.mend('http://h/a b') == urlcheck.Mended('http://h/a%20b', urlcheck.MendKind.SAME)"
        for _ in range(3):
            made = interpreters.create()
            self.assertIsNone(interpreters.run_string(made, run.format(sys.path)))
            interpreters.destroy(made)
        self.assertTrue(urlcheck.check("http://h/"))


if __name__ == "__main__":
    unittest.main()
