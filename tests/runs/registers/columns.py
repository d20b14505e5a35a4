"""Tests of many texts in a call: lists, columns of numpy and pandas, arrays of Arrow, and the accessor. Each answer is compared
with the answer of the call for one text. What isn't installed is skipped."""

import ctypes
import gc
import os
import re
import sys
import threading
import time
import types
import unittest
from unittest import mock

sys.path.insert(0, os.path.join(os.path.dirname(os.path.abspath(__file__)), "..", "library"))

import urlcheck
from cases import unpacked
from urlcheck import _native

try:
    import numpy
except ImportError:
    numpy = None
try:
    import pandas
except ImportError:
    pandas = None
try:
    import pyarrow
except ImportError:
    pyarrow = None

TEXTS = [
    text
    for text, base in unpacked(sys.argv[1])
    if "\ud800" not in text
] + ["", "http://h/\u00e9 b", "http://h/" + 5000 * "a", "http://h/" + 300_000 * "\u00e9", "http://h/\0"]
MIXED = [text if number % 7 else None for number, text in enumerate(TEXTS)]


def one_by_one(texts, base=None, profile=urlcheck.Profile.STANDARD):
    """valid, rule and place of each text by the call over one."""
    found = [None if text is None else urlcheck.check(text, base, profile) for text in texts]
    return (
        [None if it is None else bool(it) for it in found],
        [None if it is None or it else it.rule for it in found],
        [None if it is None or it else it.place for it in found],
    )


def resolved(texts, base=None, profile=urlcheck.Profile.STANDARD):
    answers = [None if text is None else urlcheck.resolve(text, base, profile) for text in texts]
    return [it if isinstance(it, str) else None for it in answers]


def mended(texts, base=None, profile=urlcheck.Profile.STANDARD):
    answers = [(text, None if text is None else urlcheck.mend(text, base, profile)) for text in texts]
    given = [it.text if isinstance(it, urlcheck.Mended) else text if it is None else None for text, it in answers]
    return given, [it.kind.value if isinstance(it, urlcheck.Mended) else None for _, it in answers]


def listed(column):
    """A column's values, with None where one is missing."""
    if hasattr(column, "to_pylist"):
        return column.to_pylist()
    values = column.tolist()
    missing = [value is None or pandas is not None and value is pandas.NA or value != value for value in values]
    return [None if gone else value for value, gone in zip(values, missing)]


class Compared(unittest.TestCase):
    def assertSequenceEqual(self, first, second, msg=None, seq_type=None):
        """As in the library, which would look for minutes for how long lists differ."""
        if first != second:
            pairs = [pair for pair in zip(first, second) if pair[0] != pair[1]]
            self.fail("other answers, of {} and {}: {:.300}".format(len(first), len(second), repr(pairs[:1])))


SETTINGS = [
    (None, urlcheck.Profile.STANDARD),
    ("http://h/a/b?q", urlcheck.Profile.WIDE),
    (urlcheck.Base("file:///C:/x", urlcheck.Profile.PARSER), urlcheck.Profile.PARSER),
]


class Lists(Compared):
    def test_answers(self):
        for base, profile in SETTINGS:
            found = urlcheck.check_many(MIXED, base, profile)
            self.assertEqual(tuple(found), one_by_one(MIXED, base, profile))
            self.assertEqual(urlcheck.is_valid_many(MIXED, base, profile), found.valid)
            self.assertEqual(urlcheck.resolve_many(MIXED, base, profile), resolved(MIXED, base, profile))
            self.assertEqual(tuple(urlcheck.mend_many(MIXED, base, profile)), mended(MIXED, base, profile))

    def test_iterables(self):
        for texts in (iter(TEXTS), tuple(TEXTS), (text for text in TEXTS), dict.fromkeys(TEXTS)):
            wanted = one_by_one(list(dict.fromkeys(TEXTS)) if isinstance(texts, dict) else TEXTS)
            self.assertEqual(tuple(urlcheck.check_many(texts)), wanted)
        self.assertEqual(tuple(urlcheck.check_many([])), ([], [], []))
        self.assertEqual((urlcheck.resolve_many(()), tuple(urlcheck.mend_many([]))), ([], ([], [])))
        self.assertEqual(urlcheck.is_valid_many([None]), [None])

    def test_long_lists(self):
        """More texts than are joined at a time, with others missing in each piece."""
        texts = [None if number % 3 == 0 else "http://h/{}{}".format(number, " b" * (number % 2)) for number in range(10_000)]
        self.assertEqual(tuple(urlcheck.check_many(texts)), one_by_one(texts))
        self.assertEqual(tuple(urlcheck.mend_many(texts)), mended(texts))

    def test_texts_that_grow(self):
        """The texts of URLs that are three times as long as what denotes them, so that a second call has to write them."""
        texts = ["http://h/" + number * "\u00e9" for number in (5000, 0, 7000)] + [None, "http://h/ "]
        wanted = ["http://h/" + number * "%C3%A9" for number in (5000, 0, 7000)] + [None, None]
        self.assertEqual(urlcheck.resolve_many(texts), wanted)

    def test_a_text_of_100_mb(self):
        text = "http://h/" + 100_000_000 * "a"
        found = urlcheck.check_many([text, text + " "])
        self.assertEqual(tuple(found), ([True, False], [None, "code-point"], [None, 100_000_009]))
        made = urlcheck.resolve_many([text, None])
        self.assertEqual((len(made[0]), made[1]), (100_000_009, None))

    @unittest.skipUnless(pandas, "no pandas")
    def test_what_is_missing(self):
        """In a list too, `pandas.NA` is a missing text."""
        texts = ["http://h/", pandas.NA, None, float("nan"), "x"]
        self.assertEqual(urlcheck.is_valid_many(texts), [True, None, None, None, False])
        self.assertEqual(urlcheck.resolve_many(texts), ["http://h/", None, None, None, None])

    def test_bad_arguments(self):
        for call in (urlcheck.check_many, urlcheck.is_valid_many, urlcheck.resolve_many, urlcheck.mend_many):
            for words, error, said in (
                (("http://h/",), TypeError, "texts are wanted, not one str"),
                ((b"a:",), TypeError, "texts are wanted, not one bytes"),
                ((None,), TypeError, "not iterable"),
                ((["http://h/", 5],), TypeError, "a text is a str, not int"),
                ((["\ud800"],), UnicodeEncodeError, "surrogates not allowed"),
                ((["x"], 5), TypeError, "a base is a str, a urlcheck.Base or None, not int"),
                ((["x"], None, 3), ValueError, "no profile has the number 3"),
                ((["x"], None, "wider"), ValueError, "no profile has the name wider"),
                ((["x"], urlcheck.Base("http://h/"), urlcheck.Profile.WIDE), ValueError, "another profile: STANDARD"),
                ((["x"], "no base"), urlcheck.BaseRefused, "it has no scheme"),
                (([], "no base"), urlcheck.BaseRefused, "it has no scheme"),
            ):
                with self.subTest(call=call.__name__, words=words), self.assertRaisesRegex(error, said):
                    call(*words)

    def test_other_threads_run(self):
        """While a text that takes long is checked, another thread counts."""
        texts, ticks, is_done = ["http://h/" + 20_000_000 * "a"] * 4, 0, []

        def check():
            urlcheck.check_many(texts)
            is_done.append(True)

        thread = threading.Thread(target=check)
        thread.start()
        while not is_done:
            ticks += 1
            time.sleep(0.001)
        thread.join()
        self.assertGreater(ticks, 5)

    def test_memory_stays(self):
        """What a call takes it gives back: of texts, lists, errors."""
        texts = TEXTS[:500]

        if not os.path.exists("/proc/self/statm") or "asan" in os.environ.get("LD_PRELOAD", ""):
            self.skipTest("no figure of memory")

        def taken():
            gc.collect()
            with open("/proc/self/statm", encoding="ascii") as file:
                return int(file.read().split()[1]) * os.sysconf("SC_PAGE_SIZE")

        def round_of():
            for text in texts:
                for call in (urlcheck.check, urlcheck.is_valid, urlcheck.resolve, urlcheck.mend, urlcheck.violations):
                    call(text, "http://h/")
                for words in ((text, 5), (text, None, 9), (text, "no base"), ("\ud800",)):
                    try:
                        urlcheck.check(*words)
                    except (TypeError, ValueError):
                        pass
            for call in (urlcheck.check_many, urlcheck.is_valid_many, urlcheck.resolve_many, urlcheck.mend_many):
                call(texts, urlcheck.Base("http://h/"))
                try:
                    call([*texts, 5])
                except TypeError:
                    pass

        for _ in range(5):
            round_of()
        before = taken()
        for _ in range(20):
            round_of()
        self.assertLess(taken() - before, 2_000_000)

    def test_objects_go(self):
        """Each answer holds what it is made of once."""
        text = "http://host.example/path?query#fragment"
        before = sys.getrefcount(text)
        answers = [urlcheck.check(text) for _ in range(100)]
        self.assertLessEqual(sys.getrefcount(text), before + 1)
        path = answers[0].path
        self.assertLessEqual(sys.getrefcount(path), 3)


class Changing(unittest.TestCase):
    def test_a_list_that_changes(self):
        """A list that another thread empties while it is checked is an error."""
        for _ in range(100):
            texts = ["http://h/" + 5_000_000 * "a"] * 4
            timer = threading.Timer(0.001, texts.clear)
            timer.start()
            try:
                urlcheck.check_many(texts)
            except RuntimeError as error:
                self.assertEqual(str(error), "the list changed while it was checked")
                return
            finally:
                timer.join()
        self.fail("no list changed")


class Vectors(Compared):
    """Every case of the vectors, with its own base, in three profiles: lists and Arrow arrays of those with one base."""

    def test_answers(self):
        by_base = {}
        for text, base in unpacked(sys.argv[1]):
            if "\ud800" not in text + (base or ""):
                by_base.setdefault(base, []).append(text)
        count = 0
        for base, texts in by_base.items():
            for profile in urlcheck.Profile:
                try:
                    wanted = one_by_one(texts, base, profile), resolved(texts, base, profile), mended(texts, base, profile)
                except urlcheck.BaseRefused as refused:
                    with self.assertRaisesRegex(urlcheck.BaseRefused, re.escape(str(refused))):
                        urlcheck.check_many(texts, base, profile)
                    continue
                array = Handed(texts)
                found = [urlcheck.check_many(texts, base, profile), urlcheck.resolve_many(texts, base, profile),
                         urlcheck.mend_many(texts, base, profile)]
                self.assertEqual((tuple(found[0]), found[1], tuple(found[2])), wanted)
                found = [urlcheck.check_many(array, base, profile), urlcheck.resolve_many(array, base, profile),
                         urlcheck.mend_many(array, base, profile)]
                self.assertEqual((tuple(map(read, found[0])), read(found[1]), tuple(map(read, found[2]))), wanted)
                count += len(texts)
        self.assertGreater(count, 100)


@unittest.skipUnless(numpy, "no numpy")
class Arrays(Compared):
    def test_answers(self):
        for texts in (TEXTS, MIXED):
            array = numpy.array(texts, object)
            for base, profile in SETTINGS:
                valid, rule, place = one_by_one(texts, base, profile)
                found = urlcheck.check_many(array, base, profile)
                self.assertEqual(listed(found.valid), valid)
                self.assertEqual(listed(found.rule), rule)
                self.assertEqual(listed(found.place), [-1 if it is None else it for it in place])
                self.assertEqual(listed(urlcheck.is_valid_many(array, base, profile)), valid)
                self.assertEqual(listed(urlcheck.resolve_many(array, base, profile)), resolved(texts, base, profile))
                made = urlcheck.mend_many(array, base, profile)
                self.assertEqual((listed(made.text), listed(made.kind)), mended(texts, base, profile))
            self.assertEqual(found.valid.dtype, object if None in texts else bool)

    def test_others(self):
        self.assertEqual(urlcheck.is_valid_many(numpy.array(["http://h/", "x"])).tolist(), [True, False])
        self.assertEqual(len(urlcheck.check_many(numpy.array([], object)).place), 0)
        self.assertEqual(urlcheck.is_valid_many(numpy.array(["http://h/", "x"], object)[::-1]).tolist(), [False, True])
        with self.assertRaisesRegex(TypeError, "^an array of texts is wanted, not of int64$"):
            urlcheck.check_many(numpy.arange(3))
        with self.assertRaisesRegex(ValueError, "^an array of one dimension is wanted, not of 2$"):
            urlcheck.check_many(numpy.array([["a"], ["b"]], object))


@unittest.skipUnless(pandas, "no pandas")
class Series(Compared):
    dtypes = (object, "string") + (("string[pyarrow]",) if pyarrow else ())

    def test_answers(self):
        index = ["row{}".format(number) for number in range(len(MIXED))]
        for dtype in self.dtypes:
            texts = pandas.Series(MIXED, index=index, name="url", dtype=dtype)
            for base, profile in SETTINGS:
                valid, rule, place = one_by_one(MIXED, base, profile)
                found = urlcheck.check_many(texts, base, profile)
                for column in found:
                    self.assertEqual((list(column.index), column.name), (index, "url"))
                self.assertEqual((listed(found.valid), listed(found.rule), listed(found.place)), (valid, rule, place))
                self.assertEqual(listed(urlcheck.is_valid_many(texts, base, profile)), valid)
                self.assertEqual(listed(urlcheck.resolve_many(texts, base, profile)), resolved(MIXED, base, profile))
                made = urlcheck.mend_many(texts, base, profile)
                self.assertEqual((listed(made.text), listed(made.kind)), mended(MIXED, base, profile))
                self.assertEqual(made.text.dtype, texts.dtype)

    def test_the_accessor(self):
        import urlcheck.pandas

        texts = pandas.Series(MIXED)
        valid, rule, place = one_by_one(MIXED, "http://h/")
        self.assertEqual(listed(texts.urlcheck.is_valid("http://h/")), valid)
        table = texts.urlcheck.check("http://h/")
        self.assertEqual([listed(table[name]) for name in table], [valid, rule, place])
        self.assertEqual(list(table.columns), ["valid", "rule", "place"])
        self.assertEqual(listed(texts.urlcheck.rule("http://h/")), rule)
        self.assertEqual(listed(texts.urlcheck.place("http://h/")), place)
        self.assertEqual(listed(texts.urlcheck.resolve()), resolved(MIXED))
        self.assertEqual(listed(texts.urlcheck.mend()["text"]), mended(MIXED)[0])
        self.assertEqual(texts[texts.urlcheck.is_valid().fillna(False)].tolist(), [it for it in MIXED if it and urlcheck.is_valid(it)])
        with self.assertRaisesRegex(AttributeError, "a column of texts is wanted, not of int64"):
            pandas.Series([1]).urlcheck

    def test_categories(self):
        """No text is lost that isn't one of the categories, and none is that is missing."""
        import urlcheck.pandas

        for categories in (MIXED, ["http://h/ b", "http://H/a", "http://h/ b", None, "http://h/"]):
            texts = pandas.Series(categories, dtype="category", name="url")
            for base, profile in SETTINGS:
                found = urlcheck.check_many(texts, base, profile)
                self.assertEqual(tuple(map(listed, found)), one_by_one(categories, base, profile))
                self.assertEqual(listed(urlcheck.resolve_many(texts, base, profile)), resolved(categories, base, profile))
                made = urlcheck.mend_many(texts, base, profile)
                self.assertEqual((listed(made.text), listed(made.kind)), mended(categories, base, profile))
            self.assertEqual((made.text.dtype, made.text.name), (object, "url"))
        self.assertEqual(listed(texts.urlcheck.resolve()), resolved(categories))
        with self.assertRaisesRegex(TypeError, "a text is a str, not int"):
            urlcheck.check_many(pandas.Series([1, 2], dtype="category"))
        with self.assertRaisesRegex(AttributeError, "a column of texts is wanted, not of category"):
            pandas.Series([1, 2], dtype="category").urlcheck

    def test_other_classes(self):
        """A class of a caller's own is a Series, and a table isn't one."""
        class Own(pandas.Series):
            """It is of another module."""

        found = urlcheck.check_many(Own(["http://h/", "x"], index=[5, 7]))
        self.assertEqual((listed(found.valid), list(found.place.index)), ([True, False], [5, 7]))
        for table in (pandas.DataFrame({"url": ["x"]}), type("Frame", (pandas.DataFrame,), {})({"url": ["x"]})):
            for call in (urlcheck.check_many, urlcheck.is_valid_many, urlcheck.resolve_many, urlcheck.mend_many):
                with self.assertRaises(TypeError) as raised:
                    call(table)
                self.assertEqual(str(raised.exception), "a column of texts is wanted, not a DataFrame: name one, as frame['url']")

    @unittest.skipUnless(pyarrow and hasattr(pandas, "ArrowDtype"), "no pyarrow, or a pandas before 1.5")
    def test_types_of_arrow(self):
        """Each type of texts is read, and the texts that are made have it, unless it has room for the old ones only."""
        import urlcheck.pandas

        kinds = [pyarrow.string(), pyarrow.large_string(), pyarrow.dictionary(pyarrow.int32(), pyarrow.string())]
        for kind in kinds + [pyarrow.string_view()] * hasattr(pyarrow, "string_view"):
            texts = pandas.Series(pandas.array(pyarrow.array(MIXED).cast(kind), pandas.ArrowDtype(kind)))
            self.assertEqual(tuple(map(listed, urlcheck.check_many(texts))), one_by_one(MIXED))
            made = urlcheck.mend_many(texts)
            self.assertEqual((listed(made.text), listed(made.kind)), mended(MIXED))
            self.assertEqual(listed(texts.urlcheck.resolve()), resolved(MIXED))
            self.assertEqual(made.text.dtype == texts.dtype, kind in kinds[:2])
        with self.assertRaisesRegex(AttributeError, "a column of texts is wanted, not of int64"):
            pandas.Series([1], dtype=pandas.ArrowDtype(pyarrow.int64())).urlcheck

    def test_other_missing_values(self):
        texts = pandas.Series(["http://h/", float("nan"), None, pandas.NA, "x"])
        self.assertEqual(listed(urlcheck.is_valid_many(texts)), [True, None, None, None, False])
        with self.assertRaisesRegex(TypeError, "a text is a str, not float"):
            urlcheck.check_many(pandas.Series(["http://h/", 1.5]))


class Handed:
    """Texts as an array of Arrow that is handed out by the interface: made here, of bytes, with no library."""

    class Schema(ctypes.Structure):
        pass

    class Array(ctypes.Structure):
        pass

    Schema._fields_ = [("format", ctypes.c_char_p), ("name", ctypes.c_char_p), ("metadata", ctypes.c_char_p),
                       ("flags", ctypes.c_int64), ("n_children", ctypes.c_int64), ("children", ctypes.c_void_p),
                       ("dictionary", ctypes.c_void_p), ("release", ctypes.c_void_p), ("private_data", ctypes.c_void_p)]
    Array._fields_ = [("length", ctypes.c_int64), ("null_count", ctypes.c_int64), ("offset", ctypes.c_int64),
                      ("n_buffers", ctypes.c_int64), ("n_children", ctypes.c_int64), ("buffers", ctypes.c_void_p),
                      ("children", ctypes.c_void_p), ("dictionary", ctypes.c_void_p), ("release", ctypes.c_void_p),
                      ("private_data", ctypes.c_void_p)]

    RELEASE = ctypes.CFUNCTYPE(None, ctypes.c_void_p)(lambda _: None)

    def __init__(self, texts, layout=b"u", first=0, offsets=None, count=None, dictionary=None, missing=None):
        width = 8 if layout in (b"U", b"Z") else 4
        pieces = [b"" if text is None else text if isinstance(text, bytes) else text.encode() for text in texts]
        starts = [0]
        for piece in pieces:
            starts.append(starts[-1] + len(piece))
        bits = bytearray((len(texts) + 7) // 8)
        for number, text in enumerate(texts):
            bits[number // 8] |= (text is not None) << number % 8
        self.held = [bytes(bits), b"".join(it.to_bytes(width, sys.byteorder, signed=True) for it in offsets or starts),
                     b"".join(pieces)]
        # (memory of its own for each buffer, of its length: a read beyond it is seen under a sanitizer)
        self.own = [ctypes.create_string_buffer(it, max(len(it), 1)) for it in self.held]
        self.buffers = (ctypes.c_void_p * 3)(*map(ctypes.addressof, self.own))
        if None not in texts:
            self.buffers[0] = None
        release = ctypes.cast(self.RELEASE, ctypes.c_void_p)
        self.schema = self.Schema(layout, b"", None, 2, 0, None, dictionary, release, None)
        missing = texts[first:].count(None) if missing is None else missing
        self.array = self.Array(len(texts) - first if count is None else count, missing, first, 3, 0,
                                ctypes.addressof(self.buffers), None, None, release, None)

    def __arrow_c_array__(self, requested_schema=None):
        new = ctypes.pythonapi.PyCapsule_New
        new.restype, new.argtypes = ctypes.py_object, [ctypes.c_void_p, ctypes.c_char_p, ctypes.c_void_p]
        return (new(ctypes.addressof(self.schema), b"arrow_schema", None),
                new(ctypes.addressof(self.array), b"arrow_array", None))


class Scattered:
    """Texts that aren't in one buffer, by views or in a dictionary, which are handed out in one if that is asked for."""

    def __init__(self, texts, layout, dictionary=None, is_streamed=False):
        self.plain, self.wanted = (Streamed([texts]) if is_streamed else Handed(texts, b"U")), []
        words = None if dictionary is None else Handed([], dictionary)
        self.own = Handed([], layout, dictionary=words and ctypes.addressof(words.schema)), words

    def handed(self, requested_schema, method):
        """The exported array, with its own schema unless another one is given."""
        if requested_schema is None:
            return self.own[0].__arrow_c_array__()
        pointer = ctypes.pythonapi.PyCapsule_GetPointer
        pointer.restype, pointer.argtypes = ctypes.c_void_p, [ctypes.py_object, ctypes.c_char_p]
        self.wanted.append(Handed.Schema.from_address(pointer(requested_schema, b"arrow_schema")).format)
        return getattr(self.plain, method)()

    def __arrow_c_array__(self, requested_schema=None):
        return self.handed(requested_schema, "__arrow_c_array__")


class Streamed:
    """Arrays of texts as a stream, by the same interface."""

    class Stream(ctypes.Structure):
        pass

    TAKE = ctypes.CFUNCTYPE(ctypes.c_int, ctypes.c_void_p, ctypes.c_void_p)
    SAY = ctypes.CFUNCTYPE(ctypes.c_void_p, ctypes.c_void_p)
    Stream._fields_ = [("get_schema", TAKE), ("get_next", TAKE), ("get_last_error", SAY), ("release", ctypes.c_void_p),
                       ("private_data", ctypes.c_void_p)]

    def __init__(self, pieces, **fields):
        self.handed = [Handed(piece) for piece in pieces]
        self.schema = Handed([]).schema
        self.fields = fields

    def __arrow_c_stream__(self, requested_schema=None):
        left = iter(self.handed)

        def get_schema(_, out):
            ctypes.memmove(out, ctypes.addressof(self.schema), ctypes.sizeof(self.schema))
            return 0

        def get_next(_, out):
            array = next((it.array for it in left), None) or Handed.Array()
            ctypes.memmove(out, ctypes.addressof(array), ctypes.sizeof(array))
            return 0

        release = ctypes.cast(Handed.RELEASE, ctypes.c_void_p)
        self.stream = self.Stream(self.TAKE(get_schema), self.TAKE(get_next), self.SAY(lambda _: None), release, None)
        for name, value in self.fields.items():
            setattr(self.stream, name, value)
        new = ctypes.pythonapi.PyCapsule_New
        new.restype, new.argtypes = ctypes.py_object, [ctypes.c_void_p, ctypes.c_char_p, ctypes.c_void_p]
        return new(ctypes.addressof(self.stream), b"arrow_array_stream", None)


def read(column):
    """The values of an array that is handed out, read by its buffers."""
    get = ctypes.pythonapi.PyCapsule_GetPointer
    get.restype, get.argtypes = ctypes.c_void_p, [ctypes.py_object, ctypes.c_char_p]
    capsules = column.__arrow_c_array__()
    schema = Handed.Schema.from_address(get(capsules[0], b"arrow_schema"))
    return values(schema, Handed.Array.from_address(get(capsules[1], b"arrow_array")))


def values(schema, array):
    buffers = (ctypes.c_void_p * array.n_buffers).from_address(array.buffers)
    count = array.length

    def bit(buffer, number):
        return ctypes.c_uint8.from_address(buffer + number // 8).value >> number % 8 & 1

    present = [not buffers[0] or bool(bit(buffers[0], number)) for number in range(count)]
    assert array.null_count == present.count(False) and array.offset == 0
    if schema.format == b"b":
        found = [bool(bit(buffers[1], number)) for number in range(count)]
    elif schema.format == b"l":
        found = list((ctypes.c_int64 * count).from_address(buffers[1])) if count else []
    elif schema.format == b"c":
        words = values(Handed.Schema.from_address(schema.dictionary), Handed.Array.from_address(array.dictionary))
        numbers = (ctypes.c_int8 * count).from_address(buffers[1]) if count else []
        found = [words[number] if here else None for number, here in zip(numbers, present)]
    else:
        assert schema.format == b"U"
        starts = (ctypes.c_int64 * (count + 1)).from_address(buffers[1])
        found = [ctypes.string_at(buffers[2] + starts[number], starts[number + 1] - starts[number]).decode()
                 for number in range(count)]
    return [value if here else None for value, here in zip(found, present)]


class Arrow(Compared):
    """Only by the interface, without a library of Arrow."""

    def test_answers(self):
        for texts in (TEXTS, MIXED, [None] * 9, []):
            for layout, first in ((b"u", 0), (b"U", 0), (b"u", 3), (b"Z", 11), (b"z", 8)):
                array, here = Handed(texts, layout, min(first, len(texts))), texts[first:]
                for base, profile in SETTINGS:
                    found = urlcheck.check_many(array, base, profile)
                    self.assertEqual(tuple(map(read, found)), one_by_one(here, base, profile))
                    self.assertEqual([len(it) for it in found], [len(here)] * 3)
                self.assertEqual(read(urlcheck.is_valid_many(array)), one_by_one(here)[0])
                self.assertEqual(read(urlcheck.resolve_many(array)), resolved(here))
                self.assertEqual(tuple(map(read, urlcheck.mend_many(array))), mended(here))

    def test_streams(self):
        """A stream of any number of arrays is answered in one piece, by each call."""
        for pieces in ([], [[]], [MIXED], [MIXED[:9], [], MIXED[9:20], [None], MIXED[20:]]):
            texts = [text for piece in pieces for text in piece]
            for base, profile in SETTINGS:
                found = urlcheck.check_many(Streamed(pieces), base, profile)
                self.assertEqual(tuple(map(read, found)), one_by_one(texts, base, profile))
                found = urlcheck.resolve_many(Streamed(pieces), base, profile)
                self.assertEqual(read(found), resolved(texts, base, profile))
                found = urlcheck.mend_many(Streamed(pieces), base, profile)
                self.assertEqual(tuple(map(read, found)), mended(texts, base, profile))
            self.assertEqual(read(urlcheck.is_valid_many(Streamed(pieces))), one_by_one(texts)[0])

    def test_texts_that_are_scattered(self):
        """Texts by views and in a dictionary are asked for in one buffer; numbers in a dictionary aren't texts."""
        for layout, dictionary in ((b"vu", None), (b"i", b"u"), (b"C", b"U"), (b"l", b"vu")):
            array = Scattered(MIXED, layout, dictionary)
            self.assertEqual(tuple(map(read, urlcheck.check_many(array))), one_by_one(MIXED))
            self.assertEqual(read(urlcheck.resolve_many(array)), resolved(MIXED))
            self.assertEqual(array.wanted, [b"U", b"U"])
        for layout, dictionary, said in ((b"i", b"l", "i with a dictionary"), (b"l", None, "l"), (b"vz", None, "vz")):
            with self.assertRaisesRegex(TypeError, "an array of strings is wanted, not one of the Arrow format {}$".format(said)):
                urlcheck.check_many(Scattered(["x"], layout, dictionary))

    def test_no_arrays(self):
        """A stream without an array asks for base, profile and type as one with an empty array does."""
        for pieces in ([], [[]]):
            for call in (urlcheck.check_many, urlcheck.is_valid_many, urlcheck.resolve_many, urlcheck.mend_many):
                with self.assertRaises(urlcheck.BaseRefused):
                    call(Streamed(pieces), "no base")
                with self.assertRaisesRegex(ValueError, "no profile has the number 3"):
                    call(Streamed(pieces), None, 3)
                other = Streamed(pieces)
                other.schema.format = b"l"
                with self.assertRaisesRegex(TypeError, "an array of strings is wanted, not one of the Arrow format l"):
                    call(other)

    def test_missing_texts_that_nobody_counted(self):
        """An array may say that it doesn't know how many texts are missing, by -1: its bits say which are."""
        for texts, layout, first in ((MIXED, b"u", 0), (MIXED, b"U", 3), ([None] * 9, b"z", 0), (TEXTS, b"u", 0)):
            array, here = Handed(texts, layout, first, missing=-1), texts[first:]
            for base, profile in SETTINGS:
                self.assertEqual(tuple(map(read, urlcheck.check_many(array, base, profile))), one_by_one(here, base, profile))
            self.assertEqual(read(urlcheck.resolve_many(array)), resolved(here))
            self.assertEqual(tuple(map(read, urlcheck.mend_many(array))), mended(here))

    def refuses(self, array, said, error=ValueError):
        """Each call over the array is an error of these words."""
        for call in (urlcheck.check_many, urlcheck.is_valid_many, urlcheck.resolve_many, urlcheck.mend_many):
            with self.subTest(said=said, call=call.__name__):
                with self.assertRaises(error) as raised:
                    call(array)
                self.assertEqual(str(raised.exception), said)

    def test_sentences(self):
        for fields, said in (
            ({"length": -1}, "the array is broken: it has no length, or other buffers than strings have"),
            ({"n_buffers": 2}, "the array is broken: it has no length, or other buffers than strings have"),
            ({"release": None}, "the array is broken: it was released before"),
        ):
            array = Handed(["x"])
            for name, value in fields.items():
                setattr(array.array, name, value)
            self.refuses(array, said)
        for buffer, said in ((1, "the array is broken: it has no offsets"), (2, "the array is broken: it has no bytes")):
            array = Handed(["x"])
            array.buffers[buffer] = None
            self.refuses(array, said)
        array = Handed(["x"])
        array.schema.release = None
        self.refuses(array, "the array is broken: it was released before")
        self.refuses(Handed(["x"], layout=b"l"), "an array of strings is wanted, not one of the Arrow format l", TypeError)
        words = ctypes.create_string_buffer(b"no more")
        for fields, said in (
            ({"get_schema": Streamed.TAKE(lambda *_: 1)}, "the stream is broken: it has no schema"),
            ({"get_next": Streamed.TAKE(lambda *_: 1)}, "the stream is broken: it says not why"),
            ({"get_next": Streamed.TAKE(lambda *_: 1), "get_last_error": Streamed.SAY(lambda _: ctypes.addressof(words))},
             "the stream is broken: no more"),
            ({"release": None}, "the stream is broken: it was released before"),
        ):
            stream = Streamed([["x"]], **fields)
            # (a function of C that does nothing: one of Python's would lose the error while its schema is given back)
            stream.schema.release = ctypes.cast(ctypes.pythonapi.Py_IsInitialized, ctypes.c_void_p)
            self.refuses(stream, said)
        with self.assertRaisesRegex(ValueError, "^no format that is handed out$"):
            _native.export(("i", 0, 0, (None,), None))

    def test_older_versions_of_pyarrow(self):
        """One that hands arrays out by a method of its own only, and one that takes them by addresses only."""

        class Array(Handed):
            pass

        self.refuses(type("Exported", (), {"_export_to_c": None})(),
                     "an array that has __arrow_c_array__ is wanted, as pyarrow 14 and later give", TypeError)
        with mock.patch.dict(sys.modules, pyarrow=types.SimpleNamespace(Array=Array, ChunkedArray=Array)):
            self.refuses(Array(["x"]), "pyarrow 14 or later is wanted", TypeError)

    def test_broken_arrays(self):
        # (the row is the first that ends before it begins, or after the end of them all)
        broken = (([0, 9, 3, 9], 1), ([0, -1, 9, 9], 0), ([-5, 0, 9, 9], 0), ([9, 0, 0, 0], 0), ([0, 9, 9, 3], 0), ([0, 3, 9, 3], 1))
        for call in (urlcheck.check_many, urlcheck.is_valid_many, urlcheck.resolve_many, urlcheck.mend_many):
            for offsets, row in broken:
                said = "^the array is broken: the offsets of text {} are out of order$".format(row)
                for layout, base in ((b"u", None), (b"U", None), (b"u", "http://h/")):
                    with self.subTest(offsets=offsets, base=base), self.assertRaisesRegex(ValueError, said):
                        call(Handed(["http://h/", "", ""], layout, offsets=offsets), base)
            with self.assertRaisesRegex(ValueError, "it has no length"):
                call(Handed(["x"], count=-1))
            with self.assertRaisesRegex(TypeError, "an array of strings is wanted, not one of the Arrow format l"):
                call(Handed(["x"], layout=b"l"))
            without = Handed(["x"])
            without.buffers[2] = None
            with self.assertRaisesRegex(ValueError, "^the array is broken: it has no bytes$"):
                call(without)
            released = Handed(["x"])
            released.array.release = None
            with self.assertRaisesRegex(ValueError, "it was released before"):
                call(released)
            other = Handed(["x"])
            other.array.n_buffers = 2
            with self.assertRaisesRegex(ValueError, "other buffers than strings have"):
                call(other)

    def test_a_text_of_100_mb(self):
        text = b"http://h/" + 100_000_000 * b"a"
        found = urlcheck.check_many(Handed([text, text + b" ", None], b"U"))
        self.assertEqual(tuple(map(read, found)), ([True, False, None], [None, "code-point", None], [None, 100_000_009, None]))

    def test_bytes_that_are_no_utf8(self):
        array = Handed([b"http://h/\xc3\xbc\xff", b"http://h/"], b"z")
        self.assertEqual(tuple(map(read, urlcheck.check_many(array))), ([False, True], ["no-utf8", None], [10, None]))
        self.assertEqual(read(urlcheck.resolve_many(array)), [None, "http://h/"])

    @unittest.skipUnless(sys.version_info >= (3, 12), "interpreters have one lock")
    def test_interpreters_with_a_lock_of_their_own(self):
        """Columns are taken, handed out and given back in each of several at once."""
        try:
            import _interpreters as interpreters
        except ImportError:
            import _xxsubinterpreters as interpreters
        run = "import array, sys; sys.path[:] = {!r}; import urlcheck; from urlcheck._arrow import Column\n"
        run += "texts = Column.texts(b'http://h/x', bytearray(array.array('q', [0, 9, 10])), bytearray(2 * [1]))\n"
        run += "for _ in range(500): given = [it.__arrow_c_array__() for it in urlcheck.check_many(texts, 'http://h/')]\n"
        run += "assert len(urlcheck.resolve_many(texts)) == 2"
        failed = []

        def use():
            made = interpreters.create()
            failed.append(interpreters.run_string(made, run.format(sys.path)))
            interpreters.destroy(made)

        threads = [threading.Thread(target=use) for _ in range(4)]
        for thread in threads:
            thread.start()
        for thread in threads:
            thread.join()
        self.assertEqual(failed, 4 * [None])

    def test_answers_outlive_what_came_in(self):
        column = urlcheck.check_many(Handed(["http://h/", "x", None])).rule
        gc.collect()
        capsules = [column.__arrow_c_array__() for _ in range(3)]
        del capsules
        self.assertEqual(read(column), [None, "no-scheme", None])


@unittest.skipUnless(pyarrow, "no pyarrow")
class PyArrow(Compared):
    def test_answers(self):
        for kind in (pyarrow.string(), pyarrow.large_string()):
            whole = pyarrow.array(MIXED, kind)
            for array in (whole, whole[5:], pyarrow.chunked_array([whole[:100], whole[100:]])):
                texts = array.to_pylist()
                for base, profile in SETTINGS:
                    found = urlcheck.check_many(array, base, profile)
                    self.assertEqual(tuple(map(listed, found)), one_by_one(texts, base, profile))
                self.assertEqual(listed(urlcheck.is_valid_many(array)), one_by_one(texts)[0])
                self.assertEqual(listed(urlcheck.resolve_many(array)), resolved(texts))
                self.assertEqual(tuple(map(listed, urlcheck.mend_many(array))), mended(texts))
                found.valid.validate(full=True)
                found.rule.validate(full=True)
        none = pyarrow.chunked_array([], pyarrow.string())
        self.assertEqual(len(urlcheck.check_many(none).valid), 0)
        self.assertEqual((len(urlcheck.resolve_many(none)), *map(len, urlcheck.mend_many(none))), (0, 0, 0))
        with self.assertRaises(urlcheck.BaseRefused):
            urlcheck.check_many(none, "no base")
        for other in (pyarrow.chunked_array([], pyarrow.int64()), pyarrow.array([1]), pyarrow.table({"url": ["x"]})):
            with self.assertRaisesRegex(TypeError, "an array of strings is wanted"):
                urlcheck.check_many(other)

    def test_texts_that_are_scattered(self):
        """Texts by views and in dictionaries, whole, from a place on, and in chunks."""
        kinds = [pyarrow.dictionary(index(), text()) for index in (pyarrow.int8, pyarrow.int32) for text in (pyarrow.string, pyarrow.large_string)]
        for kind in kinds + [pyarrow.string_view()] * hasattr(pyarrow, "string_view"):
            whole = pyarrow.array(MIXED[:120]).cast(kind)
            for array in (whole, whole[5:], pyarrow.chunked_array([whole[:50], whole[50:]]), pyarrow.chunked_array([], kind)):
                texts = array.to_pylist()
                self.assertEqual(tuple(map(listed, urlcheck.check_many(array))), one_by_one(texts))
                self.assertEqual(listed(urlcheck.resolve_many(array)), resolved(texts))
                self.assertEqual(tuple(map(listed, urlcheck.mend_many(array))), mended(texts))


if __name__ == "__main__":
    unittest.main(argv=[sys.argv[0], *sys.argv[2:]])
