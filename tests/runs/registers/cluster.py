"""The recipes of docs/DATABASES.md for Dask and Spark: cluster.py PROGRAM. That for Dask runs on a cluster that is started
here, and what it writes is compared with `urlcheck links`. That for Spark runs in Spark where it is installed, and otherwise
its function over columns of pandas."""

import glob
import importlib.util
import os
import subprocess
import sys
import tempfile
import types
import unittest

import distributed
import pandas
from page import blocks

PROGRAM = sys.argv[1]
KINDS = ("http://host{}.example/path/{}", "http://h{}/a b{}", "https://b\u00fccher{}.example/{}?q#f", "http://x_y/{}{}", "x{}{}")


def links(count, seed):
    """Links, of which a part is wrong in ways that come again."""
    return [KINDS[0 if it % 10 else it // 10 % 5].format(it, it) for it in range(seed, seed + count)]


def refused(lines):
    """What the program says of the links that it refuses, in the words of the recipe for Dask."""
    data = "".join(line + "\n" for line in lines).encode()
    ran = subprocess.run([PROGRAM, "links"], input=data, stdout=subprocess.PIPE, check=False)
    said = [line.split() for line in ran.stdout.decode().splitlines()]
    return ["{} {} {}".format(it[3], it[2], lines[int(it[0]) - 1]) for it in said if it[1] == "bad"]


class Recipes(unittest.TestCase):
    def setUp(self):
        room = tempfile.TemporaryDirectory()
        self.addCleanup(room.cleanup)
        self.room = room.name

    def write(self, name, data):
        with open(os.path.join(self.room, name), "wb") as file:
            file.write(data)

    def run_recipe(self, size, folder="refused"):
        """Runs the recipe, whose parts have that size in place of its own, on a cluster of two workers."""
        program = blocks("../DATABASES", "Dask", "python")
        self.assertEqual(program.count('blocksize="64MB"'), 1)
        self.write("recipe.py", program.replace('blocksize="64MB"', "blocksize={}".format(size)).encode())
        with distributed.LocalCluster(n_workers=2, threads_per_worker=1, dashboard_address=None) as cluster:
            words = ["recipe.py", cluster.scheduler_address, "*.links", folder]
            return subprocess.run([sys.executable, *words], cwd=self.room, capture_output=True, text=True, check=False)

    def test_dask(self):
        """Lists that are cut into parts: of lines of each end, and a last line without one."""
        lists = [links(20_000, 0), links(30_000, 7), [*links(50, 3), "", "http://h/a\u00e9 b"]]
        for number, (lines, end) in enumerate(zip(lists, ("\n", "\r\n", "\n"))):
            data = "".join(line + end for line in lines).encode()
            self.write("{}.links".format(number), data[: -len(end)] if number == 2 else data)
        ran = self.run_recipe(200_000)
        self.assertEqual(ran.returncode, 0, ran.stderr)
        parts = sorted(glob.glob(os.path.join(self.room, "refused", "*.part")))
        self.assertGreater(len(parts), 6)
        found = []
        for part in parts:
            with open(part, encoding="utf-8") as file:
                found += file.read().splitlines()
        wanted = [line for lines in lists for line in refused(lines)]
        self.assertGreater(len(wanted), 2_000)
        self.assertEqual(sorted(found), sorted(wanted))

    def test_dask_on_what_is_not_utf8(self):
        self.write("a.links", b"http://h/\xff\n")
        ran = self.run_recipe(300_000)
        self.assertEqual((ran.returncode, "UnicodeDecodeError" in ran.stderr), (1, True), ran.stderr)

    def check_spark(self, function):
        """What a function over columns of pandas says of each link is what the program says."""
        lines = [*links(3_000, 1), "http://h/a b"]
        found = function(pandas.Series(lines))
        self.assertEqual(list(found.columns), ["valid", "rule", "place"])
        said = ["{} {} {}".format(it.rule, it.place, line) for line, it in zip(lines, found.itertuples()) if not it.valid]
        self.assertEqual(said, refused(lines))

    @unittest.skipIf(importlib.util.find_spec("pyspark"), "Spark is installed")
    def test_the_function_for_spark(self):
        """Without Spark what it would give the function is given, and what it would take is looked at."""
        modules = [types.ModuleType(name) for name in ("pyspark", "pyspark.sql", "pyspark.sql.functions")]
        asked = []
        modules[2].pandas_udf = lambda schema: asked.append(schema) or (lambda function: function)
        for module in modules:
            self.addCleanup(sys.modules.pop, module.__name__)
            sys.modules[module.__name__] = module
        names = {}
        exec(compile(blocks("../DATABASES", "Spark", "python"), "DATABASES.md", "exec"), names)
        self.assertEqual(asked, ["valid boolean, rule string, place long"])
        self.check_spark(names["check"])

    @unittest.skipUnless(importlib.util.find_spec("pyspark"), "no Spark")
    def test_spark(self):
        """In Spark, on this machine: the rows that the page's filter leaves."""
        from pyspark.sql import SparkSession

        names = {}
        exec(compile(blocks("../DATABASES", "Spark", "python"), "DATABASES.md", "exec"), names)
        lines = links(3_000, 1)
        session = SparkSession.builder.master("local[2]").getOrCreate()
        self.addCleanup(session.stop)
        table = session.createDataFrame(pandas.DataFrame({"url": lines}))
        rows = table.select("url", names["check"]("url").alias("found")).filter("not found.valid").collect()
        said = ["{} {} {}".format(it.found.rule, it.found.place, it.url) for it in rows]
        self.assertEqual(sorted(said), sorted(refused(lines)))


if __name__ == "__main__":
    unittest.main(argv=sys.argv[:1])
