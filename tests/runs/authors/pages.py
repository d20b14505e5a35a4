"""Runs the commands of README.md, docs/START.md and docs/guides that are in blocks of `shell-session`, and compares what they
print: pages.py PROGRAM, the program `urlcheck`. What a block names that isn't installed is left out, and a line says so. The
package is on PYTHONPATH."""

import glob
import importlib.util
import os
import re
import shutil
import subprocess
import sys
import tempfile

TOP = os.path.join(os.path.dirname(os.path.abspath(__file__)), "..", "..", "..")
PRELUDE = """
urlcheck-documents() {{ "{0}" -m urlcheck.documents "$@"; }}
sphinx-build() {{ "{0}" -m sphinx "$@"; }}
mkdocs() {{ "{0}" -m mkdocs "$@"; }}
python3() {{ "{0}" "$@"; }}
urlcheck() {{ "{1}" "$@"; }}
"""
MODULES = {"sphinx-build": "sphinx", "mkdocs": "mkdocs", ".md": "markdown_it", ".ipynb": "markdown_it", ".rst": "docutils"}


def missing(block, program):
    """What a block needs that isn't installed."""
    modules = [module for word, module in MODULES.items() if word in block and importlib.util.find_spec(module) is None]
    tools = [tool for tool in ("asciidoctor",) if tool in block and shutil.which(tool) is None]
    return modules + tools + ["urlcheck"] * ("urlcheck lint" in block and not os.access(program, os.X_OK))


def blocks_of_pages():
    """The blocks of the pages, each with its page."""
    found = []
    named = (os.path.join(TOP, "README.md"), os.path.join(TOP, "docs", "START.md"))
    for path in [*named, *sorted(glob.glob(os.path.join(TOP, "docs", "guides", "*.md")))]:
        with open(path, encoding="utf-8") as page:
            blocks = re.findall(r"^```shell-session\n(.*?)^```$", page.read(), re.M | re.S)
        found += [(os.path.basename(path), block) for block in blocks]
    return found


def main():
    program = os.path.abspath(sys.argv[1])
    tried = 0
    for name, block in blocks_of_pages():
        lacking = missing(block, program)
        if lacking:
            print("authors: commands of {} left out, since {} isn't installed".format(name, lacking[0]))
            continue
        commands = re.findall(r"^\$ (.*)\n((?:(?!\$ ).*\n)*)", block, re.M)
        with tempfile.TemporaryDirectory() as room:
            script = PRELUDE.format(sys.executable, program) + "".join("{}\necho '<end>'\n".format(it) for it, _ in commands)
            ran = subprocess.run(["bash", "-c", script], cwd=room, stdout=subprocess.PIPE, stderr=subprocess.PIPE, check=False)
        printed = ran.stdout.decode().split("<end>\n")
        for (command, wanted), given in zip(commands, printed):
            if given != wanted:
                said = ran.stderr.decode()
                sys.exit("FAILED: {}: {}\nprinted: {}\nand not: {}\n{}".format(name, command, given, wanted, said))
            tried += 1
    print("authors: {} commands of README.md, docs/START.md and docs/guides".format(tried))


if __name__ == "__main__":
    main()
