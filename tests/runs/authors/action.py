"""Runs the steps of action.yml, as a runner of GitHub does, over a release in a folder: action.py PACKAGE, which is the folder of
the Python package that tools/build-library wrote. It ends with 1 where something is wrong."""

import hashlib
import os
import re
import subprocess
import sys
import tempfile
from typing import Any, Dict

import yaml

TOP = os.path.join(os.path.dirname(os.path.abspath(__file__)), "..", "..", "..")
BUILD = "import sys; sys.path.insert(0, '.'); import wheel_backend; print(wheel_backend.build_wheel(sys.argv[1]))"
_INPUT = re.compile(r"\$\{\{ inputs\.([a-z]+) \}\}")


def released(package: str, folder: str) -> str:
    """A release in a folder, with the wheel of the package. Gives its address."""
    os.mkdir(folder)
    words = [sys.executable, "-B", "-c", BUILD, folder]
    wheel = subprocess.run(words, cwd=package, stdout=subprocess.PIPE, check=True).stdout.decode().strip()
    with open(os.path.join(folder, wheel), "rb") as file:
        digest = hashlib.sha256(file.read()).hexdigest()
    with open(os.path.join(folder, "SHA256SUMS"), "w", encoding="utf-8") as file:
        file.write("{}  {}\n{}  urlcheck-0-other.tar.gz\n".format(digest, wheel, "0" * 64))
    return "file://" + folder


def elsewhere(room: str) -> str:
    """A folder with a command `uname` of a Mac."""
    folder = os.path.join(room, "mac")
    os.mkdir(folder)
    with open(os.path.join(folder, "uname"), "w", encoding="utf-8") as file:
        file.write('#!/bin/sh\ncase $1 in -s) echo Darwin ;; *) echo x86_64 ;; esac\n')
    os.chmod(file.name, 0o755)
    return folder


def ran(
    step: Dict[str, Any], inputs: Dict[str, str], folder: str, room: str, first_on_path: str = ""
) -> "subprocess.CompletedProcess[str]":
    """A step of the action, by the shell of a runner in a folder."""
    assert step["shell"] == "bash" and "${{" not in step["run"], step
    given = {name: _INPUT.sub(lambda it: inputs[it[1]], value) for name, value in step["env"].items()}
    script = os.path.join(room, "step.sh")
    with open(script, "w", encoding="utf-8") as file:
        file.write(step["run"])
    words = ["bash", "--noprofile", "--norc", "-eo", "pipefail", script]
    environment = {**os.environ, **given, "RUNNER_TEMP": room}
    environment.pop("PYTHONPATH", None)
    environment["PATH"] = first_on_path + os.pathsep * bool(first_on_path) + environment["PATH"]
    return subprocess.run(words, cwd=folder, env=environment, capture_output=True, text=True, check=False)


def main() -> None:
    """Runs the action on a page that is right, on one that isn't, and with a wheel that isn't the release's."""
    with open(os.path.join(TOP, "action.yml"), encoding="utf-8") as file:
        text = file.read()
    action = yaml.safe_load(text)
    declared = action["inputs"]
    if set(_INPUT.findall(text)) != set(declared) or not all(it["description"] for it in declared.values()):
        sys.exit("FAILED: action.yml declares other inputs than its steps have: {}".format(sorted(declared)))
    defaults = {name: it.get("default", "") for name, it in declared.items()}
    with tempfile.TemporaryDirectory() as room:
        release = released(sys.argv[1], os.path.join(room, "release"))
        page = os.path.join(room, "my", "site", "a.html")
        os.makedirs(os.path.dirname(page))
        # (what reads further kinds of documents would be fetched)
        inputs = {**defaults, "release": release, "extras": ""}
        error = "::error file=site/a.html,line=1,col=11,title=code-point::U+0020 SPACE is not allowed in a URL"
        get, check = action["runs"]["steps"]
        got = ran(get, inputs, room, room)
        if got.returncode:
            sys.exit("FAILED: action.yml gets no program: {}".format(got))
        for link, files, options, wanted, said in (
            ("x", ".", "--gfm", 0, ""), ("x y", ".", "--gfm", 1, error), ("x y", "site\nno", "", 2, error),
            ("x y", " site ", "--ignore\ncode-point --no-config", 0, ""),
        ):
            with open(page, "w", encoding="utf-8") as file:
                file.write("<a href='{}'>".format(link))
            checked = ran(check, {**inputs, "files": files, "options": options}, os.path.join(room, "my"), room)
            if checked.returncode != wanted or error in checked.stdout and not said or said not in checked.stdout:
                sys.exit("FAILED: action.yml on {} with {}: {}".format(files.split(), options.split(), checked))
        got = ran(get, inputs, room, room, elsewhere(room))
        if got.returncode != 2 or "has no wheel for Darwin-x86_64;" not in got.stdout:
            sys.exit("FAILED: action.yml says nothing of a machine without a wheel: {}".format(got))
        with open(os.path.join(room, "release", "SHA256SUMS"), "r+", encoding="utf-8") as file:
            sums = file.read()
            file.seek(0)
            file.write(("1" if sums[0] == "0" else "0") + sums[1:])
        got = ran(get, inputs, room, room)
        if got.returncode != 1 or "FAILED" not in got.stdout:
            sys.exit("FAILED: action.yml takes a wheel that isn't that of the release: {}".format(got))
    print("authors: the steps of action.yml, on 4 folders, with a wheel of another release and with none")


if __name__ == "__main__":
    main()
