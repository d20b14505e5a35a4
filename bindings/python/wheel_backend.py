"""Builds the wheel of the package, and an archive of what it is built from (PEP 517), with the standard library, so
that installing it needs no network.

The folder is what tools/build-library writes: next to pyproject.toml are VERSION, PLATFORM (the tag of the systems on
which the extension module runs), the licences, and the package with that module, which the archive has too. If there
is a folder `bin`, the programs in it are installed with the package, as in a release's wheel. Two builds give the
same bytes.
"""

import base64
import glob
import gzip
import hashlib
import io
import os
import re
import stat
import tarfile
import time
import zipfile

NAME = "urlcheck"
PROGRAMS = "bin"
TABLE = "pyproject.toml"


def _text(path):
    """What a file says, without its last line feed."""
    if not os.path.exists(path):
        raise FileNotFoundError(path + " is missing: run tools/build-library DIR, and install DIR/python")
    with open(path, encoding="utf-8") as file:
        return file.read().rstrip("\n")


def _project(pattern):
    """A text of the project's table."""
    return re.search("^" + pattern, _text(TABLE), re.M).group(1)


def _lines(table):
    """The names and the values of a table of the project, each on a line of its own."""
    found = re.search(r"^\[project\.{}\]\n((?:.+\n)*)".format(re.escape(table)), _text(TABLE) + "\n", re.M)
    return [line.split(" = ", 1) for line in found.group(1).splitlines()]


def _extras():
    """What the metadata says of each extra."""
    lines = []
    for name, value in _lines("optional-dependencies"):
        lines.append("Provides-Extra: " + name)
        for needed in re.findall('"(.*?)"', value):
            package, _, marker = needed.partition("; ")
            condition = 'extra == "{}"'.format(name)
            condition = "{} and {}".format(marker, condition) if marker else condition
            lines.append("Requires-Dist: {}; {}".format(package, condition))
    return lines


def _entry_points():
    """The programs and the plugins, as an installer reads them."""
    groups = [("console_scripts", "scripts"), ("mkdocs.plugins", 'entry-points."mkdocs.plugins"')]
    text = ""
    for group, table in groups:
        text += "[{}]\n".format(group)
        text += "".join("{} = {}\n".format(name, value.strip('"')) for name, value in _lines(table))
        text += "\n"
    return text.rstrip("\n") + "\n"


def _licences():
    """The files with the terms, if they are here."""
    return sorted(glob.glob("LICENSE*") + glob.glob("NOTICE"))


def _listed(name):
    """The texts of a list of the project's table, whether on one line or on several."""
    found = re.search(r"^{} = \[(.*?)\]$".format(name), _text(TABLE), re.M | re.S)
    return re.findall('"(.*?)"', found.group(1))


def _metadata():
    """The metadata of the package (core metadata 2.1, which the tools of older systems read too), with its
    README.md."""
    author = '"(.*)", email = "(.*)"'
    name, email = re.search("^authors = .*name = " + author, _text(TABLE), re.M).groups()
    lines = [
        "Metadata-Version: 2.1",
        "Name: " + NAME,
        "Version: " + _text("VERSION"),
        "Summary: " + _project('description = "(.*)"'),
        'Author-email: "{}" <{}>'.format(name, email),
        "License: " + _project('license = "(.*)"'),
        "Keywords: " + ",".join(_listed("keywords")),
    ]
    lines += ["Classifier: " + it for it in _listed("classifiers")]
    lines += ["License-File: " + file for file in _licences()]
    lines += ["Requires-Python: " + _project('requires-python = "(.*)"')]
    lines += _extras()
    lines += ["Description-Content-Type: text/markdown; charset=UTF-8; variant=CommonMark", ""]
    lines += [_text(_project('readme = "(.*)"'))]
    return "\n".join(lines) + "\n"


def _folder():
    """The folder of the metadata."""
    return "{}-{}.dist-info".format(NAME, _text("VERSION"))


def write_about(directory):
    """Writes the metadata into the directory, for an installation without pip, and gives the name of its folder."""
    folder = os.path.join(directory, _folder())
    os.makedirs(folder, exist_ok=True)
    with open(os.path.join(folder, "METADATA"), "w", encoding="utf-8") as file:
        file.write(_metadata())
    with open(os.path.join(folder, "entry_points.txt"), "w", encoding="utf-8") as file:
        file.write(_entry_points())
    return os.path.basename(folder)


def prepare_metadata_for_build_wheel(metadata_directory, config_settings=None):
    """The hook of PEP 517."""
    return write_about(metadata_directory)


def _module():
    """The file of the extension module, as Python calls it there."""
    return "_native.pyd" if _text("PLATFORM").startswith("win") else "_native.abi3.so"


def _scripts():
    """The folder of the wheel whose files become programs on the path."""
    return "{}-{}.data/scripts/".format(NAME, _text("VERSION"))


def _held(folder, within):
    """The files of a folder and of those in it, by their names within the wheel; what Python compiled is left out."""
    files = {}
    for name in sorted(os.listdir(folder)):
        path = os.path.join(folder, name)
        if os.path.isfile(path):
            with open(path, "rb") as file:
                files[within + name] = file.read()
        elif name != "__pycache__":
            files.update(_held(path, within + name + "/"))
    return files


def _files(tag):
    """What the wheel holds, by its names."""
    files = _held(NAME, NAME + "/")
    if os.path.isdir(PROGRAMS):
        files.update(_held(PROGRAMS, _scripts()))
    if NAME + "/" + _module() not in files:
        raise FileNotFoundError(_module() + " is missing: run tools/build-library DIR, and install DIR/python")
    files[_folder() + "/METADATA"] = _metadata().encode()
    for name in _licences():
        files[_folder() + "/licenses/" + name] = (_text(name) + "\n").encode()
    files[_folder() + "/entry_points.txt"] = _entry_points().encode()
    kind = "Wheel-Version: 1.0\nGenerator: wheel_backend\nRoot-Is-Purelib: false\nTag: {}\n"
    files[_folder() + "/WHEEL"] = kind.format(tag).encode()
    return files


def _sources():
    """What the archive holds, by its names within its folder."""
    names = [TABLE, "wheel_backend.py", _project('readme = "(.*)"'), "VERSION", "PLATFORM", *_licences()]
    files = {"PKG-INFO": _metadata().encode()}
    for name in names:
        with open(name, "rb") as file:
            files[name] = file.read()
    files.update(_held(NAME, NAME + "/"))
    if os.path.isdir(PROGRAMS):
        files.update(_held(PROGRAMS, PROGRAMS + "/"))
    return files


def _digest(data):
    """The hash of a file as a wheel's RECORD has it (PEP 376): SHA-256 in base64 for URLs, without its padding."""
    return base64.urlsafe_b64encode(hashlib.sha256(data).digest()).rstrip(b"=").decode()


def _seconds():
    """The time of each file that is written: SOURCE_DATE_EPOCH, or the first that a zip file can hold."""
    return max(int(os.environ.get("SOURCE_DATE_EPOCH", "315532800")), 315532800)


def build_wheel(wheel_directory, config_settings=None, metadata_directory=None):
    """Writes the wheel into the folder, and gives its name."""
    tag = "cp38-abi3-" + _text("PLATFORM")
    files = _files(tag)
    record = _folder() + "/RECORD"
    lines = ["{},sha256={},{}".format(name, _digest(data), len(data)) for name, data in files.items()]
    files[record] = "".join(line + "\n" for line in lines + [record + ",,"]).encode()
    wheel = "{}-{}-{}.whl".format(NAME, _text("VERSION"), tag)
    with zipfile.ZipFile(os.path.join(wheel_directory, wheel), "w", zipfile.ZIP_DEFLATED) as out:
        for name, data in files.items():
            entry = zipfile.ZipInfo(name, time.gmtime(_seconds())[:6])
            entry.compress_type = zipfile.ZIP_DEFLATED
            # (an installer makes a script executable if its mode says so, as the mode of a regular file does)
            entry.external_attr = (stat.S_IFREG | (0o755 if name.startswith(_scripts()) else 0o644)) << 16
            out.writestr(entry, data)
    return wheel


def build_sdist(sdist_directory, config_settings=None):
    """Writes the archive into the folder, and gives its name."""
    base = "{}-{}".format(NAME, _text("VERSION"))
    path = os.path.join(sdist_directory, base + ".tar.gz")
    with open(path, "wb") as file, gzip.GzipFile("", "wb", fileobj=file, mtime=_seconds()) as packed:
        with tarfile.open(fileobj=packed, mode="w", format=tarfile.PAX_FORMAT) as out:
            for name, data in sorted(_sources().items()):
                entry = tarfile.TarInfo(base + "/" + name)
                entry.size, entry.mtime = len(data), _seconds()
                entry.mode = 0o755 if name.startswith(PROGRAMS + "/") else 0o644
                out.addfile(entry, io.BytesIO(data))
    return os.path.basename(path)
