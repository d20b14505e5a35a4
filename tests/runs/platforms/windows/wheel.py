"""windows/wheel.py WHEEL: whether a wheel has what its list says, and what its name says of it."""

import base64
import csv
import hashlib
import io
import os
import sys
import zipfile
from email.message import Message
from email.parser import Parser


def digest(data: bytes) -> str:
    """The checksum of a file, as a list of a wheel has it."""
    return "sha256=" + base64.urlsafe_b64encode(hashlib.sha256(data).digest()).decode().rstrip("=")


def listed(wheel: zipfile.ZipFile, record: str) -> "dict[str, tuple[str, str]]":
    """What the list says of each file: its checksum and its length."""
    rows = list(csv.reader(io.StringIO(wheel.read(record).decode())))
    found = {name: (checksum, length) for name, checksum, length in rows}
    if len(found) != len(rows):
        sys.exit("FAILED: a file is listed twice")
    return found


def headers(wheel: zipfile.ZipFile, name: str) -> Message:
    """The words of a file of the wheel's own folder."""
    return Parser().parsestr(wheel.read(name).decode())


def main() -> None:
    """Looks at the wheel."""
    name, version, *tag = os.path.basename(sys.argv[1])[: -len(".whl")].split("-")
    about = "{}-{}.dist-info/".format(name, version)
    with zipfile.ZipFile(sys.argv[1]) as wheel:
        names = wheel.namelist()
        wanted = {it: (digest(wheel.read(it)), str(len(wheel.read(it)))) for it in names}
        wanted[about + "RECORD"] = ("", "")
        if listed(wheel, about + "RECORD") != wanted or len(set(names)) != len(names):
            sys.exit("FAILED: its files aren't those of its list")
        said, metadata = headers(wheel, about + "WHEEL"), headers(wheel, about + "METADATA")
        if said["Tag"] != "-".join(tag) or said["Root-Is-Purelib"] != "false":
            sys.exit("FAILED: it is for another system than its name says")
        if (metadata["Name"], metadata["Version"]) != (name, version):
            sys.exit("FAILED: it has another name or version than it says")
        program = "urlcheck-{}.data/scripts/urlcheck.exe".format(version)
        for needed in ("urlcheck/_native.pyd", program, about + "entry_points.txt"):
            if needed not in names:
                sys.exit("FAILED: it hasn't {}".format(needed))


if __name__ == "__main__":
    main()
