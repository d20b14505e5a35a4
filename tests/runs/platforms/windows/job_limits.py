"""windows/job_limits.py SECONDS: by which bytes the Python package limits a job on Windows to so much processor time."""

import importlib.util
import os
import sys

TOP = os.path.join(os.path.dirname(os.path.abspath(__file__)), *[".."] * 4)
FILE = os.path.join(TOP, "bindings", "python", "urlcheck", "_documents", "limits.py")


def main() -> None:
    """Writes them. (The package itself needs its extension module.)"""
    spec = importlib.util.spec_from_file_location("limits", FILE)
    assert spec is not None and spec.loader is not None
    limits = importlib.util.module_from_spec(spec)
    spec.loader.exec_module(limits)
    sys.stdout.buffer.write(limits.job_limits(float(sys.argv[1])))


if __name__ == "__main__":
    main()
