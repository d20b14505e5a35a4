"""Compares answers, as tests/runs/library/answers.c gives them, with what the vectors want, each under its own profile.

    vectors.py ANSWERS VECTORS..
"""

import pathlib
import sys

sys.path.insert(0, str(pathlib.Path(__file__).resolve().parents[1] / "library"))
from cases import PROFILES, answered, cases_of, is_wanted  # noqa: E402  (it is beside, and no package)

cases = cases_of(sys.argv[2:])
lines = open(sys.argv[1], encoding="utf-8", newline="\n").read().split("\n")[:-1]
asked = [(case, profile) for case in cases for profile in PROFILES]
wanted = sum(case[2] is not None for case in cases)
bad = [one for one, line in zip(asked, lines) if not is_wanted(one[0][2], one[1], answered(line))]
for one in bad[:20]:
    print("FAILED:", one)
said = "languages: {} cases in three profiles, {} of them of the vectors, {} answered otherwise"
print(said.format(len(cases), wanted, len(bad)))
sys.exit(0 if not bad and len(lines) == len(asked) and wanted > 4000 else 1)
