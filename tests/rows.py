# SPDX-License-Identifier: Apache-2.0
"""Rows: plans with their answers (docs/PLAN.md, "Rows"). Worked rows are those of the crate `hll_vectors`; walks are made by
walks.py, where they are first needed."""
import hashlib
import pathlib
import re
import subprocess
import sys

ROOT = pathlib.Path(__file__).resolve().parent.parent
WORKED = ROOT / "crates" / "hll_vectors" / "stdin"
WALKS = ROOT / "tests" / "walks.txt"
WALKS_SUM = ROOT / "tests" / "walks.sha256"


def sum_of(text):
    """The line of WALKS_SUM for this text of the walks."""
    return "%s  %s\n" % (hashlib.sha256(text).hexdigest(), WALKS.name)


def texts():
    """The files of all rows. The walks are made if they are not those of the checksum."""
    if not WALKS.exists() or sum_of(WALKS.read_bytes()) != WALKS_SUM.read_text():
        subprocess.run([sys.executable, ROOT / "tests" / "walks.py"], check=True)
    return WORKED, WALKS


def unescaped(line):
    return re.sub(rb"\\([0-9a-fA-F]{2})", lambda digits: bytes.fromhex(digits[1].decode()), line)


def rows_in(path):
    """The plan of each row of a text, the mark of its answer (`=`, `+` or `!`), and the answer without it."""
    for block in path.read_bytes().split(b"\n\n"):
        lines = [line for line in block.split(b"\n") if line and not line.startswith(b"//")]
        if lines:
            plan, answer = b"\n".join(map(unescaped, lines[:-1])), lines[-1].decode()
            yield plan, answer[0], answer[2:]
