# SPDX-License-Identifier: Apache-2.0
"""What the parts of the tests share: comparisons, how much is tried, bytes in SQL, and the answers of the program."""
import functools
import os
import subprocess
import sys

from images import built_program, with_words
from tap import Comparisons

SEED = 9001
REASONS = "truncated family version lgk width stage preamble lgarr count coupon register".split()
QUICK = "--quick" in sys.argv
GROUPS, IMAGES, REFUSALS = (500, 5000, 1000) if QUICK else (5000, 100000, 10000)
IMAGE, ARGUMENT, NULL, CANCELLED, MEMORY, CHECKED = "22P03", "22023", "22004", "57014", "53200", "23514"
DATA, DATATYPE, UNDEFINED = "22000", "42804", "42883"
comparisons = Comparisons()
check, equal, skip = comparisons.check, comparisons.equal, comparisons.skip


def refused(name, said, code, message=""):
    """That psql said an error of this SQLSTATE, whose message begins so."""
    check(name, said.startswith("ERROR:  %s: %s" % (code, message)), said)


# ---- bytes


def literal(image):
    return "'\\x%s'::bytea" % image.hex()


def array(images):
    return "ARRAY[%s]::bytea[]" % ", ".join(map(literal, images))


def bytes_of(text):
    """The bytes of a bytea as psql prints it."""
    return bytes.fromhex(text[2:]) if text.startswith("\\x") else text


def all_bytes_of(text):
    return [bytes_of(line) for line in text.split("\n")]


def cell_of(value):
    if value is None:
        return "\\N"
    return "\\\\x" + value.hex() if isinstance(value, bytes) else str(value)


def load(server, table, rows):
    """Rows of numbers, words and bytes into a table."""
    path = server.file("rows")
    with open(path, "w") as file:
        for row in rows:
            file.write("\t".join(map(cell_of, row)) + "\n")
    server.ask("COPY %s FROM '%s'" % (table, path))
    path.unlink()


# ---- the program


@functools.lru_cache(None)
def program():
    return os.environ.get("HLL_MERGE") or built_program()


def answer_of(plan):
    """The image that the program prints for the lines of a plan, with the words that it leaves."""
    done = subprocess.run([program()], input="\n".join(plan).encode(), stdout=subprocess.PIPE, check=True)
    return with_words(bytes.fromhex(done.stdout.decode()))


def union_of(images, lg_max_k, width):
    """The image of a union, by the program."""
    return answer_of(["image " + image.hex() for image in images] + ["union %d %d %d" % (len(images), lg_max_k, width)])
