# SPDX-License-Identifier: Apache-2.0
"""Tests of the extension in build/, as TAP: tests.py [WORD ..] runs all, or those with a word in their names.

Images are compared with the plain model and hash of bench/ and bindings/postgresql/tests/images.py, which share no code
with the library, and with the Python package.
"""
import pathlib
import sys
import warnings

sys.dont_write_bytecode = True
HERE = pathlib.Path(__file__).resolve().parent
BINDINGS = HERE.parent.parent
sys.path[:0] = [str(path) for path in (HERE, BINDINGS / "postgresql" / "tests", BINDINGS / "python", BINDINGS / "python" / "tests")]

import attack  # noqa: E402
import groups  # noqa: E402
import memory  # noqa: E402
import shell  # noqa: E402
import single  # noqa: E402
import values  # noqa: E402
from report import comparisons  # noqa: E402
from tap import Tap, run_part  # noqa: E402

PARTS = [shell.build, single.worked_rows, single.functions, single.estimates, single.one_more, single.arguments, single.reasons, single.version, values.behaviour, values.types,
         values.many, values.encodings, values.life_zero, values.life_json, groups.unions, groups.words, groups.added, groups.growth, groups.lg_k, groups.sizes, groups.large,
         groups.nulls, groups.options, groups.rows, groups.counts, groups.windows, groups.databases, attack.mutants, attack.interrupts, attack.schemas,
         memory.limits, memory.refusals, shell.both_codes, shell.old_processor, shell.readme, shell.checked, shell.installed]


def main():
    warnings.simplefilter("ignore")     # the Python package may warn where a bound lowers a union
    results = Tap(sys.argv[1:])
    for part in PARTS:
        run_part(results, comparisons, "%s.%s" % (part.__module__, part.__name__), part)
    return results.finish()


if __name__ == "__main__":
    sys.exit(main())
