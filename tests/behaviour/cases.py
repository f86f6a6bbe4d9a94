#!/usr/bin/env python3
# SPDX-License-Identifier: Apache-2.0
"""Reads the table of behaviour, which every binding runs, and compares what a binding answers.

    tests/behaviour/cases.py BINDING                prints the cases of a binding, one a line: CALL ARGUMENTS, with a tab between them
    tests/behaviour/cases.py BINDING -              compares the answers on standard input, a line for each case, with the table
    tests/behaviour/cases.py BINDING COMMAND ..     runs a command, which reads the cases and prints the answers, and compares these
    tests/behaviour/cases.py check                  checks the table itself, FORMAT's table of values, and that each binding has its tests

values.txt says what the lines of the table mean. A binding doesn't see the results of the table. It answers each case in turn, so a
case that it leaves out is a failure.
"""
import collections
import itertools
import pathlib
import re
import subprocess
import sys

HERE = pathlib.Path(__file__).resolve().parent
TOP = HERE.parent.parent
FILES = ["values.txt", "images.txt", "merges.txt", "words.txt"]
BINDINGS = ["c", "cpp", "rust", "go", "python", "javascript", "postgresql", "sqlite", "hll"]
RESULT = r"[0-9a-f]{8,}|missing|rejected(: .+)?"
Case = collections.namedtuple("Case", "call arguments result")
"""`arguments` are bytes for text, bytes and UUIDs, and else the text of the table. `result` is the text of the table."""


def value_of(call, written):
    if call == "text":
        return re.sub(rb"\\x(..)", lambda it: bytes.fromhex(it[1].decode()), written.encode())
    return bytes.fromhex(written) if call in ("bytes", "uuid") else written


def lines_of(name):
    return [line.split("\t") for line in (HERE / name).read_text().splitlines() if line and not line.startswith("#")]


def lines():
    return [line for name in FILES for line in lines_of(name)]


def cases(binding, *names):
    """Returns the cases of a binding: of all files, or of some."""
    found, lacking = [], set()
    for first, second, third, *why in itertools.chain(*map(lines_of, names or FILES)):
        if first == "!":
            lacking |= set(third.split()) if binding in second.split(",") else set()
        elif first:
            found.append([first, second, third])
        elif binding in second.split(","):
            found[-1][2] = third
    return [Case(call, value_of(call, written), result) for call, written, result in found if call not in lacking and result != "-"]


def printed(case):
    """A case as a binding reads it."""
    return "%s\t%s" % (case.call, case.arguments.hex() if isinstance(case.arguments, bytes) else case.arguments)


def is_right(case, answer):
    """Whether an answer is the result. A rejection has each word of the table, which are separated by ` .. `."""
    if not case.result.startswith("rejected"):
        return answer == case.result
    words = case.result.partition(": ")[2].split(" .. ")
    return answer.startswith("rejected") and all(re.search(r"(?<![0-9])%s(?![0-9])" % re.escape(word), answer, re.I) for word in words)


def faults(binding, answers, *names):
    """Returns what is wrong with the answers of a binding to its cases."""
    mine, answers = cases(binding, *names), list(answers)
    found = ["%s\n    is %.300s\n    and not %s" % (printed(case), answer, case.result)
             for case, answer in zip(mine, answers) if not is_right(case, answer)]
    if len(answers) != len(mine):
        found.append("%d answers to %d cases of %s" % (len(answers), len(mine), binding))
    return found


def compare(binding, answers):
    """Prints what is wrong with answers, and how many are right."""
    found, count = faults(binding, answers), len(cases(binding))
    print("".join(fault + "\n" for fault in found) + "%d passed, %d failed" % (count - min(len(found), count), len(found)))
    return 1 if found else 0


# ---- the table itself


def faults_of(fields, calls):
    """What is wrong with a line of the table."""
    first, second, third, *why = fields
    if first == "!":
        yield from ("no case has the call %s" % call for call in third.split() if call not in calls)
    elif first:
        yield from ["%s is not a result" % third] * (not re.fullmatch(RESULT, third))
    else:
        yield from ["%s is not a result" % third] * (not re.fullmatch(RESULT + "|-", third))
    if first in ("!", ""):
        yield from ("%s is not a binding" % name for name in second.split(",") if name not in BINDINGS)
    yield from ["it has to say why, and nothing after that"] * (len(why) != (first in ("", "!")))


def texts_of_tests(binding):
    """The texts of a binding's tests."""
    place = TOP / "bindings" / ("python" if binding == "hll" else binding)
    files = [*place.glob("check"), *place.glob("tests/*.*"), *place.glob("*_test.*")]
    return [file.read_text() for file in files]


def runs_it(binding):
    """Whether a test of the binding names its cases."""
    return any(re.search(r"""(cases|faults)\(['"]%s['"]|cases\.py %s\b|"%s", "-"[\])]""" % ((binding,) * 3), text) for text in texts_of_tests(binding))


LIFE = {"c": r"void life_%s\(", "cpp": r"void life_%s\(", "rust": r"fn life_%s\(", "go": r"(?i)func TestLife_?%s\(", "python": r"def test_life_%s\(",
        "javascript": r'test\("life: %s"', "postgresql": r"def life_%s\(", "sqlite": r"def life_%s\(", "hll": r"def test_life_%s_of_files\("}
"""What a test of life.txt is named in each binding."""


ROWS = {"bytes": "bytes", "text": "text", "an integer": "integer", "a real number": "real", "true, false": "boolean", "a date": "date", "a time": "time",
        "a UUID": "uuid"}
"""The first cells of FORMAT's table of values, with the types of values.txt."""


def documented():
    """Returns the rows of FORMAT's table of values by their type: the cells after the first two."""
    section = (TOP / "docs/FORMAT.md").read_text().partition("\n## What values are hashed as\n")[2].partition("\n## ")[0]
    rows = [[cell.strip() for cell in line.strip("|").split(" | ")] for line in section.splitlines() if line.startswith("| ")]
    return {ROWS[first]: more for first, _, *more in rows if first in ROWS}


def faults_of_format():
    """Where FORMAT's table of values and values.txt differ: a row for each type that every binding counts by its bytes, an example
    whose bytes have the coupon of the table, and where Python or SQL differ, the reason or what to pass instead."""
    from plain_hash import coupon_of

    rows, kind = documented(), ""
    coupons = {(first, second): third for first, second, third, *_ in lines_of("values.txt")}
    yield from ("FORMAT.md has no row of the type %s" % it for it in ROWS.values() if it not in rows)
    for it, (example, *_) in rows.items():
        found = re.fullmatch("`(.*)`: `([0-9a-f]+)`", example)
        if not found or coupons.get((it, found[1])) != "%08x" % coupon_of(bytes.fromhex(found[2])):
            yield "FORMAT.md: %s is no value of values.txt with these bytes" % example
    for first, second, third, *why in lines_of("values.txt"):
        kind = first or kind
        for name, cell in zip(("python", "postgresql", "sqlite"), rows.get(kind, [""])[1:]):
            if not first and name in second.split(",") and not (why[0] in cell or third.startswith("rejected: ") and third[10:] in cell):
                yield "FORMAT.md: the cell of %s in the row of the type %s doesn't say: %s" % (name, kind, why[0])


def plainly(image):
    """What the plain reader makes of an image, without the estimator fields and the flag that belongs to them; or the reason."""
    from plain_reader import answer

    word, made = answer(bytes.fromhex(image))
    is_registers = len(made) > 2 and made[2] == 0
    return word, made[:3] + made[28:] if is_registers else made


def faults_of_images():
    """Images of images.txt whose result is not what the plain reader makes of them, which shares no code with the library."""
    for call, image, result in (line for line in lines_of("images.txt") if line[0] in ("whole", "first") and line[2] != "rejected: trailing"):
        word, made = plainly(image)
        if result.startswith("rejected") and result != "rejected: " + word or not result.startswith("rejected") and plainly(result) != (word, made):
            yield "images.txt: %s %s: the plain reader says %s" % (call, image, word)


def lives():
    """Returns the names of life.txt, with the bindings that don't have each, and why."""
    found = {}
    for first, second, *why in lines_of("life.txt"):
        if first:
            found[first] = {}
        else:
            last = list(found)[-1]
            found[last].update((binding, why) for binding in second.split(","))
    return found


def faults_of_lives():
    """Names of life.txt without a test, and others that it says have none."""
    for name, lacking in lives().items():
        yield from ("life.txt: %s: %s is not a binding, or the line says no reason" % (name, it) for it, why in lacking.items() if it not in BINDINGS or len(why) != 1)
        for binding in BINDINGS:
            has = any(re.search(LIFE[binding] % name, text) for text in texts_of_tests(binding))
            if has == (binding in lacking):
                yield "life.txt: %s has %s test of the name `%s`" % (binding, "a" if has else "no", name)


def check():
    sys.path.append(str(HERE.parent))       # for the plain models
    all_lines = lines()
    calls = {first for first, *_ in all_lines if first not in ("", "!")}
    found = ["%s: %s" % ("\t".join(it), fault) for it in all_lines for fault in faults_of(it, calls)]
    found += ["no test of %s runs the table" % binding for binding in BINDINGS if not runs_it(binding)]
    found += [*faults_of_lives(), *faults_of_format(), *faults_of_images()]
    count = len(all_lines) + len(BINDINGS) * (1 + len(lives()))
    for fault in found:
        print(fault)
    print("%d passed, %d failed" % (count - len(found), len(found)))
    return 1 if found else 0


def main(word, *command):
    if word == "check":
        return check()
    text = "".join(printed(case) + "\n" for case in cases(word))
    if not command:
        print(text, end="")
        return 0
    if command == ("-",):
        return compare(word, sys.stdin.read().splitlines())
    done = subprocess.run(command, input=text, stdout=subprocess.PIPE, text=True)
    return compare(word, done.stdout.splitlines()) or done.returncode


if __name__ == "__main__":
    sys.exit(main(*sys.argv[1:]))
