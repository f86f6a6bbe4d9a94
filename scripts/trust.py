#!/usr/bin/env python3
# SPDX-License-Identifier: Apache-2.0
"""Prints, as a table, what has to be trusted in libhll: what is proved and by what, what the proof takes as given, who compiles
it, how much of the library's code is proved, and what is only tested.

    scripts/trust.py
    scripts/trust.py --write     writes the numbers that need no build into docs/PROVED.md, and the sentence between
                                 '<!-- proved -->' and '<!-- end -->' of that page into the pages of the bindings
    scripts/trust.py --check     compares them, and prints 'N passed, M failed'

The table is made from prebuilt/VERDICT, which has the prover's last lines, and from a library that is built from prebuilt/ in a
scratch folder: its symbols, and its results on all test vectors. Needs make, a C compiler and binutils.
"""
import collections
import os
import pathlib
import re
import shutil
import subprocess
import sys
import tempfile

ROOT = pathlib.Path(__file__).resolve().parent.parent
sys.dont_write_bytecode = True
sys.path[:0] = [str(ROOT / "scripts"), str(ROOT / "tests")]
import prebuilt  # noqa: E402
from calls import exported  # noqa: E402
from rows import texts  # noqa: E402

C = ROOT / "bindings" / "c"
OWN = ("estimate", "optional", "state", "counter", "heap", "processor")
TEXT = "%s/libhll_c.s" % os.uname().machine
TEXT_V3 = "x86_64/libhll_c_v3.s"


def run(*words, cwd):
    environment = {name: value for name, value in os.environ.items() if name not in ("MAKEFLAGS", "CFLAGS")}
    ran = subprocess.run(list(map(str, words)), cwd=cwd, env=environment, stdout=subprocess.PIPE, text=True, check=True)
    return ran.stdout


def built(place):
    """Builds the library in a scratch folder, and returns the folder of what was built."""
    for file in [*C.glob("*.[ch]"), *C.glob("*.sh"), C / "Makefile", C / "hll.map", C / "hll.pc.in"]:
        shutil.copy(file, place)
    v3 = ["PROVED_V3=%s" % (prebuilt.PREBUILT / TEXT_V3)] if os.uname().machine == "x86_64" else []
    run("make", "-s", "all", "PROVED=%s" % (prebuilt.PREBUILT / TEXT), *v3, cwd=place)
    return place / "build"


def answers_on_rows(build):
    """How many test vectors a library runs, and how many of their checks fail."""
    run("cc", "-std=c99", "-O1", "-w", "-I%s" % C, "-o", build / "rows", C / "tests" / "rows.c", build / "libhll.a", "-pthread", cwd=build)
    ran = subprocess.run([build / "rows", *texts()], stdout=subprocess.PIPE, text=True)
    found = re.search(r"^(\d+) rows were run.*(?:\n.*)*: \d+ passed, (\d+) failed$", ran.stdout, re.M)
    return tuple(map(int, found.groups())) if found else (0, 1)


def sizes(library):
    """The functions of a library, an archive or an object file, each with its bytes, and how many are called so."""
    lines = run("nm", "-S", "--defined-only", library, cwd=C).splitlines()
    rows = [line.split() for line in lines]
    return collections.Counter((row[3], int(row[1], 16)) for row in rows if len(row) == 4 and row[2] in "tTwW")


def shares(build):
    """Bytes of the code of libhll.so: by who says what they are, the proof or a file of C."""
    left, found = sizes(build / "libhll.so"), {}
    for part in ("proved.o", *(name + ".o" for name in OWN)):
        taken = (sizes(build / part) - (sizes(build / "processor.o") if part == "proved.o" else collections.Counter())) & left
        found[part] = sum(size * many for (_, size), many in taken.items())
        left -= taken
    found["rest"] = sum(size * many for (_, size), many in left.items())
    return found


def calls(build):
    """The calls of the library: those that are proved, those that hand over to a proved one, and those that are C alone."""
    names = re.findall(r"^ *(hll_\w+);$", (C / "hll.map").read_text(), re.M)
    exports = exported()
    wrapped = {name for name, _ in sizes(build / "proved.o")}
    handed = [name for name in names if name in exports and "proved_" + name in wrapped]
    direct = [name for name in names if name in exports and name not in handed]
    return direct, handed, [name for name in names if name not in direct + handed]


def words_of(verdict):
    """The words of a verdict by their names."""
    return dict(word.split("=", 1) for word in verdict.split())


def rows_on_proof(verdict):
    """What the prover said."""
    libraries = re.search("^hll_c staticlib: (.*)$", (ROOT / "crates.txt").read_text(), re.M)[1].replace(" ", ", ")
    yield "proved by", verdict.prover
    for path, lines in sorted(verdict.said.items()):
        words = words_of(lines[-1])
        over = " of hll_c, over the contracts of %s" % libraries if "/libhll_c" in path else ""
        yield "proved: %s" % path, "%s functions%s: `%s`" % (words["functions"], over, lines[-1])
    words = words_of(verdict.said[TEXT][-1])
    yield "taken as given by the proof", "the logic `%s`; what the prover computes by itself: %s; loaded, and not checked again in this run: %s" % (
        words["sum"], words["native"].replace(",", ", "), ", ".join(sorted(name for name, value in words.items() if value == "trusted")))
    lines = [line.partition(" ")[2] for line in verdict.said[TEXT][:-1] if ": none reached" not in line]
    yield "for WebAssembly: %s" % prebuilt.WASM, verdict.wasm
    yield "axioms: contracts of functions in C", "%s, which heap.c is trusted to keep: %s" % (words.get("axioms", "0"), "; ".join(lines) or "none")


def rows_on_library(build):
    """What the built library shows."""
    yield "compiled by", "LLVM, which is not proved; %d test vectors, %d results that differ" % answers_on_rows(build)
    found = shares(build)
    whole = sum(found.values())
    yield "code of libhll.so", "%d bytes, of which %.1f %% are proved" % (whole, 100 * found["proved.o"] / whole)
    yield "only tested", ", ".join("%s.c %d bytes" % (name, found[name + ".o"]) for name in OWN) + ", others %d" % found["rest"]
    direct, handed, own = calls(build)
    yield "proved calls", "%d; and %d through optional.c, where NULL is allowed, state.c, which counts elements, or estimate.c, which adds bounds" % (len(direct), len(handed))
    yield "calls that are only tested", ", ".join("`%s`" % name for name in own)
    yield "around it, only tested", "C++, Rust, Go, Python, JavaScript, PostgreSQL, SQLite, Dask: bindings/"


def table():
    """The table, in Markdown."""
    with tempfile.TemporaryDirectory() as room:
        rows = [*rows_on_proof(prebuilt.committed()), *rows_on_library(built(pathlib.Path(room)))]
    return "\n".join(["| of libhll | |", "|---|---|", *("| %s | %s |" % row for row in rows)])


# ---- numbers on the page


PAGE = ROOT / "docs" / "PROVED.md"
BEGIN, END = "<!-- numbers -->\n", "<!-- end -->\n"


def functions_in(text):
    """How many functions a source has: those with a body, and not those that a trait only declares."""
    text = re.sub(r"//[^\n]*|'(?:\\.|[^\\'\n])'|\"(?:\\.|[^\"\\])*\"", "", text)
    return sum(has_body(text, found.end()) for found in re.finditer(r"\bfn \w+", text))


def has_body(text, start):
    """Whether a function has a body after its name: blocks of clauses may stand before it, and a declaration ends with ';'."""
    depth = 0
    for at in range(start, len(text)):
        depth += (text[at] in "([{") - (text[at] in ")]}")
        if depth == 0 and text[at] == ";":
            return False
        if depth == 0 and text[at] == "}" and not re.match(r"\s*(?:requires\b|ensures\b|[{;])", text[at + 1:]):
            return True
    return True


def functions():
    """How many functions each crate of libhll has without its tests, the lowest crate first."""
    below = re.search("^hll_c staticlib: (.*)$", (ROOT / "crates.txt").read_text(), re.M)[1].split()
    sources = {crate: sorted((ROOT / "crates" / crate / "src").rglob("*.rt")) for crate in [*reversed(below), "hll_c"]}
    return {crate: sum(functions_in(file.read_text("utf-8")) for file in files if not file.stem.endswith("tests"))
            for crate, files in sources.items()}


def numbers():
    """The lines of the page's table: from the sources, the verdict, the exports of hll_c and the calls of the library."""
    words = words_of(prebuilt.committed().said[TEXT][-1])
    found = functions()
    by_crate = ", ".join(f"{many} in `{crate}`" for crate, many in found.items())
    exports = exported()
    names = re.findall(r"^ *(hll_\w+);$", (C / "hll.map").read_text(), re.M)
    own = [name for name in names if name not in exports]
    counters = [name for name in own if name.startswith("hll_counter_")]
    others = ", ".join(name for name in own if name not in counters)
    return [
        "| of libhll | |", "|---|---|",
        f"| functions of its Rattle crates, each of them proved | {sum(found.values()):,}: {by_crate} |",
        f"| contracts that the proof takes as given: to allocate, to reallocate and to free, in `heap.c` | {words['axioms']} |",
        f"| proved calls | {len(names) - len(own)} |",
        f"| calls in plain C over proved calls, tested | {len(counters)}: hll_counter_init and the others of counters |",
        f"| calls in plain C, tested | {len(own) - len(counters)}: {others} |",
    ]


def with_numbers(text):
    before, rest = text.split(BEGIN)
    return before + BEGIN + "\n".join(numbers()) + "\n" + END + rest.split(END, 1)[1]


# ---- a sentence on many pages


SENTENCE = re.compile("(<!-- proved -->)(.*?)(<!-- end -->)", re.S)
PAGES = ["README.md", *(f"bindings/{name}/README.md" for name in "c cpp rust go javascript python postgresql sqlite".split())]
# The documentation in these sources has the sentence without markers.
SOURCES = ("bindings/rust/src/lib.rs", "bindings/go/hll.go", "bindings/python/hll_sketches/__init__.py")


def sentence():
    """The sentence of docs/PROVED.md that says what is proved of a binding, without line ends around it."""
    return SENTENCE.search(PAGE.read_text("utf-8"))[2].strip()


def with_sentence(text):
    return SENTENCE.sub(lambda found: found[1] + sentence() + found[3], text, count=1)


def lacks_sentence(name):
    """Whether a page or a source has not the sentence of docs/PROVED.md."""
    text = (ROOT / name).read_text("utf-8")
    if name in PAGES:
        return not SENTENCE.search(text) or with_sentence(text) != text
    words = re.sub(r"^(?://!?| \*)", "", text, flags=re.M).split()
    return " ".join(sentence().split()) not in " ".join(words)


def written():
    """Writes the numbers and the sentence where they have markers."""
    PAGE.write_text(with_numbers(PAGE.read_text("utf-8")), "utf-8")
    for name in PAGES:
        text = (ROOT / name).read_text("utf-8")
        if with_sentence(text) != text:
            (ROOT / name).write_text(with_sentence(text), "utf-8")
    return 0


def checked():
    """Compares the numbers and the sentence. Returns 1 if anything differs."""
    text = PAGE.read_text("utf-8")
    wrong = ["docs/PROVED.md: its numbers are not those of the sources: run scripts/trust.py --write"] * (with_numbers(text) != text)
    wrong += [f"{name}: it lacks the sentence that docs/PROVED.md has between its markers: run scripts/trust.py --write, or write it there"
              for name in (*PAGES, *SOURCES) if lacks_sentence(name)]
    said, found = words_of(prebuilt.committed().said[TEXT][-1])["functions"], functions()["hll_c"]
    if prebuilt.asked("state") == "fresh" and said != str(found):
        wrong.append(f"prebuilt/VERDICT: the prover proved {said} functions of hll_c, and its sources have {found}")
    for line in wrong:
        print(line)
    print(f"{len(PAGES) + len(SOURCES) + 2 - len(wrong)} passed, {len(wrong)} failed")
    return int(bool(wrong))


def main():
    if sys.argv[1:] in (["--write"], ["--check"]):
        return written() if sys.argv[1] == "--write" else checked()
    state = prebuilt.asked("state")
    if state != "fresh" or not (shutil.which("make") and shutil.which("cc")):
        print("no table: prebuilt/ is %s, or make or a C compiler is not here" % state)
        return 1
    print(table())
    return 0


if __name__ == "__main__":
    sys.exit(main())
