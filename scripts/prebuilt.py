#!/usr/bin/env python3
# SPDX-License-Identifier: Apache-2.0
"""Makes prebuilt/: assembler text of the proved library and programs, with the prover's verdict, and the library as a WebAssembly
module (prebuilt/README.md). For other systems it makes text of the library that is not committed.

    scripts/prebuilt.py            after `rt ci`: makes the text again from what was proved, and compares it with prebuilt/
    scripts/prebuilt.py --as-proved    the same next to `rt ci`, whose output it reads: each text once what is below it is proved
    scripts/prebuilt.py --prove    the same after proving the library and the programs by `rt lib`
    scripts/prebuilt.py --write    writes prebuilt/ whatever is there
    scripts/prebuilt.py --wasm     makes only hll.wasm again, where its C files have changed, in under a minute: from what an earlier
                                   run on this machine kept of the same proved sources
    scripts/prebuilt.py --texts    writes only the texts for other systems, from what an earlier run kept; where nothing is kept, it
                                   proves the library first (`make texts`)

The last line is 'N passed, M failed'. Where a source has changed, prebuilt/ is written again; under CI=true that is a failure,
as the commit should have had it. Another toolchain than the one that VERDICT names may give other text for the same sources:
then a line says so, and tests run over what that toolchain builds instead (bindings/c/check --proved).

`rt ci` leaves the libraries with their statements alone, and `rt lib` over these would prove everything again. So this script
calls the toolchain's own command by the arguments that rt gives it: `rattle check` proves the crate over its libraries, and
`rattle build` compiles what was proved. Its compiler is replaced by a script that also keeps the assembler text and LLVM's module.

prebuilt/wasm/hll.wasm is compiled from LLVM's module of the library (scripts/retarget.py), and linked with C files by binaryen.
Other versions of binaryen may give other bytes: then it is not compared, and a line says so.

The texts for other systems (other_systems.TEXTS) are compiled from that module, too. VERDICT has their checksums, and they are written
next to the others, but git ignores them: a release has them.
"""
import dataclasses
import functools
import hashlib
import os
import pathlib
import re
import shutil
import subprocess
import sys
import tempfile
from concurrent.futures import ThreadPoolExecutor

sys.dont_write_bytecode = True
sys.path.insert(0, str(pathlib.Path(__file__).resolve().parent))
import other_systems  # noqa: E402
import prover  # noqa: E402
import retarget  # noqa: E402

ROOT = pathlib.Path(__file__).resolve().parent.parent
PREBUILT = ROOT / "prebuilt"
VERDICT = PREBUILT / "VERDICT"
X86, ARM = "x86_64-unknown-linux-gnu", "aarch64-unknown-linux-gnu"
PROGRAMS = {"hll_merge": "hll_program", "hll_estimator_fields": "hll_estimator_fields_program"}
# Proved in this order, each over the libraries before it.
LIBRARIES = ["hll_base", "hll_kernels", "hll_estimate", "hll_text", "hll_coupons", "hll_registers", "hll_arrays", "hll_sketch", "hll_images", "hll_state", "hll_merge", "hll_estimator_fields"]
# Other builds of the library, which only tests use: by the toolchain's own compiler, and by another toolchain than VERDICT's.
OTHERS = ROOT / "crates" / "hll_c" / "out"
OTHER_COMPILER = OTHERS / "other-compiler.a"
OTHER_TOOLCHAIN = OTHERS / "other-toolchain.s"
OTHER_ARCHIVE = OTHERS / "other-toolchain.a"
NEED = 4_000_000_000    # bytes of memory that one proof takes at most, with its jobs
NICE = 5                # next to `rt ci`, which the gate waits for
KEPT = " incremental=trusted"       # in the prover's last line: a library was proved over what an earlier check had kept
# The module for JavaScript, and the script that links it.
WASM = "wasm/hll.wasm"
LINK = ROOT / "bindings" / "javascript" / "wasm" / "build.sh"
# Takes the place of clang: compiles as asked, and where that gives an object file, writes the same code as assembler text too. It
# keeps LLVM's module, from which hll.wasm is compiled.
CLANG = """#!/bin/sh
for word; do case $word in *.bc) cp "$word" '@TEXT@.bc';; esac; done
'@CLANG@' "$@" || exit
for word; do [ "$word" != -emit-llvm ] || exit 0; done
exec '@CLANG@' "$@" -Wno-unused-command-line-argument -fno-addrsig -fno-verbose-asm -S -o '@TEXT@'
"""


class Unknown(Exception):
    """Why this toolchain can't be used to make the text."""


@dataclasses.dataclass(frozen=True)
class Text:
    """A file of prebuilt/, the crate that it is compiled from, and the processor that it is for. If that is another level of x86-64
    than the toolchain's own, `cpu` names it, and the text's names end in `suffix`."""

    name: str
    crate: str
    target: str
    cpu: str = ""
    suffix: str = ""

    @property
    def path(self):
        return "%s/%s%s.s" % (self.target.partition("-")[0], self.name, self.suffix)

    @property
    def words(self):
        """What the toolchain's commands are told of the processor."""
        return ["--target", self.target, *(["--cpu", self.cpu] if self.cpu else [])]


TEXTS = [Text(name, crate, target) for target in (ARM, X86) for name, crate in {"libhll_c": "hll_c", **PROGRAMS}.items()]
TEXTS.append(Text("libhll_c", "hll_c", X86, "x86-64-v3", "_v3"))
# The texts whose module is kept, for what is compiled from it.
MODULES = [Text("libhll_c", "hll_c", X86), Text("libhll_c", "hll_c", ARM)]


# ---- the verdict


@dataclasses.dataclass
class Verdict:
    """What VERDICT says: the toolchain, the checksum of the sources, the prover's last lines and the checksum of each text."""

    prover: str
    sources: str
    said: dict
    files: dict
    wasm: str = ""      # how hll.wasm was made: checksum of the C files and scripts, version of binaryen
    texts: str = ""     # how the texts for other systems were made
    others: dict = dataclasses.field(default_factory=dict)      # their checksums

    def text(self):
        lines = ["prover: %s" % self.prover, "sources: %s" % self.sources]
        lines += ["wasm: %s" % self.wasm] * (self.wasm != "") + ["texts: %s" % self.texts] * (self.texts != "")
        lines += ["%s: %s" % (path, line) for path, said in sorted(self.said.items()) for line in said]
        lines += ["%s: %s  %s" % (kind, sums[path], path) for kind, sums in (("file", self.files), ("text", self.others)) for path in sorted(sums)]
        above = "".join(line + "\n" for line in lines)
        return "%slines above: %s\n" % (above, hashlib.sha256(above.encode()).hexdigest())


def committed():
    """Returns the verdict of prebuilt/, or None where there is none."""
    if not VERDICT.is_file():
        return None
    found = Verdict("", "", {}, {})
    for line in VERDICT.read_text().splitlines():
        name, _, rest = line.partition(": ")
        if name in ("prover", "sources", "wasm", "texts"):
            setattr(found, name, rest)
        elif name in ("file", "text"):
            (found.files if name == "file" else found.others)[rest.split()[1]] = rest.split()[0]
        elif name.endswith(".s"):
            found.said.setdefault(name, []).append(rest)
    return found


def asked(*words):
    """Returns what scripts/prebuilt.sh prints for words: `sum`, `state`, `wasm-sum`, `wasm`, `texts-sum`, `texts` or `text`."""
    return subprocess.run([ROOT / "scripts" / "prebuilt.sh", *words], capture_output=True, text=True, check=True).stdout.strip()


def are_fresh():
    """Whether hll.wasm and the checksums of the texts for other systems are made by the scripts and C files as they are."""
    return asked("wasm") == asked("texts") == "fresh"


def sum_of(data):
    return hashlib.sha256(data).hexdigest()


# ---- the toolchain


def toolchain():
    """Returns the module of rt that knows how a crate is built."""
    file = pathlib.Path(prover.answer("rt", "doc")).parent / "bin" / "rtlib.py"
    if not file.is_file():
        raise Unknown("the toolchain has no %s" % file.name)
    return prover.loaded("rtlib", file)


def call(rtlib, crate, *words):
    """Runs the toolchain's own command in a crate's folder, and returns the lines that it prints."""
    ran = subprocess.run([rtlib.RATTLE, *words], cwd=ROOT / "crates" / crate, stdin=subprocess.DEVNULL, stdout=subprocess.PIPE,
                         stderr=subprocess.STDOUT, text=True, errors="replace")
    if ran.returncode:
        raise Unknown("rattle %s in %s ended with status %d: %s" % (words[0], crate, ran.returncode, ran.stdout.strip()[-300:]))
    return ran.stdout.splitlines() or [""]


def without(words, *flags):
    """Returns the words without these flags and the word after each."""
    kept = list(words)
    for flag in flags:
        at = kept.index(flag)
        del kept[at : at + 2]
    return kept


def put_clang(rtlib, room):
    """Makes a toolchain of links whose clang also keeps the assembler text; returns its folder and the path of that text."""
    tools, text = room / "toolchain", room / "text.s"
    (tools / "bin").mkdir(parents=True)
    real = pathlib.Path(rtlib.KIT, "toolchain")
    (tools / "lib").symlink_to(real / "lib")
    for file in (real / "bin").iterdir():
        if file.name != "clang":
            (tools / "bin" / file.name).symlink_to(file)
    clang = tools / "bin" / "clang"
    clang.write_text(CLANG.replace("@CLANG@", str(real / "bin" / "clang")).replace("@TEXT@", str(text)))
    clang.chmod(0o755)
    return tools, text


LOCAL = re.compile(r"(\.L[A-Za-z_]+?)(\d+)(?=_\d|\b)")


def with_stable_labels(text):
    """Returns clang's text with each local label named by its function instead of the function's number, so that a function
    which comes or goes changes no line of the others."""
    names, current = {}, None
    for line in text.splitlines():
        start = re.match(r"\s*\.type\s+(.+),@function$", line)
        end = re.match(r"\.Lfunc_end(\d+):", line)
        current = start[1] if start else current
        if end:
            names[end[1]] = sum_of(current.encode())[:8]
    if len(set(names.values())) != len(names):
        raise Unknown("two functions have one label")
    return LOCAL.sub(lambda it: it[1] + names.get(it[2], it[2]), text)


QUOTED = re.compile(r'"([^"]*)"')
SECTION = re.compile(r'^(\s*\.section\s+)"([^"]*)"')
DATA = re.compile(r"\s*\.(?:file|ident|ascii|asciz|string)\b")


def with_plain_names(text):
    """Returns clang's text with plain names in place of quoted ones, which old versions of GNU's assembler reject in operands."""
    lines = text.splitlines(keepends=True)
    code = "".join(QUOTED.sub("", line) for line in lines if not DATA.match(line))
    taken, plain = set(re.findall(r"[\w.$]+", code)), {}

    def put(found, group=1):
        name = found[group]
        if name not in plain:
            plain[name] = other_systems.plain_name(name)
        return plain[name]

    made = []
    for line in lines:
        if DATA.match(line):
            made.append(line)
        elif line.lstrip().startswith(".section"):      # what follows the name are flags, which stay in quotes
            made.append(SECTION.sub(lambda it: it[1] + (it[2] if it[2].startswith(".note.") else put(it, 2)), line))
        else:
            made.append(QUOTED.sub(put, line))
    same = [name for name in plain.values() if list(plain.values()).count(name) > 1 or name in taken]
    if same:
        raise Unknown("two names become one: %s" % ", ".join(sorted(set(same))))
    return "".join(made)


def with_suffix(text, suffix):
    """Returns a text with a suffix at the name of each function, so that it can be linked with a text that has the same names."""
    names = set(re.findall(r"(?m)^\s*\.type\s+([\w.$]+),@function$", text))

    def put(found):
        return found[0] + suffix if found[0] in names or found[0].startswith(".text.") and found[0][len(".text."):] in names else found[0]

    return "".join(line if DATA.match(line) else re.sub(r"[\w.$]+", put, line) for line in text.splitlines(keepends=True))


def said_of(lines):
    """Returns what VERDICT has of the prover's lines: the functions in C that the proof rests on, and the verdict, the same
    whatever earlier checks had kept. The gate compares them with those of `rt ci`, which proves everything from nothing."""
    return [line for line in lines if line.startswith("axioms ")] + [lines[-1].replace(KEPT, "")]


def module_for(target):
    """Returns the path at which LLVM's module of the library is kept."""
    return OTHERS / ("hll_c-%s.bc" % target.partition("-")[0])


def keep_module(file, target):
    """Keeps LLVM's module of the library, with the checksum of the sources that it was made of."""
    shutil.copyfile(file, module_for(target))
    module_for(target).with_suffix(".sources").write_text(asked("sum"))


class NotProved(Exception):
    """`rt ci` has not proved a library."""


def made(rtlib, text, jobs, progress=None):
    """Proves a text's crate for its processor and compiles it, where `rt ci` still runs once that has proved the libraries below it.
    Returns the text, and what VERDICT has of the prover's lines."""
    crate = rtlib.Crate(str(ROOT / "crates" / text.crate), str(ROOT), {}, name=None)
    if progress and not progress.wait_for(it.name for it in crate.below()):
        raise NotProved("a library below %s is not proved" % text.crate)
    words = [*crate.words(["--jobs", str(jobs)], keeps=False), *text.words]
    with tempfile.TemporaryDirectory() as room:
        room = pathlib.Path(room)
        lines = call(rtlib, text.crate, "check", *words, "-o", str(room / "checked"))
        if not lines[-1].startswith("logic=proved "):
            raise Unknown("%s was not proved: %s" % (text.crate, lines[-1]))
        tools, kept = put_clang(rtlib, room)
        words = [*without(words, "--logic-built", "--jobs"), "--crate-checked", str(room / "checked")]
        call(rtlib, text.crate, "build", *words, "--toolchain", str(tools), "--backend", "llvm", "-o", str(room / "built"))
        if not kept.is_file():
            raise Unknown("the compiler of the toolchain was not called as clang")
        OTHERS.mkdir(parents=True, exist_ok=True)
        if text in MODULES:
            keep_module(str(kept) + ".bc", text.target)
        if text == MODULES[0]:
            call(rtlib, text.crate, "build", *words, "--toolchain", str(pathlib.Path(rtlib.KIT, "toolchain")), "--backend", "rattle",
                 "-o", str(OTHER_COMPILER))
        return with_suffix(with_plain_names(with_stable_labels(kept.read_text())), text.suffix), said_of(lines)


def kit():
    """Returns the toolchain's release and logic, as `rt version` prints them."""
    return prover.answer("rt", "version")


def clang_of(rtlib):
    return pathlib.Path(rtlib.KIT, "toolchain", "bin", "clang")


# ---- texts for other systems


def other_path(name):
    """Returns the path in prebuilt/ of the text for another system."""
    return "%s/libhll_c.s" % name


def texts_line():
    """Returns what VERDICT says of the texts for other systems."""
    return "proved for x86-64, compiled from the same module for other systems; sources %s" % asked("texts-sum")


def made_texts(rtlib):
    """Compiles the texts for other systems from LLVM's modules of the library, at the same time. Returns their bytes by their
    paths."""
    clang = clang_of(rtlib)
    text = retarget.text_of(clang, module_for(X86))
    retarget.test_same(text, retarget.text_of(clang, module_for(ARM)))

    def one(name):
        return other_path(name), other_systems.text_for(clang, text, other_systems.TEXTS[name]).encode()

    with ThreadPoolExecutor(len(other_systems.TEXTS)) as runs:
        return dict(runs.map(one, other_systems.TEXTS))


def put_texts(rtlib, verdict):
    """Makes the texts for other systems, and adds their checksums to the verdict. Returns their bytes by their paths."""
    others = made_texts(rtlib)
    verdict.texts, verdict.others = texts_line(), {path: sum_of(data) for path, data in others.items()}
    return others


def write_texts(others):
    """Writes the texts for other systems of which VERDICT has the checksum."""
    wanted = committed().others
    for path, data in others.items():
        if wanted.get(path) == sum_of(data):
            (PREBUILT / path).parent.mkdir(parents=True, exist_ok=True)
            (PREBUILT / path).write_bytes(data)


def prove_modules(rtlib):
    """Proves the library, and keeps LLVM's modules of it."""
    for library in LIBRARIES:
        lib(library)
    for text in MODULES:
        print("proving hll_c for %s" % text.target, flush=True)
        made(rtlib, text, min(os.cpu_count() or 1, 4))


def texts_again():
    """Makes the texts for other systems, and writes them, with VERDICT if what makes them has changed. Returns counts."""
    verdict, rtlib = committed(), toolchain()
    if kit() != verdict.prover or asked("sum") != verdict.sources:
        print("failed: prebuilt/ was made by %s from other sources, or by another toolchain: run scripts/prebuilt.py" % verdict.prover)
        return 0, 1
    if not is_kept(verdict):
        prove_modules(rtlib)
    was_fresh, old = asked("texts") == "fresh", verdict.others
    others = put_texts(rtlib, verdict)
    if not was_fresh:
        VERDICT.write_text(verdict.text())
        print("prebuilt/VERDICT has the checksums of the texts. Commit it")
    write_texts(others)
    failed = [path for path in others if was_fresh and old.get(path) != verdict.others[path]]
    for path in failed:
        print("failed: the text %s is not the one of which VERDICT has the checksum" % path)
    return len(others) - len(failed), len(failed)


# ---- the module for JavaScript


@functools.lru_cache(None)
def binaryen():
    """Returns the version of binaryen, or None if it is not here."""
    if not shutil.which("wasm-opt"):
        return None
    return prover.answer("wasm-opt", "--version").replace("(", "").replace(")", "")


def wasm_line():
    """Returns what VERDICT says of hll.wasm."""
    return "proved for x86-64, compiled from the same module for WebAssembly, tested there; sources %s; %s" % (asked("wasm-sum"), binaryen())


def made_wasm(rtlib):
    """Compiles and links the module for JavaScript from LLVM's modules of the library, and returns its bytes."""
    with tempfile.TemporaryDirectory() as room:
        room = pathlib.Path(room)
        retarget.retarget(clang_of(rtlib), module_for(X86), module_for(ARM), room / "proved.o")
        ran = subprocess.run(["sh", LINK, room / "proved.o", rtlib.KIT, room / "hll.wasm"], stdout=subprocess.PIPE,
                             stderr=subprocess.STDOUT, text=True, errors="replace")
        if ran.returncode:
            raise Unknown("%s ended with status %d: %s" % (LINK.name, ran.returncode, ran.stdout.strip()[-300:]))
        return (room / "hll.wasm").read_bytes()


def is_wasm_fresh(sources):
    """Whether hll.wasm is made of these sources."""
    old = committed()
    return old is not None and old.sources == sources and asked("wasm") == "fresh"


def want_binaryen(sources):
    """Raises Unknown if hll.wasm has to be made of these sources, and binaryen is not here."""
    if not is_wasm_fresh(sources) and not binaryen():
        raise Unknown("wasm-opt, of binaryen, is not here, and prebuilt/%s has to be made again" % WASM)


def put_wasm(rtlib, verdict, texts):
    """Adds hll.wasm to what was made. Without the version of binaryen that made it, it stays as it is, if it is made of the same
    sources."""
    old, line = committed(), wasm_line()
    if is_wasm_fresh(verdict.sources) and line != old.wasm:
        print("not compared: prebuilt/%s was made by %s, and here is %s" % (WASM, old.wasm.rpartition("; ")[2], binaryen() or "no wasm-opt (binaryen)"))
        line, texts[WASM] = old.wasm, (PREBUILT / WASM).read_bytes()
    else:
        want_binaryen(verdict.sources)
        texts[WASM] = made_wasm(rtlib)
    verdict.wasm, verdict.files[WASM] = line, sum_of(texts[WASM])


def is_kept(verdict):
    """Whether LLVM's modules are kept of the sources of a verdict, by this toolchain."""
    kept = [module_for(target).with_suffix(".sources") for target in (X86, ARM)]
    return kit() == verdict.prover and asked("sum") == verdict.sources and all(file.is_file() and file.read_text() == verdict.sources for file in kept)


def link_again():
    """Makes hll.wasm again from the modules that are kept, and writes it with VERDICT. Returns counts."""
    verdict = committed()
    if not is_kept(verdict):
        print("failed: nothing is kept of these sources by %s: run scripts/prebuilt.py" % verdict.prover)
        return 0, 1
    data = made_wasm(toolchain())
    verdict.wasm, verdict.files[WASM] = wasm_line(), sum_of(data)
    (PREBUILT / WASM).write_bytes(data)
    VERDICT.write_text(verdict.text())
    print("prebuilt/%s is written" % WASM)
    return 1, 0


def make_all(progress=None):
    """Makes every file, next to `rt ci` if its progress is given. Returns a verdict, the files' bytes by their paths, and those of the
    texts for other systems."""
    rtlib = toolchain()
    want_binaryen(asked("sum"))
    at_once = next((count for count in (len(TEXTS), 3, 2) if rtlib.fits(*[NEED] * count)), 1)
    jobs = max(1, min((os.cpu_count() or 1) // at_once, 4))
    # the library takes longest, so its texts come first
    ordered = sorted(TEXTS, key=lambda text: text.crate in PROGRAMS.values())
    with ThreadPoolExecutor(at_once) as runs:
        found = dict(zip(ordered, runs.map(lambda text: made(rtlib, text, jobs, progress), ordered)))
    texts = {text.path: words.encode() for text, (words, _) in found.items()}
    files = {path: sum_of(data) for path, data in texts.items()}
    verdict = Verdict(kit(), asked("sum"), {text.path: said for text, (_, said) in found.items()}, files)
    put_wasm(rtlib, verdict, texts)
    return verdict, texts, put_texts(rtlib, verdict)


def lib(crate):
    """Proves and builds a library by `rt lib`, by up to four processors."""
    print("proving %s" % crate, flush=True)
    subprocess.run(["rt", "lib", "--jobs", str(min(os.cpu_count() or 1, 4))], cwd=ROOT / "crates" / crate, stdin=subprocess.DEVNULL,
                   stdout=subprocess.DEVNULL, check=True)


# ---- comparing and writing


def write(verdict, texts):
    """Writes all files and VERDICT, and removes files that are no longer made."""
    for file in PREBUILT.glob("*/*"):
        if file.relative_to(PREBUILT).as_posix() not in texts:
            file.unlink()
    for path, data in texts.items():
        (PREBUILT / path).parent.mkdir(parents=True, exist_ok=True)
        (PREBUILT / path).write_bytes(data)
    VERDICT.write_text(verdict.text())


def difference(verdict, texts):
    """Returns what differs between prebuilt/ and what was made: names of files."""
    found = [path for path, data in texts.items() if not (PREBUILT / path).is_file() or (PREBUILT / path).read_bytes() != data]
    found += [path for path in committed().files if path not in texts]
    found += [path for path in {**committed().others, **verdict.others} if committed().others.get(path) != verdict.others.get(path)]
    return found + ["VERDICT"] * (VERDICT.read_text() != verdict.text())


def compare(verdict, texts):
    """Compares prebuilt/ with what was made of the same sources, and returns how many comparisons passed and failed."""
    differing = difference(verdict, texts)
    old = committed()
    if differing == ["VERDICT"] and old.prover != verdict.prover and asked("state") == "fresh":
        print("prebuilt/ was made by %s, and %s gives the same text" % (old.prover, verdict.prover))
        return len(texts) + len(verdict.others), 0
    if differing and old.prover != verdict.prover and asked("state") == "fresh":
        print("not compared: prebuilt/ was made by %s, and this is %s, which gives other text for %s" % (
            old.prover, verdict.prover, " ".join(differing)))
        OTHER_TOOLCHAIN.write_bytes(texts["x86_64/libhll_c.s"])
        return 1, 0     # the checksums of prebuilt/
    for path in differing:
        print("failed: prebuilt/%s is not what the sources give. To write it again: scripts/prebuilt.py --write" % path)
    total = len(texts) + len(verdict.others) + 1
    return total - len(differing), len(differing)


def settle(verdict, texts, others, is_forced):
    """Compares prebuilt/ with what was made, or writes it where a source has changed, and writes the texts for other systems. Returns
    counts."""
    old, total = committed(), len(texts) + len(others) + 1
    if old and old.sources == verdict.sources and are_fresh() and not is_forced:
        counts = compare(verdict, texts)
        write_texts(others)
        return counts
    write(verdict, texts)
    write_texts(others)
    if is_forced:
        print("prebuilt/ is written")
        return total, 0
    print("prebuilt/ was made from other sources. It is written again now: commit it with the sources")
    return (0, 1) if os.environ.get("CI") == "true" else (total, 0)


def go_on_without_text(why):
    """What is done where the toolchain can't make the text: with VERDICT's own that is a failure; of another, the library is
    built by `rt lib` for the tests. Returns counts."""
    old = committed()
    if old is None or old.prover == kit() or asked("state") != "fresh":
        print("failed: the text can't be made (%s: %s), and prebuilt/ is %s" % (type(why).__name__, why, asked("state")))
        return 0, 1
    print("not compared: this toolchain, %s, has other inner commands than %s, by which prebuilt/ was made (%s)" % (kit(), old.prover, why))
    lib("hll_c")
    os.replace(OTHERS / "libhll_c.a", OTHER_ARCHIVE)
    return 1, 0     # the checksums of prebuilt/


def main():
    if shutil.which("rt") is None:
        print("prebuilt.py: the command rt, which proves and compiles, is not on the path (CONTRIBUTING.md)", file=sys.stderr)
        return 1
    for file in OTHERS.glob("other-*"):
        file.unlink()
    if "--prove" in sys.argv[1:]:
        for library in LIBRARIES:
            lib(library)
    progress = None
    if "--as-proved" in sys.argv[1:]:
        os.nice(NICE)
        sys.stdin.reconfigure(errors="replace")
        progress = prover.Progress(sys.stdin)
    alone = {"--wasm": link_again, "--texts": texts_again}
    try:
        words = [word for word in sys.argv[1:] if word in alone]
        passed, failed = alone[words[0]]() if words else settle(*make_all(progress), "--write" in sys.argv[1:])
    except NotProved as why:
        print("failed: %s" % why)
        passed, failed = 0, 1
    except Exception as why:    # of the toolchain's own code, whatever it is
        passed, failed = go_on_without_text(why)
    print("%d passed, %d failed" % (passed, failed))
    return failed != 0


if __name__ == "__main__":
    sys.exit(main())
