# SPDX-License-Identifier: Apache-2.0
"""The package as others get it: its types, its wheel, and the library that it takes."""
import os
import re
import shutil
import subprocess
import sys
import unittest
import zipfile

import common
from command import CommandTest
from hll_sketches import _splitter

SYSTEM = "/usr/bin/python3"
BUILD = common.PACKAGE.parent / "c" / "build"


def has(python, *modules):
    """Whether a Python is there with some modules."""
    if shutil.which(python) is None:
        return False
    code = "import sys, importlib.util as i; sys.exit(not all(map(i.find_spec, sys.argv[1:])))"
    return subprocess.run([python, "-c", code, *modules]).returncode == 0


def plain_environment(**more):
    """Without what the tests are run with."""
    names = ("HLL_SKETCHES_LIBRARY", "PYTHONPATH", "VIRTUAL_ENV")
    kept = {name: value for name, value in os.environ.items() if name not in names}
    return {**kept, "PIP_NO_INDEX": "1", "PYTHONDONTWRITEBYTECODE": "1", **more}


class TypesTest(CommandTest):
    def setUp(self):
        super().setUp()
        self.mypy = shutil.which("mypy")
        if self.mypy is None:
            self.skipTest("mypy is not here")

    def checked(self, *words):
        done = subprocess.run(
            [self.mypy, *words], cwd=common.PACKAGE, capture_output=True, text=True
        )
        return done.returncode, done.stdout

    def test_the_package(self):
        status, out = self.checked("--strict", "hll_sketches")
        self.assertEqual(status, 0, out)

    def test_a_program(self):
        """What a program that uses the package is told."""
        self.write("right.py", b"""\
import io
import pathlib
from array import array
from hll_sketches import Registers, Sketch, SketchUnion, coupons, merge_files, union_of
made: Sketch = union_of([Sketch(), b""], 12, 8) | Sketch.read("x")
made.update_many(open("x"))
made.update_many([1, "a", b"b", 2.5])
made.write(pathlib.Path("x"))
low, high = made.bounds()
number: float = low + high + made.estimate() + sum(coupons(["x"]))
merged: Sketch = merge_files(["a", pathlib.Path("b")], on_refused=print)
copied: SketchUnion = SketchUnion(12).copy()
kept: Registers = Registers.over(bytearray(4096)).fold(10)
kept.merge(made)
kept.add_coupons(coupons(["x"]))
made = kept.to_sketch()
with open("x", "rb") as source:
    made = union_of([Sketch.read(source), b"", bytearray(), memoryview(b""), array("B")])
made.write(io.BytesIO())
are_registers: bool = made.stage == "registers"
""")
        wrong = (
            "from hll_sketches import Sketch, union_of\nSketch('12')\nSketch().update(None)\n"
            "union_of([1])\nunion_of(['a.hll'])\nSketch().stage == 'register'\n"
        )
        self.write("wrong.py", wrong.encode())
        status, out = self.checked("--strict", str(self.folder / "right.py"))
        self.assertEqual(status, 0, out)
        status, out = self.checked("--strict", str(self.folder / "wrong.py"))
        self.assertEqual((status, len(re.findall("error:", out))), (1, 5), out)


class BuildTest(CommandTest):
    """In a copy of the checkout."""

    def setUp(self):
        super().setUp()
        self.root = self.folder / "hll"
        left_out = shutil.ignore_patterns("build", "*.egg-info", "__pycache__", "*.so*")
        shutil.copytree(common.PACKAGE, self.root / "bindings" / "python", ignore=left_out)
        self.c = self.root / "bindings" / "c"
        self.c.mkdir()
        (self.c / "Makefile").write_text("all:\n")
        shutil.copyfile(common.PACKAGE.parent / "c" / "hll.h", self.c / "hll.h")

    def put_library(self):
        library = BUILD / "libhll.so"
        if not library.exists():
            self.skipTest("bindings/c/build/libhll.so is not here")
        (self.c / "build").mkdir()
        shutil.copyfile(library, self.c / "build" / "libhll.so")

    def pip_wheel(self, **more):
        """What pip ended with, and the Python that ran it."""
        wanted = "pip", "setuptools", "wheel"
        pythons = [one for one in (sys.executable, SYSTEM) if has(one, *wanted)]
        if not pythons:
            self.skipTest("pip, setuptools and wheel are not here")
        python = pythons[0]
        words = ["-m", "pip", "wheel", "-q", "--no-build-isolation", "--no-deps", "-w", "wheels"]
        done = subprocess.run(
            [python, *words, "hll/bindings/python"], cwd=self.folder, capture_output=True,
            env=plain_environment(**more), text=True,
        )
        return done, python

    def wheel(self, **more):
        """The wheel that is built, and the Python that built it."""
        done, python = self.pip_wheel(**more)
        self.assertEqual(done.returncode, 0, done.stdout + done.stderr)
        (made,) = (self.folder / "wheels").iterdir()
        return made, python

    def run_from(self, wheel, python, *words):
        """Runs the command from a wheel, far from the checkout."""
        place = self.folder / "installed"
        shutil.rmtree(place, ignore_errors=True)
        with zipfile.ZipFile(wheel) as archive:
            archive.extractall(place)
            names = archive.namelist()
        done = subprocess.run(
            [python, "-m", "hll_sketches", *words], cwd=self.folder, capture_output=True, text=True,
            env=plain_environment(PYTHONPATH=str(place)),
        )
        return names, done

    def test_with_the_library(self):
        self.put_library()
        (self.root / "bindings/python/hll_sketches/libhll.so").write_bytes(b"an old one")
        wheel, python = self.wheel()
        self.assertRegex(wheel.name, r"^hll_sketches-[\d.]+-py3-none-(manylinux_2_\d+|linux)_\w+\.whl$")
        names, done = self.run_from(wheel, python, "new", "a.hll")
        self.assertEqual((done.returncode, done.stderr), (0, ""))
        with zipfile.ZipFile(wheel) as archive:
            inside = archive.read("hll_sketches/libhll.so")
            for file in ("LICENSE", "NOTICE"):
                (licence,) = (name for name in names if name.endswith(file))
                self.assertEqual(archive.read(licence), (common.PACKAGE / file).read_bytes())
        self.assertEqual(inside, (BUILD / "libhll.so").read_bytes())
        self.assertIn("hll_sketches/py.typed", names)
        self.assertIn(f"hll_sketches/{_splitter.NAME}", names)
        self.assertTrue(self.splits_in_c(python))

    def test_with_the_module_alone(self):
        """Another program's library, and the module that LIBHLL_LINES names: as the Debian package has it."""
        module = common.PACKAGE / "build" / _splitter.NAME
        if not module.exists():
            self.skipTest("the module that splits lines is not built")
        wheel, python = self.wheel(LIBHLL="", LIBHLL_LINES=str(module))
        self.assertRegex(wheel.name, r"-py3-none-(manylinux_2_\d+|linux)_\w+\.whl$")
        names, _ = self.run_from(wheel, python, "--version")
        self.assertEqual([name for name in names if ".so" in name], [f"hll_sketches/{_splitter.NAME}"])
        self.assertTrue(self.splits_in_c(python))

    def splits_in_c(self, python):
        """Whether the package that was unpacked last splits lines in C."""
        code = "from hll_sketches import _splitter; print(_splitter.is_here())"
        done = subprocess.run([python, "-c", code], cwd=self.folder, capture_output=True, text=True,
                              env=plain_environment(PYTHONPATH=str(self.folder / "installed")))
        return done.stdout == "True\n"

    def test_from_the_text(self):
        """A copy of the checkout in which nothing is built: pip builds the library."""
        shutil.rmtree(self.c)
        for name in ("bindings/c", "prebuilt", "scripts"):
            shutil.copytree(common.ROOT / name, self.root / name, ignore=shutil.ignore_patterns("build", "tests"))
        for name in ("HANDLES", "crates.txt"):
            shutil.copyfile(common.ROOT / name, self.root / name)
        shutil.copytree(common.ROOT / "crates", self.root / "crates", ignore=shutil.ignore_patterns("out", "must-fail"))
        wheel, python = self.wheel()
        names, done = self.run_from(wheel, python, "new", "a.hll")
        self.assertEqual((done.returncode, done.stderr), (0, ""))
        self.assertIn("hll_sketches/libhll.so", names)

    def test_refused_outside_a_checkout(self):
        """No wheel is made that could not work."""
        shutil.rmtree(self.c)
        done, _ = self.pip_wheel()
        self.assertNotEqual(done.returncode, 0)
        self.assertIn("there is no C library to put into the package", done.stdout + done.stderr)
        done, _ = self.pip_wheel(LIBHLL=str(self.folder / "none.so"))
        self.assertNotEqual(done.returncode, 0)
        self.assertEqual(list(self.folder.glob("wheels/*")), [])

    def test_with_the_library_of_the_system(self):
        """LIBHLL is empty."""
        stale = self.root / "bindings/python/build/lib/hll_sketches"
        stale.mkdir(parents=True)
        for name in ("libhll.so", _splitter.NAME):
            (stale / name).write_bytes(b"an old one")
        wheel, python = self.wheel(LIBHLL="")
        self.assertTrue(wheel.name.endswith("-py3-none-any.whl"), wheel.name)
        names, done = self.run_from(wheel, python, "new", "a.hll")
        self.assertFalse([name for name in names if "libhll" in name])
        self.assertFalse(self.splits_in_c(python))
        if "libhll" not in str(subprocess.run(["ldconfig", "-p"], capture_output=True).stdout):
            self.assertEqual(done.returncode, 2)
            begin = "hll: the shared library libhll.so is not here: build it"
            self.assertEqual(done.stderr[: len(begin)], begin)
            self.assertIn("needs a C compiler", done.stderr)

    def test_the_steps_of_the_readme(self):
        """As they stand, but for what only root can do."""
        self.put_library()
        if not has(SYSTEM, "ensurepip", "setuptools", "wheel", "venv"):
            self.skipTest("python3-venv, python3-setuptools and python3-wheel are not here")
        text = (common.PACKAGE / "README.md").read_text("utf-8")
        block = re.search(r"```sh\n(sudo apt .*?)```", text, re.S)[1]
        lines = [line for line in block.splitlines() if not line.startswith("sudo ")]
        self.assertGreater(len(lines), 2)
        found = plain_environment(PATH="/usr/bin:/bin", HOME=str(self.folder / "home"))
        done = subprocess.run(["sh", "-e"], input="\n".join(lines), cwd=self.root, env=found,
                              capture_output=True, text=True)
        self.assertEqual(done.returncode, 0, done.stdout + done.stderr)
        self.assertIn("lg_k", done.stdout)

    def test_a_fresh_build_goes_before_a_copy_in_the_package(self):
        self.put_library()
        package = self.root / "bindings" / "python"
        (package / "hll_sketches" / "libhll.so").write_bytes(b"an old one")
        done = subprocess.run(
            [sys.executable, "-m", "hll_sketches", "new", "a.hll"], cwd=self.folder,
            capture_output=True, env=plain_environment(PYTHONPATH=str(package)),
        )
        self.assertEqual((done.returncode, done.stderr), (0, b""))


class LicenceTest(CommandTest):
    def test_it_is_that_of_the_checkout(self):
        for name in ("LICENSE", "NOTICE"):
            whole = common.ROOT / name
            if not whole.exists():
                self.skipTest(f"the {name} of the checkout is not here")
            self.assertEqual((common.PACKAGE / name).read_bytes(), whole.read_bytes())


OTHER = r"""
#include <string.h>
#include <stdint.h>
#include <stddef.h>
typedef unsigned char u8;
#define EMPTY(name) int name(void) { return 0; }
EMPTY(hll_image_new) EMPTY(hll_image_merge)
EMPTY(hll_images_union) EMPTY(hll_image_fold) EMPTY(hll_image_convert) EMPTY(hll_image_check)
EMPTY(hll_image_size) EMPTY(hll_image_trailing) EMPTY(hll_image_set_estimator_fields) EMPTY(hll_image_clear_estimator_fields) EMPTY(hll_images_agree) EMPTY(hll_coupon) EMPTY(hll_coupons)
EMPTY(hll_estimate) EMPTY(hll_hip_estimate)
EMPTY(hll_counter_free) EMPTY(hll_counter_add) EMPTY(hll_counter_settle) EMPTY(hll_counter_shrink) EMPTY(hll_counter_copy) EMPTY(hll_counter_join) EMPTY(hll_counter_info)
EMPTY(hll_counter_add_many) EMPTY(hll_counter_add_coupons) EMPTY(hll_counter_image) EMPTY(hll_counter_estimate)
EMPTY(hll_registers_add) EMPTY(hll_registers_add_coupons)
EMPTY(hll_registers_merge) EMPTY(hll_registers_merge_registers) EMPTY(hll_registers_fold)
EMPTY(hll_registers_histogram) EMPTY(hll_registers_image) EMPTY(hll_registers_estimate)
uint32_t hll_version(void) { return VERSION; }
const char *hll_processor(void) { return "other"; }
#ifndef WITHOUT
u8 hll_image_histogram(const u8 *image, size_t len, uint64_t *counts)
{ memset(counts, 0, 512); counts[0] = 1023; counts[COUNT] = 1; return 0; }
#endif
u8 hll_image_head(const u8 *image, size_t len, u8 *head, size_t size)
{ if (size != HEAD) return 12; memset(head, 0, HEAD); head[0] = 12; head[8] = 1; head[12] = 10; head[13] = head[15] = 8; return 0; }
u8 hll_image_info(const u8 *image, size_t len, u8 *info, size_t size)
{ if (size != SIZE) return 12; memset(info, 0, SIZE); info[0] = 1; info[56] = 10; info[57] = 8; return 0; }
u8 hll_counter_init(u8 *counter) { memset(counter, 0, COUNTER); return 0; }
"""


SOUND = {"HEAD": 24, "SIZE": 64, "COUNT": 3, "COUNTER": 120, "VERSION": 2007}
"""A layout and a version that are taken."""


class OtherLibrariesTest(CommandTest):
    """A library of another version, or with another layout, is refused when it is loaded."""

    def told_of(self, name="libother.so", **defined):
        words = [f"-D{name}={value}" for name, value in {**SOUND, **defined}.items()]
        self.write("other.c", OTHER.encode())
        library = self.folder / name
        subprocess.run(["cc", "-shared", "-fPIC", "-w", *words, "-o", library, "other.c"],
                       cwd=self.folder, check=True)
        done = subprocess.run(
            [sys.executable, "-m", "hll_sketches", "new", "a.hll"], cwd=self.folder, text=True,
            capture_output=True, env=plain_environment(
                PYTHONPATH=str(common.PACKAGE), HLL_SKETCHES_LIBRARY=str(library)),
        )
        self.assertEqual((done.returncode, (self.folder / "a.hll").exists()), (2, False))
        return done.stderr.split("can't be used: ")[1].strip()

    def setUp(self):
        super().setUp()
        if shutil.which("cc") is None:
            self.skipTest("a C compiler is not here")

    def test_another_layout(self):
        self.assertEqual(self.told_of(HEAD=32), "its head is laid out in another way")
        self.assertEqual(self.told_of(SIZE=72), "its info is laid out in another way")
        self.assertEqual(self.told_of(COUNT=4), "its histogram is laid out in another way")
        for size in (112, 128):
            self.assertEqual(self.told_of(COUNTER=size), "its counter is laid out in another way")
        self.assertEqual(self.told_of(), "its estimation is laid out in another way")

    def test_a_missing_call(self):
        self.assertIn("undefined symbol: hll_image_histogram", self.told_of(WITHOUT=1))

    def test_another_version(self):
        for number, version in ((1_000_000, "1.0"), (1000, "0.1"), (1_002_000, "1.2"), (0, "0.0")):
            told = self.told_of(VERSION=number)
            self.assertEqual(told, f"it is of version {version}, and not 0.2")
        told = self.told_of("libhll.so.0.2.7")
        self.assertEqual(told, "its estimation is laid out in another way")


PLANTED = r"""
#include <stdlib.h>
__attribute__((constructor)) static void ran(void) { system("echo ran >> \"$PLANTED\""); }
"""


class PlantedTest(CommandTest):
    """Files that somebody else put where the package or the command might look are not run."""

    MODULES = ("json", "argparse", "ctypes", "typing", "tqdm", "sitecustomize", "usercustomize",
               "hll_sketches/__init__", "hll_sketches/__main__")

    def setUp(self):
        super().setUp()
        if shutil.which("cc") is None or not (BUILD / "libhll.so").exists():
            self.skipTest("a C compiler, or bindings/c/build, is not here")
        self.mark = self.folder / "mark"

    def plant_library(self, place):
        place.parent.mkdir(parents=True)
        self.write("planted.c", PLANTED.encode())
        subprocess.run(["cc", "-shared", "-fPIC", "-o", place, "planted.c"], cwd=self.folder, check=True)

    def plant_modules(self, place):
        (place / "hll_sketches").mkdir(parents=True)
        line = f"open({str(self.mark)!r}, 'a').write(__name__)\n"
        for name in self.MODULES:
            (place / f"{name}.py").write_text(line)

    def run_from(self, place, *words, **more):
        done = subprocess.run(
            words, cwd=place, capture_output=True, text=True,
            env=plain_environment(PLANTED=str(self.mark), **more),
        )
        return done.returncode, done.stdout, done.stderr

    def installed(self, name):
        """The package in a folder, without its library."""
        shutil.copytree(common.PACKAGE / "hll_sketches", self.folder / name / "hll_sketches",
                        ignore=shutil.ignore_patterns("*.so*", "__pycache__"))
        return self.folder / name

    def test_a_library_above_an_installed_package(self):
        """As after ``pip install --target``: in a folder of any name, with a library of its own or not."""
        for number, name in enumerate(("deps", "python", "bindings/python")):
            shared = self.folder / f"shared{number}"
            place = self.installed(f"shared{number}/{name}")
            self.plant_library(place.parent / "c" / "build" / "libhll.so")
            for file in ("Makefile", "hll.h"):
                (place.parent / "c" / file).write_text("")
            words = [sys.executable, "-c", "import hll_sketches; print(hll_sketches.Sketch().lg_k)"]
            _, _, err = self.run_from(shared, *words, PYTHONPATH=str(place))
            self.assertFalse(self.mark.exists(), err)
            shutil.copyfile(BUILD / "libhll.so", place / "hll_sketches" / "libhll.so")
            found = self.run_from(shared, *words, PYTHONPATH=str(place))
            self.assertEqual(found, (0, "12\n", ""))
            self.assertFalse(self.mark.exists())

    def test_a_planted_library_would_run(self):
        """What the other tests plant is seen when it does run."""
        self.plant_library(self.folder / "there" / "libhll.so")
        words = [sys.executable, "-c", "import hll_sketches; hll_sketches.Sketch().lg_k"]
        self.run_from(self.folder, *words, PYTHONPATH=str(common.PACKAGE),
                      HLL_SKETCHES_LIBRARY=str(self.folder / "there" / "libhll.so"))
        self.assertTrue(self.mark.exists())

    def test_modules_of_the_current_folder(self):
        """The command of a checkout runs none of them, also where PYTHONPATH has an empty part."""
        place = self.folder / "theirs"
        self.plant_modules(place)
        self.plant_library(place / "c" / "build" / "libhll.so")
        (place / "a.hll").write_bytes(bytes.fromhex("0201070a030801080500000c"))
        words = ["sh", str(common.ROOT / "programs" / "hll.sh"), "estimate", "a.hll"]
        link = self.folder / "bin"
        link.mkdir()
        (link / "hll").symlink_to(common.ROOT / "programs" / "hll.sh")
        for more in ({}, {"PYTHONPATH": ""}, {"PYTHONPATH": ":"}, {"PYTHONPATH": "."}):
            for command in (words, ["sh", str(link / "hll"), *words[2:]]):
                self.assertEqual(self.run_from(place, *command, **more), (0, "1\ta.hll\n", ""))
                self.assertFalse(self.mark.exists())
        self.run_from(place, sys.executable, "-m", "hll_sketches")      # as the page of the package says
        self.assertTrue(self.mark.exists())

    def test_a_checkout_that_is_not_found(self):
        """The command ends at the step that fails: no module next to the current folder is run."""
        place, tools = self.folder / "theirs" / "here", self.folder / "tools"
        place.mkdir(parents=True)
        self.plant_modules(self.folder / "theirs" / "bindings" / "python")
        tools.mkdir()
        path = f"{tools}:{os.environ['PATH']}"
        words = ["sh", str(common.ROOT / "programs" / "hll.sh"), "new", "-"]
        for tool, code in (("readlink", "exit 1"), ("readlink", "echo /none; exit 1"), ("readlink", "exit 0"),
                           ("dirname", "exit 1"), ("dirname", "echo .; exit 1"), ("dirname", "echo /none/none")):
            with self.subTest(tool=tool, code=code):
                (tools / tool).write_text(f"#!/bin/sh\n{code}\n")
                (tools / tool).chmod(0o755)
                status, out, err = self.run_from(place, *words, PATH=path)
                (tools / tool).unlink()
                self.assertEqual((status, out), (2, ""))
                self.assertIn("hll: the checkout that this command belongs to is not found\n", err)
                self.assertFalse(self.mark.exists())


class NoPythonTest(CommandTest):
    """The command of a checkout without a Python that it can use says what to install."""

    def said(self, python=None):
        place = self.folder / "bin"
        place.mkdir(exist_ok=True)
        for name in ("dirname", "readlink"):
            if not (place / name).exists():
                (place / name).symlink_to(shutil.which(name))
        if python is not None:
            (place / "python3").write_text("#!%s -B\n%s" % (sys.executable, python))
            (place / "python3").chmod(0o755)
        words = [shutil.which("sh"), str(common.ROOT / "programs" / "hll.sh"), "new", "a.hll"]
        done = subprocess.run(words, cwd=self.folder, capture_output=True, text=True, env={"PATH": str(place)})
        self.assertEqual((done.returncode, done.stdout, self.listed()), (2, "", ["bin"]))
        return done.stderr

    def test_none(self):
        self.assertEqual(self.said(), "hll: it needs Python 3.9 or later, which is not here: apt-get install python3\n")

    # a Python that runs what it is given as another one would
    OTHER = "import sys\nsys.argv[:] = ['-c', *sys.argv[3:]]\n%s\nexec(%r)\n"

    def other(self, before):
        code = (common.ROOT / "programs" / "hll.sh").read_text().split("-c '")[1].split("' \"$top")[0]
        return self.said(self.OTHER % (before, code))

    def test_an_old_one(self):
        self.assertEqual(self.other("sys.version_info = (3, 8, 9)"), "hll: it needs Python 3.9 or later, and python3 is 3.8\n")

    def test_a_minimal_one(self):
        """As of Debian's package python3-minimal."""
        told = self.other("sys.modules['ctypes'] = None")
        self.assertEqual(told, "hll: python3 has no module ctypes: apt-get install python3\n")


@unittest.skipIf(os.uname().machine != "x86_64", "this is no x86 processor")
class ProcessorTest(CommandTest):
    def on(self, processor):
        emulated = ["qemu-x86_64", "-cpu", processor, SYSTEM, "-m", "hll_sketches", "new", "a.hll"]
        return subprocess.run(emulated, cwd=self.folder, text=True, capture_output=True,
                              env=plain_environment(PYTHONPATH=str(common.PACKAGE)))

    def test_an_older_one_is_told(self):
        if shutil.which("qemu-x86_64") is None or not has(SYSTEM):
            self.skipTest("qemu-x86_64 is not here")
        if not (BUILD / "libhll.so").exists():
            self.skipTest("bindings/c/build is not here")
        done = self.on("core2duo")
        self.assertEqual((done.returncode, done.stdout), (2, ""))
        self.assertIn("CPU ISA level is lower than required", done.stderr)
        wanted = "(it takes a processor with the instructions of x86-64-v2)\n"
        self.assertEqual(done.stderr[-len(wanted) :], wanted)
        self.assertFalse((self.folder / "a.hll").exists())
        done = self.on("Nehalem")
        self.assertEqual((done.returncode, done.stderr), (0, ""))

    def test_the_variable(self):
        """The first call reads HLL_CPU, and both codes make the same image."""
        if not (BUILD / "libhll.so").exists():
            self.skipTest("bindings/c/build is not here")
        code = ("import hashlib, os, hll_sketches as h; s = h.Sketch(); s.update_many(range(50_000)); print(h.processor()); "
                "os.environ['HLL_CPU'] = 'x86-64-v2'; print(h.processor(), hashlib.sha256(s.to_bytes()).hexdigest())")
        said = {}
        for value in ("x86-64-v2", "x86-64-v9", ""):
            done = subprocess.run([sys.executable, "-c", code], cwd=self.folder, text=True, capture_output=True,
                                  env=plain_environment(PYTHONPATH=str(common.PACKAGE), HLL_CPU=value))
            said[value] = done.stdout.split()
            self.assertEqual((done.stderr, said[value][0]), ("", said[value][1]))
        self.assertEqual(said["x86-64-v2"][0], "x86-64-v2")
        self.assertEqual(said["x86-64-v9"], said[""])
        self.assertIn(said[""][0], ("x86-64-v2", "x86-64-v3"))
        self.assertEqual(said["x86-64-v2"][2], said[""][2])


if __name__ == "__main__":
    unittest.main()
