# SPDX-License-Identifier: Apache-2.0
"""Builds the package with the shared library of the checkout inside, and on Linux the module that splits lines.

The library is built by `make` from assembler text (prebuilt/README.md), which takes a C compiler and
a second. LIBHLL in the environment names another library; where it is empty, none is put inside, and
the package takes the system's. Without a library that can be built or was named, nothing is built.
The module is built with the library. Where LIBHLL is set, LIBHLL_LINES names the module, or there is none:
then the package splits lines in Python.
A wheel with a library is for one operating system and kind of processor, and for each Python 3. Its
name says which, by what the library is, also if that is for another system than this one.

HLL_TRIED in the environment says where the library and the package were tried: it is put inside as TRIED.
"""
import os
import pathlib
import re
import shutil
import subprocess
import sys

from setuptools import Distribution, setup
from setuptools.command.build_py import build_py

try:
    from setuptools.command.bdist_wheel import bdist_wheel
except ImportError:  # before setuptools 70.1
    from wheel.bdist_wheel import bdist_wheel

HERE = pathlib.Path(__file__).resolve().parent
C = HERE.parent / "c"
NAMED = os.environ.get("LIBHLL")
HAS_LIBRARY = NAMED != ""
INSIDE = {"win32": "hll.dll", "darwin": "libhll.dylib"}.get(sys.platform, "libhll.so")
"""The name of the library in the package, on this system."""
LIBRARY = pathlib.Path(NAMED) if NAMED else C / "build" / INSIDE
LINES = "libhll_lines.so.1"
"""The name of the module that splits lines, in the package."""
NAMED_LINES = os.environ.get("LIBHLL_LINES")
HAS_LINES = bool(NAMED_LINES) or NAMED is None and sys.platform == "linux"
MODULE = pathlib.Path(NAMED_LINES) if NAMED_LINES else HERE / "build" / LINES
MACHINES = {"Advanced Micro Devices X86-64": "x86_64", "AArch64": "aarch64", "RISC-V": "riscv64"}
OF_GLIBC = {"libc.so.6", "libm.so.6", "ld-linux-riscv64-lp64d.so.1"}
OLDEST = 17
"""No tag says less than glibc 2.17."""
MACOS = {0x01000007: "macosx_11_0_x86_64", 0x0100000C: "macosx_11_0_arm64"}


def of_windows_or_macos(library):
    """The platform's tag and the name of a library for Windows or macOS, by its first bytes; or None."""
    begin = pathlib.Path(library).read_bytes()[:8]
    if begin[:2] == b"MZ":
        return "win_amd64", "hll.dll"
    if begin[:4] == b"\xcf\xfa\xed\xfe":
        return MACOS[int.from_bytes(begin[4:], "little")], "libhll.dylib"
    return None


def platform_of(libraries):
    """The platform's tag of shared libraries: manylinux by the newest symbol of glibc that they
    call, if they need no other library (PEP 600), or musllinux (PEP 656); or None if that can't be
    known."""
    other = of_windows_or_macos(libraries[0])
    if other:
        return other[0]
    words = ["readelf", "-hdVW", *map(str, libraries)]
    try:
        said = subprocess.run(words, capture_output=True, text=True, check=True).stdout
    except (OSError, subprocess.CalledProcessError):
        return None
    machines = {MACHINES.get(machine) for machine in re.findall(r"Machine: +(.*)", said)}
    machine = machines.pop() if len(machines) == 1 else None
    needed = set(re.findall(r"\(NEEDED\).*\[(.*)\]", said))
    symbols = [int(minor) for minor in re.findall(r"Name: GLIBC_2\.(\d+)", said)]
    if machine and needed == {"libc.so"}:
        return "musllinux_1_2_%s" % machine
    if machine is None or not needed <= OF_GLIBC or not symbols:
        return None
    return "manylinux_2_%d_%s" % (max(OLDEST, *symbols), machine)


def build_library():
    """Builds the library of the checkout, or ends with a line that says why it can't be built."""
    if not (C / "Makefile").is_file():
        sys.exit(
            "hll_sketches: there is no C library to put into the package, as this folder isn't in a"
            " checkout. Install from a checkout, or name a library: LIBHLL=/path/to/libhll.so"
        )
    missing = [tool for tool in ("make", os.environ.get("CC", "cc")) if not shutil.which(tool)]
    if missing:
        sys.exit("hll_sketches: %s is needed to build the C library" % " and ".join(missing))
    make(C, INSIDE, "C library")
    if HAS_LINES:
        make(HERE, LINES, "module that splits lines")


def make(place, name, what):
    """Builds a file in the directory build/ of a place, or ends with a line."""
    done = subprocess.run(["make", "-s", "-C", str(place), "build/%s" % name])
    if done.returncode:
        sys.exit("hll_sketches: the %s can't be built in %s" % (what, place))


def put_inside(package, name, file):
    """Puts a file into the package that is built, or takes away that of an earlier build where there is no file."""
    if file is not None:
        shutil.copyfile(file, package / name)
    elif (package / name).exists():
        (package / name).unlink()


class BuildWithLibrary(build_py):
    def run(self):
        super().run()
        package = pathlib.Path(self.build_lib, "hll_sketches")
        if NAMED is None:
            build_library()
        if not getattr(self, "editable_mode", False):
            other = HAS_LIBRARY and of_windows_or_macos(LIBRARY)
            put_inside(package, other[1] if other else INSIDE, LIBRARY if HAS_LIBRARY else None)
            put_inside(package, LINES, MODULE if HAS_LINES else None)
        if HAS_LIBRARY and os.environ.get("HLL_TRIED"):
            (package / "TRIED").write_text(os.environ["HLL_TRIED"] + "\n")


class Package(Distribution):
    def has_ext_modules(self):
        return HAS_LIBRARY or HAS_LINES


class WheelOfAllVersions(bdist_wheel):
    def get_tag(self):
        _, _, platform = super().get_tag()
        inside = [LIBRARY] * HAS_LIBRARY + [MODULE] * HAS_LINES
        return "py3", "none", inside and platform_of(inside) or platform


commands = {"build_py": BuildWithLibrary, "bdist_wheel": WheelOfAllVersions}
setup(cmdclass=commands, distclass=Package)
