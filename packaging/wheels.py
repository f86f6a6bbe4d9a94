# SPDX-License-Identifier: Apache-2.0
"""The wheels of a release: how the library of each is built, and where it was tried."""
import dataclasses


@dataclasses.dataclass(frozen=True)
class Wheel:
    """A wheel."""

    name: str       # in messages
    tag: str        # a pattern of the platform's tag
    words: tuple    # for `make` in bindings/c; @TREE@ is the directory of the sources
    library: str    # what `make` builds, in bindings/c
    text: str       # the directory of prebuilt/ with its text
    needs: tuple    # packages of Debian that build it
    magic: bytes    # how its library begins, from byte 0 on
    machine: tuple  # the place of two bytes of the library that name its processor, and these
    tried: str      # where it was tried, in a sentence

    @property
    def has_module(self):
        """Whether it has the module that splits lines, which is for Linux."""
        return self.magic == ELF

    @property
    def is_in_checkout(self):
        """Whether a checkout has the text."""
        return "-" not in self.text


RISCV, WINDOWS = "riscv64-unknown-linux-gnu", "x86_64-w64-mingw32"
MODULE = "libhll_lines.so.1"
ELF, MACHO = b"\x7fELF", b"\xcf\xfa\xed\xfe"
X86, ARM = b"\x3e\x00", b"\xb7\x00"


def of_macos(processor, text, machine):
    place = "build/macos-" + processor
    words = ("CC=@TREE@/scripts/mac/cc " + processor, "AR=llvm-ar", "B=" + place, place + "/libhll.dylib")
    tried = "Nobody has run this on macOS. It was compiled and linked on Linux, with a list of what the system's library has."
    return Wheel("macOS on " + processor, "macosx_11_0_" + processor, words, place + "/libhll.dylib", text, ("clang", "lld", "llvm"), MACHO, (4, machine), tried)


WHEELS = [
    Wheel("x86-64", r"manylinux_2_\d+_x86_64", (), "build/libhll.so", "x86_64", (), ELF, (18, X86),
          "Run on Debian 11, 12 and 13, on x86-64."),
    Wheel("64-bit ARM", r"manylinux_2_\d+_aarch64", ("TARGET=aarch64-unknown-linux-gnu",), "build/aarch64-unknown-linux-gnu/libhll.so", "aarch64",
          ("gcc-aarch64-linux-gnu", "libc6-dev-arm64-cross"), ELF, (18, ARM), "Its library was run in an emulator (qemu), from C. Nobody has run the package."),
    Wheel("musl on x86-64", "musllinux_1_2_x86_64", ("CC=musl-gcc", "B=build/musl"), "build/musl/libhll.so", "x86_64", ("musl-tools",), ELF, (18, X86),
          "Its library was run by the loader of musl 1.2.3, from C. Nobody has run the package on Alpine."),
    Wheel("RISC-V", r"manylinux_2_\d+_riscv64", ("TARGET=" + RISCV,), "build/%s/libhll.so" % RISCV, "riscv64-linux-gnu",
          ("gcc-riscv64-linux-gnu", "libc6-dev-riscv64-cross"), ELF, (18, b"\xf3\x00"), "Its library was run in an emulator (qemu), from C and C++. Nobody has run the package."),
    Wheel("Windows on x86-64", "win_amd64", ("TARGET=" + WINDOWS,), "build/%s/hll.dll" % WINDOWS, "x86_64-windows-gnu", ("gcc-mingw-w64-x86-64-win32",), b"MZ", (0, b"MZ"),
          "Its library was run by Wine 8, from C. Nobody has run the package on Windows."),
    of_macos("x86_64", "x86_64-macos", b"\x07\x00"),
    of_macos("arm64", "aarch64-macos", b"\x0c\x00"),
]
