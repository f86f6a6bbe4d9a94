# SPDX-License-Identifier: Apache-2.0
"""The cases of tests/behaviour, the table that every binding runs: in Python, and by lines and files of the command ``hll``."""
import datetime
import decimal
import os
import struct
import sys
import tempfile
import unittest
import uuid
from base64 import b64encode
from functools import partial

import common  # noqa: F401
from behaviour import cases as table
from command import CommandTest
from hll_sketches import HllError, ImageError, Registers, Sketch, SketchUnion, coupon, fault_of, union_of
from hll_sketches.cli import main
from plain_hash import coupon_of

MAKE = {
    "text": bytes.decode,
    "surrogate": lambda written: chr(int(written, 16)),
    "bytes": bytes,
    "integer": int,
    "real": float,
    "boolean": "true".__eq__,
    "date": datetime.date.fromisoformat,
    "time": datetime.datetime.fromisoformat,
    "uuid": lambda written: uuid.UUID(bytes=written),
    "decimal": decimal.Decimal,
    "list": lambda written: [int(written)],
    "missing": lambda written: None,
}
ERRORS = HllError, TypeError, OverflowError, ValueError
EPOCH = datetime.datetime(1970, 1, 1)
# What docs/FORMAT.md says is hashed ("What values are hashed as").
BYTES = {
    "integer": lambda written: struct.pack("<Q", int(written) % 2**64),
    "real": lambda written: struct.pack("<d", float(written) + 0.0) if written != "nan" else bytes.fromhex("000000000000f87f"),
    "boolean": lambda written: struct.pack("<q", written == "true"),
    "date": lambda written: struct.pack("<q", MAKE["date"](written).toordinal() - 719163),
    "time": lambda written: struct.pack("<q", (MAKE["time"](written) - EPOCH) // datetime.timedelta(microseconds=1)),
}
PLAIN = "postgresql"        # which has no other result for a type that it has


def kept(image):
    """The coupon that an image has, or `missing`."""
    return "%08x" % struct.unpack_from("<I", image, 8)[0] if len(image) == 12 else "missing" if len(image) == 8 else image.hex()


def made_by(*ways, is_image=False):
    """What each of several ways in makes, or why it makes nothing: all results, if they differ. Of one image the reason is enough."""
    found = set()
    for way in ways:
        try:
            found.add(way())
        except ERRORS as error:
            found.add("rejected: %s" % (error.reason if is_image and isinstance(error, ImageError) else error))
    return " or ".join(sorted(found))


def after(call, *arguments, of=Sketch):
    """The sketch after one call."""
    made = of()
    getattr(made, call)(*arguments)
    return made


class BehaviourTest(CommandTest):
    maxDiff = None

    def of_value(self, value):
        one = made_by(lambda: kept(after("update", value).to_bytes()), lambda: "%08x" % coupon(value))
        many = one if value != value else made_by(lambda: kept(after("update_many", [value, value]).to_bytes()))    # NaN is missing there
        return one if many in (one, one.replace("rejected: ", "rejected: values[0]: "), one + " (values[0])") or value is None else one + " or " + many

    def of_image(self, image):
        """By each way in that takes one whole image."""
        path, fault = self.write("image.hll", image), fault_of(image)
        ways = [partial(Sketch.from_bytes, image), partial(Sketch.from_base64, b64encode(image)), partial(Sketch.read, path), partial(union_of, [image]),
                lambda: after("update", image, of=SketchUnion).sketch(), lambda: after("update_many", [image], of=SketchUnion).sketch()]
        found = made_by(*(lambda way=way: way().to_bytes().hex() for way in ways), is_image=True)
        return found if found.startswith("rejected") == (fault is not None) else "%s or %s" % (found, fault)

    def answer(self, call, given):
        fields = given.split() if isinstance(given, str) else []
        if call in MAKE:
            return self.of_value(MAKE[call](given))
        if call == "whole":
            return self.of_image(bytes.fromhex(given))
        if call == "union":
            bound, width, *images = fields
            return made_by(lambda: union_of(map(bytes.fromhex, images), int(bound) or None, int(width) or None).to_bytes().hex())
        if call == "new":
            return made_by(lambda: Sketch(*map(int, fields)).to_bytes().hex())
        if call == "many":
            return made_by(lambda: after("update_many", [{"null": None, "[]": []}.get(it, it) for it in fields]).to_bytes().hex())
        return made_by(lambda: after("add_coupons", [int(it, 16) for it in fields], of=Registers).to_bytes().hex())

    def test_behaviour(self):
        answers = [self.answer(case.call, case.arguments) for case in table.cases("python")]
        self.assertEqual("\n".join(table.faults("python", answers)), "")

    def test_documented_bytes(self):
        """The results are those of the bytes that docs/FORMAT.md says."""
        for kind, written, wanted in table.cases(PLAIN, "values.txt"):
            if kind != "single" and not wanted.startswith(("rejected", "missing")):
                self.assertEqual("%08x" % coupon_of(BYTES.get(kind, bytes)(written)), wanted, (kind, written))


class FilesTest(CommandTest):
    """The command ``hll``: a value is a line, and an image a file."""

    maxDiff = None

    def made(self, *words):
        """The image that a command writes into one.hll, or its error. A fork runs it, which takes a hundredth of the time of a process."""
        with tempfile.TemporaryFile() as said:
            child = os.fork()
            if child == 0:
                self.run_here(words, said.fileno())
            status = os.waitpid(child, 0)[1]
            said.seek(0)
            return "rejected: " + said.read().decode().replace("\n", " ") if status else self.read("one.hll").hex()

    def run_here(self, words, said):
        status = 1
        try:
            os.chdir(self.folder)
            os.dup2(said, 1)
            os.dup2(said, 2)
            sys.stdout, sys.stderr = open(1, "w"), open(2, "w")
            status = main(list(words))
        except SystemExit as ended:
            status = ended.code
        finally:
            sys.stderr.flush()
            os._exit(status)

    def answer(self, call, given):
        for name in self.listed():
            (self.folder / name).unlink()
        if call in ("text", "missing"):
            self.made("new", "one.hll")
            status, _, said = self.run_hll("add", "one.hll", "--raw", given=(given or b"") + b"\n")
            return "rejected: " + said if status else kept(self.read("one.hll"))
        if call == "whole":
            image = bytes.fromhex(given)
            self.write("a.hll", image)
            width = "%d" % [4, 6, 8, 8][image[7] >> 2 & 3 if len(image) > 7 else 2]
            return " or ".join(sorted({self.made("merge", "a.hll", "-o", "one.hll"), self.made("convert", "--width", width, "a.hll", "-o", "one.hll")}))
        bound, width, *images = given.split()
        if call == "new":
            return self.made("new", "one.hll", "--lg-k", bound, "--width", width)
        names = [self.write("images[%d]" % number, bytes.fromhex(image)).name for number, image in enumerate(images)]
        return self.made("merge", *["--lg-k", bound] * (bound != "0"), *["--width", width] * (width != "0"), *names, "-o", "one.hll")

    def test_behaviour(self):
        answers = [self.answer(case.call, case.arguments) for case in table.cases("hll")]
        self.assertEqual("\n".join(table.faults("hll", answers)), "")


if __name__ == "__main__":
    unittest.main()
