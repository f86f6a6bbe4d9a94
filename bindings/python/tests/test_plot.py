# SPDX-License-Identifier: Apache-2.0
"""`hll plot`: a well-formed picture of the histogram, and a theory that sketches follow."""
import math
import os
import re
import struct
import subprocess
import unittest
import xml.etree.ElementTree as ElementTree

import common  # noqa: F401, for the path
from command import COMMAND, CommandTest, TRUNCATED, environment
from hll_sketches import Database, Sketch, bars, plot
from test_package import SYSTEM, has, plain_environment

SVG = "{http://www.w3.org/2000/svg}"


def parts(data, tag, kind):
    """The elements of a picture with this tag and class."""
    root = ElementTree.fromstring(data)
    return [one for one in root.iter(SVG + tag) if one.get("class") == kind]


class PictureTest(CommandTest):
    def test_bars_are_the_histogram(self):
        for count in (0, 6, 60, 30_000):
            for width in (4, 8):
                made = Sketch(10, width)
                made.update_many(range(count))
                self.write("a.hll", made.to_bytes())
                self.succeeds("plot", "a.hll", "-o", "a.svg")
                self.compare(self.read("a.svg"), made)

    def compare(self, data, made):
        bars = [one for one in parts(data, "rect", "bar") if one.get("y") != "44"]
        counts = [count for count in made.histogram() if count]
        self.assertEqual(len(bars), len(counts))
        heights = [float(bar.get("height")) for bar in bars]
        for height, count in zip(heights, counts):
            self.assertAlmostEqual(height / max(heights), count / max(counts), 2)
        ground = ElementTree.fromstring(data).find(SVG + "rect")
        self.assertEqual((ground.get("class"), ground.get("width")), ("ground", str(plot.WIDTH)))
        self.assertIn(".ground{fill:white}", data.decode())
        self.assertIn(f"{made.estimate():,.0f} values", data.decode())

    def test_keys_of_a_database(self):
        """A bar for each key, as long as its estimate, with a line from its lower to its upper bound."""
        with Database(str(self.folder / "a.db"), ["day", "page"]) as database:
            for number, count in enumerate((0, 5, 300, 40_000, 10_000)):
                made = Sketch()
                made.update_many(range(count))
                database.update([(("d%d" % (number % 2), "<p%d>" % number), made)])
            self.succeeds("plot", "a.db", "-o", "a.svg")
            found = list(database.items())
        data = self.read("a.svg")
        widths = [float(bar.get("width")) for bar in parts(data, "rect", "bar")]
        most = max(one.bounds(2)[1] for _, one in found)
        self.assertEqual(len(widths), 5)
        for width, line, (_, one) in zip(widths, parts(data, "path", "theory"), found):
            self.assertAlmostEqual(width / widths[2], one.estimate() / found[2][1].estimate(), 2)
            low, high = map(float, re.fullmatch(r"M([\d.]+) [\d.]+H([\d.]+)", line.get("d")).groups())
            for place, bound in zip((low, high), one.bounds(2)):
                self.assertAlmostEqual((place - bars.NAMES) / (plot.WIDTH - plot.RIGHT - bars.NAMES), bound / (1.05 * most), 2)
        names = [one.text for one in parts(data, "text", "right")]
        self.assertEqual(names, ["d0 <p0>", "d0 <p2>", "d0 <p4>", "d1 <p1>", "d1 <p3>"])
        self.assertEqual(parts(data, "text", "title")[0].text, "a.db: distinct values of 5 keys")
        self.succeeds("plot", "a.db", "-o", "b.svg", "--by", "day", "--top", 1, "--title", "Days")
        self.assertEqual([one.text for one in parts(self.read("b.svg"), "text", "right")], ["d1"])
        self.fails(1, ["a.db: no key is chosen"], "plot", "a.db", "-o", "c.svg", "--where", "0")
        with Database(str(self.folder / "a.db")) as database:
            database.update([((str(number), ""), Sketch()) for number in range(300)])
        words = "a.db: a picture has at most 200 bars, and these are 305 keys (--by merges keys, and --top chooses some)"
        self.fails(1, [words], "plot", "a.db", "-o", "c.svg")
        self.succeeds("plot", "a.db", "-o", "c.svg", "--top", 200)
        self.write("one.hll", Sketch().to_bytes())
        self.fails(2, ["one.hll: it is no database of keys, which --top is for"], "plot", "one.hll", "-o", "d.svg", "--top", 3)

    def test_names(self):
        image = Sketch().to_bytes()
        name = b"a<b&\"\x01\xff\xc3\xa9.hll"
        self.write("a.hll", image)
        (self.folder / "a.hll").rename(self.folder / name.decode("utf-8", "surrogateescape"))
        data = self.succeeds("plot", name.decode("utf-8", "surrogateescape"), "-o", "-")
        heading = parts(data, "text", "title")[0].text
        self.assertTrue(heading.startswith('a<b&"??\u00e9.hll: 4,096 slots of coupons'), heading)
        data = self.succeeds("plot", "-", "-o", "-", "--title", "One & two", given=image)
        self.assertIn("One & two: ", parts(data, "text", "title")[0].text)
        root = ElementTree.fromstring(data)
        self.assertEqual(root.find(SVG + "title").text, parts(data, "text", "title")[0].text)
        self.assertEqual((root.get("role"), root.get("aria-labelledby")), ("img", "title"))
        data = plot.histogram_svg(image, "x" * 33).encode()
        self.assertTrue(parts(data, "text", "title")[0].text.startswith("x" * 31 + "\u2026: "))

    def test_full_registers(self):
        made = Sketch(4)
        for slot in range(16):
            made.add_coupon(slot, 63)
        self.assertEqual(made.estimate(), math.inf)
        data = plot.histogram_svg(made.to_bytes(), "full").encode()
        self.assertIn("more values than can be estimated", parts(data, "text", "title")[0].text)

    def test_refusals(self):
        self.write("a.hll", Sketch().to_bytes()[:5])
        self.fails(1, [f"a.hll: {TRUNCATED}"], "plot", "a.hll", "-o", "a.svg")
        for name in ("a.pdf", "a", "a.svg.gz", "svg", "a.hll"):
            status, out, err = self.run_hll("plot", "a.hll", "-o", name)
            self.assertEqual((status, out), (2, b""))
            self.assertIn(f"a picture is a file .svg or .png, or - for an SVG, not '{name}'\n", err)
        self.assertEqual(self.listed(), ["a.hll"])

    def test_png(self):
        """By cairosvg, of which this is a stand-in: it is given the same SVG, and what it makes is written."""
        self.write("a.hll", Sketch().to_bytes())
        svg = self.succeeds("plot", "a.hll", "-o", "-")
        self.write("stub/cairosvg.py", b"def svg2png(bytestring, scale): return b'PNG %d ' % scale + bytestring")
        path = {"PYTHONPATH": os.pathsep.join([str(self.folder / "stub"), str(common.PACKAGE)])}
        for name in ("a.png", "A.PNG"):
            done = subprocess.run([*COMMAND, "plot", "a.hll", "-o", name], cwd=self.folder, capture_output=True,
                                  env=dict(environment(), **path))
            self.assertEqual((done.returncode, done.stdout, done.stderr), (0, b"", b""))
            self.assertEqual(self.read(name), b"PNG 2 " + svg)

    def test_png_without_its_package(self):
        self.write("a.hll", Sketch().to_bytes())
        for stub, why in (("raise ImportError('no such module')", "no such module"), ("raise OSError('no libcairo')", "no libcairo")):
            self.write("stub/cairosvg.py", stub.encode())
            path = {"PYTHONPATH": os.pathsep.join([str(self.folder / "stub"), str(common.PACKAGE)])}
            done = subprocess.run([*COMMAND, "plot", "a.hll", "-o", "a.png"], cwd=self.folder, capture_output=True,
                                  text=True, env=dict(environment(), **path))
            wanted = f"hll: a.png: a PNG needs the Python package cairosvg, in Debian python3-cairosvg ({why}): write an SVG\n"
            self.assertEqual((done.returncode, done.stdout, done.stderr), (2, "", wanted))
        self.assertEqual(self.listed(), ["a.hll", "stub"])

    def test_png_of_cairosvg(self):
        """The package itself, by the system's Python if it has the package."""
        if not has(SYSTEM, "cairosvg"):
            self.skipTest("cairosvg is not here")
        made = Sketch(10)
        made.update_many(range(30_000))
        self.write("a.hll", made.to_bytes())
        done = subprocess.run([SYSTEM, "-m", "hll_sketches", "plot", "a.hll", "-o", "a.png"], cwd=self.folder,
                              capture_output=True, env=plain_environment(PYTHONPATH=str(common.PACKAGE)))
        self.assertEqual((done.returncode, done.stdout, done.stderr), (0, b"", b""))
        data = self.read("a.png")
        self.assertEqual((data[:8], data[12:16]), (b"\x89PNG\r\n\x1a\n", b"IHDR"))
        self.assertEqual(struct.unpack(">2I", data[16:24]), (2 * plot.WIDTH, 2 * plot.HEIGHT))

    def test_pipe(self):
        """A pipe has any name, and gets an SVG."""
        self.write("a.hll", Sketch().to_bytes())
        os.mkfifo(self.folder / "pipe")
        place = os.open(self.folder / "pipe", os.O_RDWR)
        self.addCleanup(os.close, place)
        self.succeeds("plot", "a.hll", "-o", "pipe")
        self.assertEqual(os.read(place, 1 << 16), self.succeeds("plot", "a.hll", "-o", "-"))


class TheoryTest(unittest.TestCase):
    def test_ends(self):
        self.assertEqual(plot.expected(0, 5), [32, *[0] * 63])
        self.assertEqual(plot.expected(math.inf, 5), [*[0] * 63, 32])
        one = plot.expected(1, 4)
        self.assertAlmostEqual(one[0], 15)
        self.assertAlmostEqual(one[1], 0.5)
        self.assertAlmostEqual(one[5], 1 / 32)
        for values in (3, 1000, 1e9, 1e18):
            self.assertAlmostEqual(sum(plot.expected(values, 12)), 4096, 6)

    def test_sketches_follow_it(self):
        for values in (2000, 20_000, 200_000):
            made = Sketch(12)
            made.update_many(range(values))
            theory = plot.expected(values, 12)
            for count, wanted in zip(made.histogram(), theory):
                spread = plot.deviation(wanted, 4096)
                self.assertLessEqual(abs(count - wanted), 5 * spread + 2)

    def test_steps_of_a_grid(self):
        for most in range(1, 5000):
            step = plot.step_of(most)
            self.assertTrue(1 <= most / step <= 10, (most, step))
            self.assertIn(int(str(step).rstrip("0")), (1, 2, 5))


if __name__ == "__main__":
    unittest.main()
