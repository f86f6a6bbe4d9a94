#!/usr/bin/env python3
# SPDX-License-Identifier: Apache-2.0
"""Tests scripts/make_html.py on HTML and shelves that are made up here, without pandoc. Prints TAP."""
import json
import pathlib
import re
import sys
import tempfile
import unittest
import unittest.mock

sys.dont_write_bytecode = True
sys.path.insert(0, str(pathlib.Path(__file__).resolve().parent))
import make_html  # noqa: E402
import reference  # noqa: E402
import unit_tests  # noqa: E402

SHELVES = "# All pages\n\n## Use\n\n- [The `a`](A.md): when.\n\n## Trust\n\n- [Page B](B.md): when.\n- [Low](../crates/low/README.md): what.\n"


class MakeHtmlTest(unittest.TestCase):
    def setUp(self):
        directory = tempfile.TemporaryDirectory()
        self.addCleanup(directory.cleanup)
        self.root = pathlib.Path(directory.name).resolve()
        self.shelves = self.root / "made" / "README.md"
        self.a, self.b, self.low = self.root / "made/A.md", self.root / "made/B.md", self.root / "crates/low/README.md"
        self.shelves.parent.mkdir()
        self.shelves.write_text(SHELVES)
        pages = [self.root / "README.md", self.shelves, self.a, self.b, self.low]
        for name, value in (("ROOT", self.root), ("SHELVES", self.shelves), ("pages", lambda: pages)):
            patch = unittest.mock.patch.object(make_html, name, value)
            patch.start()
            self.addCleanup(patch.stop)
        self.targets = {page: make_html.target_of(page) for page in pages}

    def test_shelves(self):
        shelves = make_html.read_shelves()
        self.assertEqual({"Use": [("The a", self.a)], "Trust": [("Page B", self.b), ("Low", self.low)]}, dict(shelves))
        self.assertEqual([], list(make_html.on_no_shelf(shelves)))
        shelves["Use"].clear()
        self.assertEqual(["on no shelf of docs/README.md: made/A.md"], list(make_html.on_no_shelf(shelves)))

    def test_the_place_of_a_page(self):
        shelves = make_html.read_shelves()
        self.assertEqual(("Trust", "Page B", None, ("Low", self.low)), make_html.place_of(self.b, shelves))
        shown = make_html.navigation(self.b, shelves, self.targets)
        self.assertIn('<a href="B.html" aria-current="page">Page B</a>', shown)
        self.assertEqual(1, shown.count("aria-current"))
        self.assertIn('<a href="../index.html">Start</a>', shown)
        self.assertIn("<details><summary>The crates", shown)
        self.assertIn("<details open><summary>The crates", make_html.navigation(self.low, shelves, self.targets))

    def test_links_get_names(self):
        text = '<a href="B.md#x">made/B.md, “X”</a> <a href="B.md"><code>made/B.md</code></a> <a href="a.c">a.c</a> <a href="https://e.org">e</a>'
        made = make_html.with_links(self.a, text, self.targets, make_html.names_of(make_html.read_shelves()))
        self.assertEqual('<a href="B.html#x">Page B, “X”</a> <a href="B.html"><code>made/B.md</code></a> a.c <a href="https://e.org">e</a>', made)

    def test_dead_links(self):
        for name, text in {"a.html": '<h2 id="x"></h2><a href="b.html#y"></a>', "b.html": '<a href="a.html#x"></a><img src="no.svg">'}.items():
            (self.root / name).write_text(text)
        self.assertEqual(["a.html: b.html#y", "b.html: no.svg"], list(make_html.dead_links(self.root)))

    def test_columns_of_numbers(self):
        table = "<table><tr><th>name</th><th>bytes</th></tr><tr><td>a</td><td>1,064</td></tr><tr><td>b</td><td>3.2 %</td></tr></table>"
        made = make_html.decorated(table)
        self.assertEqual(2, made.count('<td class="number">'))
        self.assertIn('<th class="number">bytes', made)
        self.assertNotIn("number", make_html.decorated(table.replace("3.2 %", "none")))

    def test_code_stays_whole(self):
        self.assertEqual('<code><span class="w">lg_k</span></code>', make_html.decorated("<code>lg_k</code>"))
        made = make_html.decorated(f"<code>{'a' * 30}/{'b' * 30}</code>")
        self.assertEqual(f"<code>{'a' * 30}/<wbr>{'b' * 30}</code>", made)

    def test_contracts(self):
        text = "Public names of low (scripts/surface.py).\n\npub use high::X;\nlow::f\n    pub fn f(x: u8)\n        ensures { A }\nlow::g\n    pub fn g()\n"
        self.assertEqual(["```rust\npub use high::X;\n```\n", "### `low::f`\n\n```rust\npub fn f(x: u8)\n    ensures { A }\n```\n",
                          "### `low::g`\n\n```rust\npub fn g()\n```\n"], list(reference.names_in(text)))

    def test_definitions(self):
        text = "-- SPDX-License-Identifier: Apache-2.0\n-- Folds.\nuse A.{b}\n\n-- the *greatest*,\n-- or 0\npub f : N\nf = 0\n\npub g : N\n"
        self.assertEqual(["Folds.\n", "the \\*greatest\\*, or 0\n", "```rust\npub f : N\nf = 0\n```\n", "```rust\npub g : N\n```\n"],
                         list(reference.definitions_in(text)))

    def test_powers(self):
        self.assertEqual("2<sup>lg_k</sup> 2<sup>-32</sup> <pre>2^3</pre>", make_html.with_powers("2^<code>lg_k</code> 2^-32 <pre>2^3</pre>"))

    def test_the_index(self):
        body = '<h1 id="t">T</h1>\n<p>alpha_beta</p>\n<h2 id="u">U</h2>\n<p>Alpha</p>'
        made = json.loads(re.fullmatch(r"window.INDEX = (.*);\n", make_html.index_of({self.a: ("The a", body)}, self.targets))[1])
        self.assertEqual([["The a", "The a", "made/A.html"], ["U", "The a", "made/A.html#u"]], [section[:3] for section in made["sections"]])
        self.assertEqual(("0 1", "0"), (made["words"]["alpha"], made["words"]["beta"]))


if __name__ == "__main__":
    sys.exit(unit_tests.run())
