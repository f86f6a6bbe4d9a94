#!/usr/bin/env python3
# SPDX-License-Identifier: Apache-2.0
"""Tests scripts/links.py on pages that are made up here. Prints TAP."""
import pathlib
import sys
import tempfile
import unittest
import unittest.mock

sys.dont_write_bytecode = True
sys.path.insert(0, str(pathlib.Path(__file__).resolve().parent))
import links  # noqa: E402
import unit_tests  # noqa: E402

PAGES = {
    "README.md": "# First\n\nSee [made/A.md](made/A.md).\n\n## Size\n",
    "made/A.md": "# Page A\n\n## The hash\n\n## What `lg_k` is, and isn't\n\n## Twice\n\n### Twice\n\n    ## Code\n\n```\n## Fence\n```\n",
    "made/B.md": "# Page B\n\n## Other\n",
}


class LinksTest(unittest.TestCase):
    def setUp(self):
        directory = tempfile.TemporaryDirectory()
        self.addCleanup(directory.cleanup)
        self.root = pathlib.Path(directory.name).resolve()
        root = unittest.mock.patch.object(links, "ROOT", self.root)
        root.start()
        self.addCleanup(root.stop)
        self.write(PAGES)

    def write(self, texts):
        for name, text in texts.items():
            (self.root / name).parent.mkdir(exist_ok=True)
            (self.root / name).write_text(text)
        for cached in (links.pages, links.sections_of, links.anchors_of):
            cached.cache_clear()

    def linked(self, text, name="made/B.md"):
        self.write({name: PAGES[name] + "\n" + text + "\n"})
        linker = links.Linker(self.root / name)
        made = linker.text(text + "\n").rstrip("\n")
        return made, [words for words, _ in linker.undecided]

    def assert_links(self, text, wanted, name="made/B.md"):
        made, undecided = self.linked(text, name)
        self.assertEqual((wanted, []), (made, undecided))
        self.assertEqual(wanted, links.Linker(self.root / name).text(wanted), "a second run changes it")

    def faults(self, texts):
        self.write(texts)
        near = links.reached(2)
        return [fault for name in texts for fault in links.faults_of(self.root / name, near)]

    def test_a_page_is_linked_from_its_folder(self):
        self.assert_links("as made/A.md says", "as [made/A.md](A.md) says")
        self.assert_links("as made/A.md says", "as [made/A.md](made/A.md) says", "README.md")
        self.assert_links("(README.md)", "([README.md](../README.md))")

    def test_a_section_after_a_page(self):
        self.assert_links('(made/A.md, "The hash")', '([made/A.md, "The hash"](A.md#the-hash))')
        self.assert_links('made/A.md ("The hash" and "Twice")', '[made/A.md](A.md) (["The hash"](A.md#the-hash) and ["Twice"](A.md#twice))')
        self.assert_links('"The hash" in made/A.md', '["The hash" in made/A.md](A.md#the-hash)')

    def test_a_section_after_a_link(self):
        self.assert_links('[made/A.md](A.md), "The hash"', '[made/A.md, "The hash"](A.md#the-hash)')

    def test_a_section_of_the_page_itself(self):
        self.assert_links('as "Other" says', 'as ["Other"](#other) says')

    def test_a_title_with_code(self):
        self.assert_links('made/A.md, "What `lg_k` is, and isn\'t"', '[made/A.md, "What `lg_k` is, and isn\'t"](A.md#what-lg_k-is-and-isnt)')

    def test_code_stays(self):
        for text in ("    made/A.md", "```\nmade/A.md\n```", "`cat made/A.md`"):
            self.assert_links(text, text)
        self.assert_links("`made/A.md`", "[`made/A.md`](A.md)")

    def test_words_in_quotes_stay(self):
        self.assert_links('a "word"', 'a "word"')

    def test_what_is_not_decided(self):
        self.assertEqual(['"The hash"'], self.linked('a "The hash"')[1])
        self.assertEqual(['made/A.md, "No such"'], self.linked('made/A.md, "No such"')[1])

    def test_anchors(self):
        found = [anchor for _, _, anchor in links.headings_in(PAGES["made/A.md"])]
        self.assertEqual(["page-a", "the-hash", "what-lg_k-is-and-isnt", "twice", "twice-1"], found)

    def test_faults(self):
        self.assertEqual([], self.faults({"made/A.md": "# A\n\n[README.md](../README.md)\n"}))
        self.assertEqual(["no link: README.md"], self.faults({"made/A.md": "# A\n\nREADME.md\n"}))
        self.assertEqual(["no file C.md"], self.faults({"made/A.md": "# A\n\n[c](C.md)\n"}))
        self.assertEqual(["no section ../README.md#none"], self.faults({"made/A.md": "# A\n\n[c](../README.md#none)\n"}))
        self.assertEqual(["no file C.md"], self.faults({"made/A.md": "# A\n\n[c, `d`](C.md), `e`\n"}))
        self.assertEqual(["README.md doesn't lead here in two steps"], self.faults({"made/B.md": "# B\n"}))
        self.assertEqual([], self.faults({"made/A.md": "# A\n\n[b](B.md)\n", "made/B.md": "# B\n"}))

    def test_installed_pages(self):
        text = "# A\n\n[b, `B`](B.md#other), [start](../README.md), ![x](x.svg), `[b](B.md)`, <https://e.org>, [here](#a)\n\n    [b](B.md)\n"
        self.write({**PAGES, "made/A.md": text})
        with tempfile.TemporaryDirectory() as directory:
            place = pathlib.Path(directory).resolve()
            for name in ("made/A.md", "made/B.md"):
                (place / pathlib.Path(name).name).write_text((self.root / name).read_text())
            (place / "README.md").write_text("# Another page\n")
            links.install(place)
            made = {file.name: file.read_text() for file in place.iterdir()}
        self.assertEqual("# A\n\n[b, `B`](B.md#other), start, x, `[b](B.md)`, <https://e.org>, [here](#a)\n\n    [b](B.md)\n", made["A.md"])
        self.assertEqual(PAGES["made/B.md"], made["B.md"])
        self.assertEqual([], list(links.dead_in(made)))
        self.assertEqual([], list(links.dead_in({"A.md.gz": made["A.md"], "B.md.gz": ""})))
        self.assertEqual(["A.md: B.md#other"], list(links.dead_in({"A.md": made["A.md"]})))

    def test_questions(self):
        row = '| Is it "so"? | Yes. | [B](B.md#other)%s |\n'
        table = "| question | in short | more |\n|---|---|---|\n"
        with unittest.mock.patch.object(links, "QUESTIONS", "made/A.md"), unittest.mock.patch.object(links, "FEWEST", 2):
            self.assertEqual([], self.faults({"made/A.md": table + row % "" + row % ", [too](B.md#other)"}))
            self.assertEqual(['leads to 0 sections, not to one or two: Is it "so"?'],
                             self.faults({"made/A.md": table + row % "" + row.replace("#other", "") % ""}))
            self.assertEqual(["1 questions, and there were 2"], self.faults({"made/A.md": table + row % ""}))
            self.assertEqual(["no section B.md#none"], self.faults({"made/A.md": table + row % "" + row % ", [too](B.md#none)"}))

    def test_a_long_page_has_contents(self):
        text = "# A\n\n" + "word " * 1600 + "\n\n## One\n\n## Two\n\n## Three\n"
        self.assertEqual(["the list of contents is not that of the sections"], self.faults({"made/A.md": text}))
        made = links.with_contents(self.root / "made/A.md", text)
        self.assertIn("\n\n**On this page:** [One](#one) · [Two](#two) · [Three](#three)\n\n## One\n", made)
        self.assertEqual([], self.faults({"made/A.md": made}))
        self.assertEqual(made, links.with_contents(self.root / "made/A.md", made))


if __name__ == "__main__":
    sys.exit(unit_tests.run())
