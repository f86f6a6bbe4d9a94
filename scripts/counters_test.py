#!/usr/bin/env python3
# SPDX-License-Identifier: Apache-2.0
"""Tests that no binding grows a state itself: all of them use `hll_counter` of hll.h. The last line is 'N passed, M failed'."""
import pathlib
import re
import sys
import unittest

sys.dont_write_bytecode = True
sys.path.insert(0, str(pathlib.Path(__file__).resolve().parent))
import states_test  # noqa: E402
import unit_tests  # noqa: E402

OWN = {"bindings/c/counter.c", "bindings/c/hll.h", "bindings/c/hll_state.h", "bindings/c/proved_calls.h", "bindings/c/state.c"}
"""The counter, and the calls on states."""

COMPARED = {"bindings/cpp/bench.cpp"}
"""Compares the sketches of C++ with a state."""

GROWING = re.compile(r"(?<!proved_)\bhll_state_(?:new|add|join)\w*|\b(?:HLL_)?STATE_(?:NEW|MOST)\b")
"""The calls that need more room, also as text for a loader of libraries, and the sizes of room."""


def sources():
    """The names and texts of the files of bindings, without their tests."""
    for name, text in states_test.sources():
        if name.startswith("bindings/") and "/tests/" not in name and not name.endswith("_test.go"):
            yield name, text


def growing(name, text):
    """What a file says of growing a state."""
    return [] if name in OWN | COMPARED else [f"{name}: {hit[0]}" for hit in GROWING.finditer(text)]


class CountersTest(unittest.TestCase):
    def test_no_binding_grows_a_state(self):
        self.assertEqual([line for name, text in sources() for line in growing(name, text)], [])

    def test_each_binding_is_read(self):
        read = {name.split("/")[1] for name, _ in sources()}
        self.assertLessEqual({"c", "cpp", "go", "postgresql", "python", "rust", "sqlite"}, read)
        named = {name for name, text in sources() if "hll_counter" in text}
        for name in ("c/counter.c", "cpp/hll.hpp", "go/hll.go", "python/hll_sketches/_library.py"):
            self.assertIn("bindings/" + name, named)

    def test_files_that_are_left_out_grow_states(self):
        texts = dict(sources())
        for name in OWN | COMPARED:
            self.assertTrue(name not in texts or GROWING.search(texts[name]), name)
        self.assertLessEqual(OWN, texts.keys())

    def test_growing_is_found(self):
        for text in (
            "status = hll_state_new(12, state, room);",
            "while (hll_state_add(at, room, &size, bytes, len, ends, n) == HLL_BUFFER)",
            "C.hll_state_add_value(s.first(), s.room(), &needed, value, length)",
            "unsafe { hll_state_add_coupons(state, room, &mut size, coupons, n) }",
            "_library.hll_state_join(lg_max_k, state, len(state), byref(size), image, len(image))",
            '"hll_state_join_state": _STATE,',
            "std::malloc(HLL_STATE_NEW)",
            "size_t room = HLL_STATE_MOST(lg_k);",
            "state: make([]byte, int(C.HLL_STATE_NEW))",
            "STATE_NEW = 40",
        ):
            self.assertEqual(len(growing("bindings/new/file.c", text)), 1, text)

    def test_readers_are_not_found(self):
        for text in ("hll_state_info(state, room, &said, sizeof said)", "hll_state_summary said;", "hll_state_image(", "hll_counter_join("):
            self.assertEqual(growing("bindings/new/file.c", text), [])


if __name__ == "__main__":
    sys.exit(unit_tests.run())
