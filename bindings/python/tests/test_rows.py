# SPDX-License-Identifier: Apache-2.0
"""The worked rows of plans and the walks, carried out by calls of the package alone (docs/PLAN.md, "Rows")."""
import unittest

import common  # noqa: F401, for the path
import row_plans
from rows import rows_in, texts


class RowsTest(unittest.TestCase):
    def test_rows(self):
        ran, passed_over = 0, 0
        for plan, mark, words in (row for path in texts() for row in rows_in(path)):
            wanted = f"{mark} {words}"
            answer = row_plans.answer(plan, wanted)
            if answer is None:
                passed_over += 1
                continue
            ran += 1
            with self.subTest(plan=plan[:200]):
                self.assertEqual(answer, row_plans.with_words(wanted))
        print(f"{ran} rows were run, {passed_over} of the text alone were passed over")
        self.assertGreater(ran, 1000)
        self.assertLess(passed_over, 100)


if __name__ == "__main__":
    unittest.main()
