"""python3 tests/try_replans.py [NUMBER [SEED]], by hand: 500 days made at random, each planned anew at a moment made at
random, glued and checked; and as many days with new orders, lost vehicles, visits taken back and vehicles that are
late."""

from __future__ import annotations

import os
import sys
import unittest

sys.path.insert(0, os.path.dirname(os.path.dirname(os.path.abspath(__file__))))

from tests.test_replan import RandomTests  # noqa: E402


def main() -> int:
    """Runs both; the exit status."""
    number, seed = ([int(word) for word in sys.argv[1:]] + [500, 50000][len(sys.argv) - 1:])[:2]
    suite = unittest.TestSuite([
        unittest.FunctionTestCase(lambda: RandomTests().test_the_plan_goes_on_at_any_moment(number, seed)),
        unittest.FunctionTestCase(lambda: RandomTests().test_days_that_change(number, seed)),
    ])
    return 0 if unittest.TextTestRunner().run(suite).wasSuccessful() else 1


if __name__ == "__main__":
    sys.exit(main())
