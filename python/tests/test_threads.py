"""Threads that change one filter at once lose nothing."""

import unittest

import storm


class Threads(unittest.TestCase):
    def test_nothing_is_lost(self):
        for case in storm.CASES:
            with self.subTest(case.__name__):
                self.assertEqual(case(), 0)


if __name__ == "__main__":
    unittest.main()
