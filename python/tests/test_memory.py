"""Each request for memory of a call is refused in turn: it raises MemoryError, or does its work."""

import array
import unittest

from fastbloom import BlockedFilter, Filter, SharedBlockedFilter, SharedFilter

try:
    from _testcapi import remove_mem_hooks, set_nomemory
except ImportError:
    set_nomemory = None

KINDS = Filter, BlockedFilter, SharedFilter, SharedBlockedFilter


@unittest.skipUnless(set_nomemory, "this Python can't refuse memory")
class Memory(unittest.TestCase):
    def refuse_each(self, call):
        """Makes a call with one request refused, then another, until none is."""
        for first in range(1, 10_000):
            done = False
            set_nomemory(first, first + 1)
            try:
                call()
                done = True
            except MemoryError:
                pass
            finally:
                remove_mem_hooks()
            if done:
                return first
        self.fail("each request is refused")

    def test_each_call(self):
        hashes, items = array.array("Q", range(300)), ["crab", b"eel", "Krabbe ü", bytearray(b"a")]
        for kind in KINDS:
            seen, other = kind(100, "1/100"), kind(100, "1/100")
            seen.update(items)
            for call in (
                lambda: kind(100, "1/100"),
                lambda: seen.add("Aal ö"),
                lambda: "Aal ö" in seen,
                lambda: seen.hash(bytearray(b"eel")),
                lambda: seen.contains_hash(2**63),
                lambda: seen.update(items),
                lambda: seen.contains_many(items),
                lambda: seen.contains_hashes(hashes),
                lambda: seen.add_hashes_tell_new(hashes),
                lambda: seen.estimate(),
                lambda: seen.estimated_union(other),
                lambda: seen.false_positive_rate(),
                lambda: seen <= other,
                lambda: seen.count_ones(),
                lambda: (seen if kind in KINDS[:2] else seen.load()).to_bytes(),
                lambda: seen.key,
            ):
                self.refuse_each(call)
            self.assertEqual(seen.contains_many(items), [True] * 4)
            self.assertEqual(seen.contains_hashes(hashes).count(), 300)


if __name__ == "__main__":
    unittest.main()
