"""Words outlive the filter that they were taken from, and no call reads those that are gone.

The full check also runs these by valgrind, which finds a read of freed memory.
"""

import array
import copy
import gc
import pickle
import threading
import unittest

from fastbloom import BlockedFilter, Filter, SharedBlockedFilter, SharedFilter

PLAIN, SHARED = (Filter, BlockedFilter), (SharedFilter, SharedBlockedFilter)
HASHES = array.array("Q", range(0, 2**64, 2**52))


def made(cls):
    seen = cls(10_000, "1/1000")
    seen.add_hashes(HASHES)
    return seen


def beside(call, work):
    """Makes a call again and again by another thread, while work is done."""
    done, raised = threading.Event(), []

    def run():
        try:
            while not done.is_set():
                call()
        except Exception as error:
            raised.append(error)

    other = threading.Thread(target=run)
    other.start()
    try:
        for _ in range(20):
            work()
    finally:
        done.set()
        other.join()
    return raised


class Freed(unittest.TestCase):
    def test_a_view_outlives_its_filter(self):
        for cls in PLAIN:
            seen = made(cls)
            view, words = seen.view(), seen.words()
            del seen
            gc.collect()
            self.assertEqual(view.tolist(), words)

    def test_a_pickle_outlives_its_filter(self):
        for cls in PLAIN:
            for number in range(6):
                buffers, seen = [], made(cls)
                handed = {"buffer_callback": buffers.append} if number == 5 else {}
                data = pickle.dumps(seen, number, **handed)
                del seen
                gc.collect()
                read = pickle.loads(data, buffers=buffers)
                del buffers
                gc.collect()
                self.assertEqual(read, made(cls))

    def test_a_copy_outlives_its_filter(self):
        ways = [lambda it: it.copy(), copy.deepcopy, lambda it: it | it, lambda it: it.union()]
        for cls in PLAIN + SHARED:
            for way in [lambda it: it.load(), lambda it: it.take()] if cls in SHARED else ways:
                seen = made(cls)
                other = way(seen)
                if cls in SHARED:
                    seen.release()
                del seen
                gc.collect()
                self.assertEqual(other.contains_hashes(HASHES).count(), len(HASHES))

    def test_a_filter_that_is_dropped_in_a_call(self):
        for cls in PLAIN + SHARED:
            filters = [made(cls)]

            def items():
                filters.clear()
                gc.collect()
                yield "crab"

            self.assertIsNone(filters[0].update(items()))
            filters.append(made(cls))
            self.assertIn(filters[0].contains_many(items()), ([False], [True]))

    def test_memory_that_a_filter_has_is_not_resized(self):
        for cls in SHARED:
            memory = bytearray(1 << 16)
            seen = cls.over(memory, 7)
            seen.add_hashes(HASHES)
            self.assertRaises(BufferError, memory.extend, bytes(64))
            seen.release()
            memory.extend(bytes(1 << 20))
            self.assertFalse(seen.add("crab") or seen.contains_hashes(HASHES).count())
            self.assertEqual(seen.count_ones(), 0)

    def test_hashes_are_not_resized_in_a_call(self):
        for cls in PLAIN + SHARED:
            seen, hashes = cls(10_000, "1/1000"), array.array("Q", HASHES)

            def resize():
                try:
                    hashes.append(5)
                    hashes.pop()
                except BufferError:
                    pass

            self.assertEqual(beside(resize, lambda: seen.add_hashes(hashes)), [])
            self.assertEqual(seen.contains_hashes(HASHES).count(), len(HASHES))

    def test_another_thread_copies_and_pickles(self):
        for cls in PLAIN:
            seen = made(cls)
            ways = [seen.copy, seen.words, seen.to_bytes, lambda: pickle.dumps(seen, 5)]
            for way in ways:
                adds = [lambda: seen.add_hashes(HASHES), lambda: seen.update(["crab"])]
                self.assertEqual([beside(way, work) for work in adds], [[], []])

    def test_another_thread_releases(self):
        for cls in SHARED:
            for name in ("add_hashes", "contains_hashes", "add_hashes_tell_new"):
                filters = [cls.over(bytearray(1 << 16), 7)]

                def replace():
                    filters[0].release()
                    filters[0] = cls.over(bytearray(1 << 16), 7)

                work = lambda: getattr(filters[0], name)(16 * HASHES)  # noqa: E731
                self.assertEqual(beside(replace, work), [])


if __name__ == "__main__":
    unittest.main()
