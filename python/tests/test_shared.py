"""Threads and processes that fill one filter at once lose nothing."""

import array
import mmap
import multiprocessing
import os
import pickle
import time
import tempfile
import threading
import unittest
from fractions import Fraction
from multiprocessing import shared_memory
from pathlib import Path

from fastbloom import BlockedFilter, Filter, Refusal, SharedBlockedFilter, SharedFilter

RUNS = int(os.environ.get("FASTBLOOM_RUNS", "20"))
HASHES, THREADS, WORKERS, WORDS = 1_000_000, 8, 4, 30_011


def hashes_of(count):
    """The hashes of numbers, spread evenly: the states of splitmix64's finish, by its odd step."""
    mask = 2**64 - 1
    return array.array(
        "Q", ((number * 0x9E3779B97F4A7C15) & mask for number in range(1, count + 1))
    )


def zeros(words=WORDS, hashes=1):
    return SharedFilter.over(bytearray(8 * words), hashes)


def fill_memory(name, words, part):
    """A process that adds part of the items to a filter in memory that processes share."""
    memory = shared_memory.SharedMemory(name)
    seen = SharedFilter.over(memory.buf[: 8 * words], 3)
    seen.update(b"%d" % number for number in range(part, 20_000, WORKERS))
    seen.release()
    memory.close()


def fill_file(path, part):
    """A process that adds part of the items to a filter in a mapped file."""
    seen = SharedFilter.map(path)
    for number in range(part, 20_000, WORKERS):
        seen.add(b"%d" % number)


def run_workers(task, *arguments):
    context = multiprocessing.get_context("spawn")
    workers = [context.Process(target=task, args=(*arguments, part)) for part in range(WORKERS)]
    for worker in workers:
        worker.start()
    for worker in workers:
        worker.join(120)
    return [worker.exitcode for worker in workers]


class Threads(unittest.TestCase):
    @classmethod
    def setUpClass(cls):
        cls.hashes = hashes_of(HASHES)
        cls.plain = zeros().take()
        for value in cls.hashes:
            cls.plain.add_hash(value)

    def run_threads(self, work):
        """What each thread counts, of hashes each of which another thread adds too."""
        part, step = HASHES // (THREADS // 2), HASHES // THREADS
        twice = self.hashes + self.hashes
        parts = [twice[step * me : step * me + part] for me in range(THREADS)]
        begin, counts = threading.Barrier(THREADS), []

        def run(hashes):
            begin.wait()
            counts.append(work(hashes))

        threads = [threading.Thread(target=run, args=(hashes,)) for hashes in parts]
        for thread in threads:
            thread.start()
        for thread in threads:
            thread.join()
        self.assertEqual(len(counts), THREADS)
        return sum(counts)

    def test_threads_add_at_once_and_lose_no_bit(self):
        for run in range(RUNS):
            seen = zeros()
            if run % 2:
                self.run_threads(lambda hashes: seen.add_hashes(hashes) or 0)
            else:
                news = self.run_threads(lambda hashes: seen.add_hashes_tell_new(hashes).count(True))
                self.assertEqual(news, self.plain.count_ones())
            self.assertEqual(seen.load(), self.plain)
            self.assertEqual(seen.count_ones(), self.plain.count_ones())

    def test_threads_add_one_by_one_and_lose_no_bit(self):
        seen = zeros()

        def add(hashes):
            return sum(not seen.add_hash(value) for value in hashes[::5])

        news = self.run_threads(add)
        self.assertEqual(news, seen.count_ones())
        part = self.hashes[: HASHES // THREADS : 5]
        self.assertEqual(seen.contains_hashes(part), [True] * len(part))

    def test_what_is_taken_and_what_is_left_is_all(self):
        seen, ended, taken = zeros(), threading.Event(), Filter(1, "1/2")
        taken = seen.load()

        def take():
            nonlocal taken
            while not ended.is_set():
                taken |= seen.take()

        taker = threading.Thread(target=take)
        taker.start()
        self.run_threads(
            lambda hashes: [
                seen.add_hashes(hashes[at : at + 1000]) for at in range(0, len(hashes), 1000)
            ].count(1)
        )
        ended.set()
        taker.join()
        taken |= seen.load()
        self.assertEqual(taken, self.plain)


class Processes(unittest.TestCase):
    def setUp(self):
        self.wanted = Filter(20_000, "1/100")
        self.wanted.update(b"%d" % number for number in range(20_000))

    def test_processes_fill_memory_that_they_share(self):
        words = 5000
        memory = shared_memory.SharedMemory(create=True, size=8 * words)
        try:
            self.assertEqual(run_workers(fill_memory, memory.name, words), [0] * WORKERS)
            seen = SharedFilter.over(memory.buf[: 8 * words], 3)
            plain = zeros(words, 3).take()
            plain.update(b"%d" % number for number in range(20_000))
            self.assertEqual(seen.load(), plain)
            seen.release()
        finally:
            memory.close()
            memory.unlink()

    def test_processes_that_are_forked_fill_one_filter(self):
        for filters in (SharedFilter, SharedBlockedFilter):
            seen = filters(1000, "1/1000")
            child = os.fork()
            if child == 0:
                os._exit(0 if not seen.add("crab") else 1)
            self.assertEqual(os.waitpid(child, 0)[1], 0)
            self.assertIn("crab", seen)
            self.assertNotIn("whale", seen)

    def test_processes_fill_a_mapped_file(self):
        with tempfile.TemporaryDirectory() as folder:
            path = str(Path(folder) / "seen.bloom")
            Filter(20_000, "1/100").save(path, sealed=False)
            self.assertEqual(run_workers(fill_file, path), [0] * WORKERS)
            self.assertEqual(Filter.load(path), self.wanted)
            self.wanted.save(path)
            with self.assertRaisesRegex(ValueError, "has a seal"):
                SharedFilter.map(path)


class Calls(unittest.TestCase):
    def test_one_thread_gets_what_a_plain_filter_gives(self):
        key = bytes(range(16))
        seen, plain = SharedFilter(100, "1/100", key), Filter(100, "1/100", key)
        self.assertEqual(
            (seen.num_bits, seen.num_hashes, seen.key),
            (plain.num_bits, plain.num_hashes, plain.key),
        )
        for number in range(150):
            item = f"item{number}"
            self.assertEqual(item in seen, item in plain)
            self.assertEqual(seen.add(item), plain.add(item))
            self.assertEqual(seen.hash(item), plain.hash(item))
            self.assertEqual(seen.contains_hash(number), plain.contains_hash(number))
            self.assertEqual(seen.add_hash(number), plain.add_hash(number))
        items = [f"item{number}" for number in range(100, 10_000)]
        self.assertEqual(seen.contains_many(items), plain.contains_many(items))
        seen.update(items)
        plain.update(items)
        self.assertEqual(seen.load(), plain)
        self.assertEqual(seen.take(), plain)
        self.assertEqual(seen.count_ones(), 0)

    def test_unions_and_intersections(self):
        one, other = zeros(5, 2), zeros(5, 2)
        one.update(["crab", "lobster"])
        other.update(["lobster", "whale"])
        both = one.load() | other.load()
        one |= other
        self.assertEqual(one.load(), both)
        one &= other
        self.assertEqual(one.load(), other.load())
        one.clear()
        self.assertEqual(one.count_ones(), 0)
        with self.assertRaisesRegex(ValueError, "differ in num_words"):
            one |= zeros(6, 2)
        with self.assertRaisesRegex(ValueError, "differ in num_hashes"):
            one &= zeros(5, 3)
        with self.assertRaises(TypeError):
            one |= Filter(1, "1/2")

    def test_two_filters_make_a_plain_one_and_are_compared(self):
        for filters, plain in (
            (SharedFilter, Filter),
            (SharedBlockedFilter, BlockedFilter),
        ):
            less, more, other = (filters(1000, "1/1000") for _ in range(3))
            less.update(["crab"])
            more.update(["crab", "eel"])
            other.update(["eel", "whale"])
            for made, items in (
                (more | other, ["crab", "eel", "whale"]),
                (more & other, ["eel"]),
            ):
                wanted = plain(1000, "1/1000")
                wanted.update(items)
                self.assertTrue(type(made) is plain and wanted <= made)
            self.assertEqual((more | less, more & less), (more.load(), less.load()))
            self.assertTrue(less <= more and less < more and more >= less and more > less)
            self.assertTrue(less.issubset(more) and more.issuperset(less) and less <= less)
            self.assertFalse(more <= less or less < less or less > less or other <= more)
            for call in ("__or__", "__and__", "__le__", "__ge__"):
                self.assertIs(getattr(less, call)(less.load()), NotImplemented)
                self.assertRaises(ValueError, getattr(less, call), filters(10, "1/2"))
            self.assertRaises(TypeError, less.issubset, {"crab"})
            less.release()
            self.assertRaises(ValueError, less.issubset, more)

    def test_a_filter_tells_its_rate_and_its_items_as_a_plain_one_does(self):
        for filters in (SharedFilter, SharedBlockedFilter):
            seen = filters(1000, "1/1000")
            seen.update(f"item{number}" for number in range(500))
            plain = seen.load()
            for call in ("exact_false_positive_rate", "expected_false_positive_rate"):
                more = (500,) if "expected" in call else ()
                self.assertEqual(getattr(seen, call)(*more), getattr(plain, call)(*more))
            self.assertEqual(seen.estimate(), plain.estimate())
            self.assertEqual(seen.approx_items, plain.approx_items)
            self.assertEqual(seen.false_positive_rate(), plain.false_positive_rate())
            self.assertTrue(490 < seen.approx_items < 510)

    def test_how_many_items_a_size_takes(self):
        """By one hash, of n items each bit is set at a rate of 1 - (63/64)^n: half at 44.01."""
        seen = zeros(1, 1)
        self.assertEqual((seen.capacity_for("1/2"), seen.load().capacity_for("1/2")), (44, 44))
        self.assertEqual((seen.capacity_for("1/64"), seen.capacity_for("1/65")), (1, 0))
        self.assertEqual(seen.expected_rate(1)[0], seen.load().expected_rate(1)[0])
        for rate in ("1/1000", "1/2", "1/1000000"):
            seen = Filter(10_000, rate)
            capacity = seen.capacity_for(rate)
            at, above = (seen.exact_expected_false_positive_rate(capacity + it) for it in (0, 1))
            self.assertTrue(at[1] <= Fraction(rate) < above[1])
            self.assertTrue(9_900 < capacity < 10_500, capacity)
        self.assertRaises(ValueError, seen.capacity_for, 1)
        self.assertRaises(TypeError, seen.capacity_for, None)

    def test_hashes_of_buffers(self):
        seen = zeros(5, 1)
        self.assertEqual(seen.add_hashes_tell_new(array.array("Q", [5, 5])), [True, False])
        self.assertEqual(seen.contains_hashes(memoryview(bytes(16)).cast("Q")), [True, True])
        self.assertEqual(seen.contains_hashes(array.array("Q")), [])
        for refused in (
            b"12345678",
            array.array("q", [1]),
            array.array("d", [1]),
            memoryview(array.array("Q", [1, 2, 3]))[::2],
        ):
            with self.assertRaises(TypeError):
                seen.add_hashes(refused)

    def test_what_is_refused(self):
        with self.assertRaises(Refusal) as refused:
            SharedFilter.over(bytearray(), 1)
        self.assertEqual(refused.exception.code, 2)
        with self.assertRaises(TypeError):
            SharedFilter.over(bytes(8), 1)
        for buffer in (bytearray(9), memoryview(bytearray(24))[4:12]):
            with self.assertRaisesRegex(ValueError, "eight bytes"):
                SharedFilter.over(buffer, 1)
        for filters, size in ((SharedFilter, 8), (SharedBlockedFilter, 64)):
            for hashes in (0, 2**32):
                with self.assertRaises(ValueError):
                    filters.over(bytearray(size), hashes)
            for hashes in (7.0, "7", None):
                with self.assertRaises(TypeError):
                    filters.over(bytearray(size), hashes)
        with self.assertRaisesRegex(TypeError, "isn't pickled"):
            pickle.dumps(zeros(1))
        with self.assertRaisesRegex(TypeError, "made once"):
            zeros(1).__init__(1, "1/2")

    def test_a_number_of_hashes_may_be_another_kind_of_integer(self):
        class Seven:
            def __index__(self):
                return 7

        for filters in (SharedFilter, SharedBlockedFilter):
            seen = filters.over(bytearray(64), Seven())
            self.assertFalse(seen.add("crab"))
            self.assertTrue("crab" in seen and seen.num_hashes == 7)

    def test_a_size_for_which_there_is_no_memory(self):
        for filters in (SharedFilter, SharedBlockedFilter):
            self.assertRaises(MemoryError, filters, 10**16, "1/1000")

    def test_a_filter_that_was_released_has_no_words(self):
        memory = mmap.mmap(-1, 4096)
        seen = SharedFilter.over(memory, 1)
        seen.add("crab")
        with self.assertRaises(BufferError):
            memory.close()
        seen.release()
        self.assertFalse(seen.add("crab") or "crab" in seen or seen.count_ones())
        with self.assertRaises(Refusal):
            seen.load()
        memory.close()

    def test_a_call_that_a_release_interrupts_ends_with_the_words_that_it_had(self):
        """Another thread releases the filter, and closes its memory once no call has it."""
        hashes = array.array("Q", range(0, 2**64, 2**50))
        for filters in (SharedFilter, SharedBlockedFilter):
            for name in ("add_hashes", "contains_hashes", "add_hashes_tell_new"):
                memory, started = mmap.mmap(-1, 1 << 22), threading.Event()
                seen = filters.over(memory, 7)

                def release():
                    started.wait()
                    seen.release()
                    while not memory.closed:
                        try:
                            memory.close()
                        except BufferError:
                            time.sleep(0)

                other = threading.Thread(target=release)
                other.start()
                started.set()
                for _ in range(3):
                    told = getattr(seen, name)(hashes)
                other.join()
                self.assertEqual((seen.num_words, memory.closed), (0, True))
                if told is not None:
                    self.assertEqual(told.count(), 0)

    def test_an_item_that_releases_the_words_is_not_kept(self):
        for filters, size in ((SharedFilter, 8), (SharedBlockedFilter, 64)):
            memory = bytearray(size)
            seen = filters.over(memory, 1)

            def items():
                yield "crab"
                seen.release()
                memory.append(0)  # which a view of it would refuse
                yield "eel"

            seen.update(items())
            self.assertEqual((bytes(memory), seen.num_words), (bytes(size + 1), 0))

    def test_a_buffer_that_was_refused_is_not_kept(self):
        for filters in (SharedFilter, SharedBlockedFilter):
            for size, hashes, key in (
                (0, 1, bytes(16)),
                (9, 1, bytes(16)),
                (64, 1, bytes(15)),
            ):
                memory = bytearray(size)
                try:
                    filters.over(memory, hashes, key)
                except ValueError:
                    memory.append(1)  # which a view of it would refuse
                else:
                    self.fail("it wasn't refused")

    def test_a_number_that_releases_the_words_changes_nothing(self):
        for filters, size in ((SharedFilter, 8), (SharedBlockedFilter, 64)):
            memory = bytearray(size)
            for name in ("add_hash", "contains_hash"):
                seen = filters.over(memory, 1)

                class Index:
                    def __index__(self):
                        seen.release()
                        memory[:] = b"\xff" * size
                        return 5

                memory[:] = bytes(size)
                self.assertFalse(getattr(seen, name)(Index()))
                self.assertEqual(memory, b"\xff" * size)


if __name__ == "__main__":
    unittest.main()
