"""What calls on many items cost, of a `Filter`, and of a `SharedFilter` by one thread and by more:
`bench.py [ITEMS [THREADS [ROUNDS [ITEMS_PER_CALL]]]]`.

Each line has the call, the threads, and the millions of items a second, of all rounds the best.
`update` and `contains_many` are given lists of buffers, of eight bytes each, and `in` one buffer at
a time; `add_hashes` and `contains_hashes` are given buffers of hashes. Every thread has items of
its own, so that all threads together handle as many. The last line of a call is its gain by
threads. A filter has ten bits for each item, and seven positions.
"""

import array
import sys
import threading
import time

from fastbloom import SharedFilter

ITEMS, THREADS, ROUNDS, AT_ONCE = [int(word) for word in sys.argv[1:]] + [1_000_000, 4, 5, 65_536][
    len(sys.argv) - 1 :
]


def spread(count):
    """The hashes of numbers, spread evenly: the finish of splitmix64."""
    mask, hashes = 2**64 - 1, array.array("Q")
    for number in range(1, count + 1):
        word = number * 0x9E3779B97F4A7C15 & mask
        word = (word ^ word >> 30) * 0xBF58476D1CE4E5B9 & mask
        word = (word ^ word >> 27) * 0x94D049BB133111EB & mask
        hashes.append(word ^ word >> 31)
    return hashes


def seconds(call, pieces, threads):
    """How long threads take for all pieces together, each for a part of its own.

    It is from the first thread's begin to the last one's end, as they tell it.
    """
    part, times = len(pieces) // threads, []
    begin = threading.Barrier(threads)

    def run(mine):
        begin.wait()
        began = time.perf_counter()
        for piece in mine:
            call(piece)
        times.append((began, time.perf_counter()))

    workers = [
        threading.Thread(target=run, args=(pieces[part * me : part * (me + 1)],))
        for me in range(threads)
    ]
    for worker in workers:
        worker.start()
    for worker in workers:
        worker.join()
    return max(ended for _, ended in times) - min(began for began, _ in times)


def main():
    pieces = max(THREADS, ITEMS // AT_ONCE // THREADS * THREADS)
    size = ITEMS // pieces
    hashes = spread(pieces * size)
    buffers_of_hashes = [hashes[size * at : size * (at + 1)] for at in range(pieces)]
    lists = [[word.to_bytes(8, "little") for word in piece] for piece in buffers_of_hashes]
    seen = SharedFilter.over(bytearray((len(hashes) * 10 + 63) // 64 * 8), 7)

    def look(piece):
        for item in piece:
            item in seen

    for name, call, given, clears in (
        ("update", seen.update, lists, True),
        ("contains_many", seen.contains_many, lists, False),
        ("in", look, lists, False),
        ("add_hashes", seen.add_hashes, buffers_of_hashes, True),
        ("contains_hashes", seen.contains_hashes, buffers_of_hashes, False),
    ):
        best = {}
        for _ in range(ROUNDS):
            for threads in (1, THREADS):
                if clears:
                    seen.clear()
                took = seconds(call, given, threads)
                best[threads] = min(took, best.get(threads, took))
        for threads, took in best.items():
            print(f"{name} {threads} {len(hashes) / took / 1e6:.2f}")
        print(f"{name} gain {best[1] / best[THREADS]:.2f}")


main()
