"""Times calls of Python's filters beside a set and, where Debian's python3-flor is, its filter.

usage: calls.py [ROUNDS [MOST]]      (9 rounds of each, in turn; of up to 10^6 keys)

It prints a row for each call and kind of keys: the nanoseconds of a key, of all rounds the best. A
filter is made for as many keys at 1/1000. Each call gets keys that weren't hashed before: texts and
bytes keep their hash, by which a set would skip that work. A set's contains_many is a list of `in`,
and flor, which
takes a hundred times as long, is given the UTF-8 of a text, and 10^4 keys alone.
"""

import hashlib
import sys
import time

from fastbloom import BlockedFilter, Filter, SharedBlockedFilter, SharedFilter

try:
    import flor
except ImportError:
    flor = None

KINDS = {
    "set": lambda count: set(),
    "Filter": lambda count: Filter(count, "1/1000"),
    "BlockedFilter": lambda count: BlockedFilter(count, "1/1000"),
    "SharedFilter": lambda count: SharedFilter(count, "1/1000"),
    "SharedBlockedFilter": lambda count: SharedBlockedFilter(count, "1/1000"),
}
if flor:
    KINDS["flor"] = lambda count: flor.BloomFilter(count + 1, 0.001)
REPEATS = {10_000: 5, 1_000_000: 1}  # of each number of keys in a round


def lines_of(name, count, length, type_of):
    """Lines of a length, as one text or as bytes: of a name and a number, in no order."""
    texts = (hashlib.md5(b"%s%d" % (name, number)).hexdigest() for number in range(count))
    lines = "\n".join(text[:length] for text in texts)
    return lines if type_of is str else lines.encode()


def add(seen, keys):
    for key in keys:
        seen.add(key)


def look_up(seen, keys):
    for key in keys:
        key in seen


def add_texts(seen, keys):
    for key in keys:
        seen.add(key.encode())


def look_up_texts(seen, keys):
    for key in keys:
        key.encode() in seen


def ask_many(seen, keys):
    return [key in seen for key in keys]


def calls_of(name, type_of):
    """The calls in their order: whether the keys were added, and what is done with them."""
    as_texts = name == "flor" and type_of is str
    yield "add", True, add_texts if as_texts else add
    yield "hit", True, look_up_texts if as_texts else look_up
    yield "miss", False, look_up_texts if as_texts else look_up
    if name != "flor":
        many = ask_many if name == "set" else lambda seen, keys: seen.contains_many(keys)
        yield "contains_many", True, many
        yield "update", True, lambda seen, keys: seen.update(keys)


def measure(best, count, length, type_of):
    """Makes each call of each kind, and keeps the least nanoseconds of a key."""
    lines = [lines_of(name, count, length, type_of) for name in (b"other", b"key")]
    for _ in range(REPEATS[count]):
        for name, make in KINDS.items():
            if name == "flor" and count > 10_000:
                continue
            seen = make(count)
            for call, were_added, work in calls_of(name, type_of):
                if call == "update":
                    seen = make(count)
                keys = lines[were_added].split()  # (new objects)
                begun = time.perf_counter()
                work(seen, keys)
                took = (time.perf_counter() - begun) / count * 1e9
                row = call, count, length, type_of.__name__, name
                best[row] = min(took, best.get(row, took))


def main(rounds=9, most=10**6):
    best = {}
    for _ in range(rounds):
        for count in REPEATS:
            for length in (10, 26) if count <= most else ():
                for type_of in (str, bytes):
                    measure(best, count, length, type_of)
    print("call", "keys", "length", "type", *KINDS)
    for row in dict.fromkeys(it[:4] for it in best):
        times = (f"{best[(*row, it)]:.0f}" if (*row, it) in best else "-" for it in KINDS)
        print(*row, *times)


main(*map(int, sys.argv[1:]))
