#!/usr/bin/env python3
"""Measures what docs/SQLITE.md tells, and prints its tables: tests/sqlite/bench.py FOLDER [ITEMS..]

For each number of items, by default 10^6 and 10^7, three databases in FOLDER get the same keys of
17 bytes in drawn order: a filter, a table of the keys, and one of their 64-bit hashes. Each has a
cache of 64 MB. Keys that are there and others are looked up, all in one statement: with the file in
the system's cache, and dropped from it. Then batches of 10^6 keys meet the largest table of keys,
dropped from the cache, by its index alone, and behind a filter. Times are of the clock, so nothing
should run beside it. It needs 2 GB of the disk.
"""
import math
import os
import random
import struct
import sys
import time
from pathlib import Path

from conftest import connect

COLD, WARM, BATCH = 20_000, 200_000, 10**6
WAYS = {
    "filter": ("VIRTUAL TABLE it USING bloom(items={}, rate='1/1000')", "item", "k"),
    "keys": ("TABLE it(k TEXT PRIMARY KEY) WITHOUT ROWID", "k", "k"),
    "hashes": ("TABLE it(h INTEGER PRIMARY KEY)", "h", "h"),
}
INDEX = "NOT EXISTS(SELECT 1 FROM it WHERE it.k = b.k)"
SHARES = (0, 1, 50)  # hundredths of a batch that are there


def digits(number, count=2):
    """A number with so many digits."""
    return f"{number:.{max(0, count - 1 - math.floor(math.log10(number)))}f}"


def say(text):
    print(f"{time.perf_counter() - BEGUN:.0f} s: {text}", file=sys.stderr, flush=True)


def open_database(path, keys):
    db = connect(path)
    db.execute("PRAGMA cache_size = -64000")
    db.execute("ATTACH ? AS keys", (keys,))
    return db


def drop_from_cache(path):
    file = os.open(path, os.O_RDONLY)
    os.fsync(file)
    os.posix_fadvise(file, 0, 0, os.POSIX_FADV_DONTNEED)
    os.close(file)


def timed(db, sql, *values):
    """The seconds that a statement takes, and the first value that it returns."""
    begun = time.perf_counter()
    row = db.execute(sql, values).fetchone()
    return time.perf_counter() - begun, row and row[0]


def make_keys(path, items, shares):
    """Tables of all keys, of some to look up, and of batches with these shares."""
    Path(path).unlink(missing_ok=True)
    draw = random.Random(items)
    numbers = struct.unpack(f"<{items}q", draw.randbytes(8 * items))
    others = struct.unpack(f"<{BATCH}q", draw.randbytes(8 * BATCH))
    tables = {"every": numbers, "present": draw.choices(numbers, k=WARM), "absent": others[:WARM]}
    for share in shares:
        there = draw.choices(numbers, k=BATCH)
        tables[f"batch{share}"] = [
            there[at] if at % 100 < share else others[at] for at in range(BATCH)
        ]
    db = connect(path)
    for name, some in tables.items():
        db.execute(f"CREATE TABLE {name}(k TEXT, h INTEGER)")
        db.execute("BEGIN")
        insert = f"INSERT INTO {name} VALUES(printf('k%016x', ?1), ?1)"
        db.executemany(insert, ((number,) for number in some))
        db.execute("COMMIT")
    db.close()


def measure(path, keys, items, way):
    """The cells of one column: megabytes, seconds of filling, and microseconds of look-ups."""
    shape, column, of = WAYS[way]
    Path(path).unlink(missing_ok=True)
    db = open_database(path, keys)
    db.execute(f"CREATE {shape.format(items)}")
    fill, _ = timed(db, f"INSERT OR IGNORE INTO it({column}) SELECT {of} FROM keys.every")
    cells = [digits(os.path.getsize(path) / 1e6, 3), digits(fill)]
    if way == "filter":
        db.execute("DROP TABLE it")
        db.execute(f"CREATE {shape.format(items)}")
        bloom = f"INSERT INTO it(file) SELECT bloom(k, {items}, '1/1000') FROM keys.every"
        cells[1] += "/" + digits(timed(db, bloom)[0])
    db.close()
    for state, count in (("warm", WARM), ("cold", COLD)):
        times = []
        for table in ("present", "absent"):
            ask = (
                f"SELECT count(*) FROM (SELECT * FROM keys.{table} LIMIT {count}) AS b "
                f"WHERE EXISTS(SELECT 1 FROM it WHERE {column} = b.{of})"
            )
            Path(path).read_bytes()
            if state == "cold":
                drop_from_cache(path)
            db = open_database(path, keys)
            if state == "warm":
                timed(db, ask)
            took, found = timed(db, ask)
            assert found == count if table == "present" else found < count / 500, found
            times.append(digits(took * 1e6 / count))
            db.close()
        cells.append("/".join(times))
    say(f"{items} {way}: {', '.join(cells)}")
    return cells


def measure_batches(path, keys, items):
    """The seconds that each batch takes by the index, and behind a filter."""
    db = open_database(path, keys)
    db.execute(f"CREATE VIRTUAL TABLE seen USING bloom(items={items}, rate='1/1000')")
    db.execute(f"INSERT INTO seen(file) SELECT bloom(k, {items}, '1/1000') FROM it")
    db.close()
    for share in SHARES:
        cells, all_new = [], set()
        for where in (INDEX, f"NOT bloom_in('seen', b.k) OR {INDEX}"):
            drop_from_cache(path)
            db = open_database(path, keys)
            took, new = timed(db, f"SELECT count(*) FROM keys.batch{share} b WHERE {where}")
            db.close()
            cells.append(digits(took))
            all_new.add(new)
        assert len(all_new) == 1, all_new
        say(f"a batch with {share} %: {', '.join(cells)}")
        yield cells


def main(folder, counts):
    columns, heads = [], []
    for items in counts:
        keys = f"{folder}/drawn.{items}"
        make_keys(keys, items, SHARES if items == counts[-1] else ())
        say(f"{items} keys")
        columns += [measure(f"{folder}/{way}.{items}", keys, items, way) for way in WAYS]
        heads += [f"10^{math.log10(items):g}: filter", "keys", "hashes"]
    index, behind = map("/".join, zip(*measure_batches(f"{folder}/keys.{items}", keys, items)))
    names = ("MB on disk", "fill, s: by items/by `bloom`")
    names += ("look-up in memory, µs: present/absent", "look-up from disk, µs")
    print("| |", " | ".join(heads), "|")
    print("|---|" + "--:|" * len(heads))
    for name, *cells in zip(names, *columns):
        print(f"| {name} | {' | '.join(cells)} |")
    print(
        f"\nA batch of 10^6 keys against 10^{math.log10(items):g} took {index} seconds by the index"
    )
    print(f"and {behind} behind `bloom_in`, where {'/'.join(map(str, SHARES))} % of it were there.")


if __name__ == "__main__":
    BEGUN = time.perf_counter()
    main(sys.argv[1], list(map(int, sys.argv[2:])) or [10**6, 10**7])
    say("all")
