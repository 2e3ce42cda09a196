"""Uses of the package for a type checker. The last lines have to be refused.

`mypy --strict` tells an ignored error that isn't there, so it passes this file exactly if it takes
the first lines and refuses the last.
"""

from array import array
from fractions import Fraction
from pathlib import Path
from typing import List, Optional, Tuple, Union

from fastbloom import (
    AnyFilter,
    BlockedFilter,
    Filter,
    Mask,
    Refusal,
    RotatingFilter,
    SharedBlockedFilter,
    SharedFilter,
)


class Own(Filter):
    pass


def kept(path: str) -> Tuple[Filter, Own, Optional[int], List[bool]]:
    mine = Filter(1000, "1/1000", bytes(16))
    try:
        theirs = Own.load(path)
    except Refusal as refusal:
        raise SystemExit(refusal.code) from refusal
    mine.update(["a text", b"bytes", bytearray(b"more"), memoryview(b"and more")])
    mine.save(path.encode())
    mine |= Filter.load(Path(path), mapped=True)
    mine |= theirs
    low, high = mine.jaccard(theirs)
    was_in: bool = mine.add("a text")
    share: Fraction = high - low if was_in else low
    print("a text" in mine, share)
    return (
        mine,
        theirs.copy(),
        mine.estimate().high,
        mine.contains_many(iter(["a text"])),
    )


def fill(some: AnyFilter, names: List[str]) -> int:
    some.update(names, iter([b"bytes"]))
    fresh: Mask = some.add_hashes_tell_new(array("Q", [1, 2]))
    high: Optional[int] = some.estimate().high
    print(high, some.false_positive_rate()[1])
    return fresh.count() + sum(fresh[:1]) + some.count_ones() + some.capacity_for("1/1000")


def sets(mine: Own, other: Filter) -> Tuple[Own, Own, bool, float, memoryview]:
    fill(mine, ["a text"])
    fill(SharedFilter(10, "1/2"), ["a text"])
    mine.intersection_update(other, ["a text"])
    united = mine.union(other, ["a text"])
    return (
        united,
        mine.intersection(other),
        mine <= other,
        mine.approx_items,
        mine.view(),
    )


def shared(path: str, memory: bytearray) -> Tuple[Filter, Mask]:
    ours = SharedFilter.over(memory, 4)
    ours |= SharedFilter.map(Path(path))
    ours.update(["a text", b"bytes"])
    ours.add_hashes(array("Q", [1, 2]))
    was_in: bool = ours.add("a text")
    both: Filter = (ours | SharedFilter.map(path, max_words=10)) & ours.load()
    print("a text" in ours, was_in, ours <= ours, ours.approx_items, both)
    return ours.take(), ours.contains_hashes(array("Q", [1]))


def in_lines(theirs: BlockedFilter) -> Tuple[BlockedFilter, Mask]:
    fill(theirs, ["a text"])
    ours = SharedBlockedFilter.over(bytearray(64), 4)
    fill(ours, ["a text"])
    theirs |= ours.take()
    lines = BlockedFilter(10, "1/2", key=bytes(16))
    lines.save("lines.bloom", sealed=False)
    lines |= BlockedFilter.load(Path("lines.bloom"), mapped=True, max_hashes=None)
    lines |= BlockedFilter.from_bytes(lines.to_bytes())
    ours |= SharedBlockedFilter.map(b"lines.bloom")
    lines |= theirs
    lines.update(theirs, ["a text"])
    common: Optional[int] = lines.union(theirs, ["a text"]).estimated_common(theirs).high
    print(common, lines.issubset(theirs), lines.intersection(theirs) < lines)
    return lines & theirs.copy(), lines.contains_hashes(array("Q", [1]))


def last(names: List[str]) -> Tuple[Union[Filter, BlockedFilter], int, float]:
    seen = RotatingFilter(10, "1/1000", key=bytes(16))
    fresh = [name for name in names if not seen.add(name)]
    print(
        fresh,
        "a text" in seen,
        seen.add_hash(seen.hash(b"bytes")),
        seen.contains_hash(1),
    )
    return seen.older, seen.taken, seen.false_positive_rate()[1]


def refused(mine: Filter, ours: SharedFilter, lines: BlockedFilter) -> None:
    lines.add(5)  # type: ignore[arg-type]
    lines |= mine  # type: ignore[arg-type]
    ours.add(5)  # type: ignore[arg-type]
    mine.add(5)  # type: ignore[arg-type]
    mine.update([5])  # type: ignore[list-item]
    fill(set(), [])  # type: ignore[arg-type]
    lines.issubset(mine)  # type: ignore[arg-type]
    mine.capacity_for(None)  # type: ignore[arg-type]
    mine.issubset({"a text"})  # type: ignore[arg-type]
    RotatingFilter(10, "1/2").add(5)  # type: ignore[arg-type]
    Filter(1000, None)  # type: ignore[arg-type]
    mine.num_words = 3  # type: ignore[misc]
