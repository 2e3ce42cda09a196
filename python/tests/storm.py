"""Threads that change one filter at once. Each case returns how many items were lost: none."""

import threading

from fastbloom import Filter

ITEMS = [b"%d" % number for number in range(20_000)]


def empty():
    return Filter(len(ITEMS), "1/1000")


def lost(seen):
    """How many of the items a filter doesn't contain."""
    return seen.contains_many(ITEMS).count(False)


def at_once(*tasks):
    """Runs the tasks in threads that begin together, and raises what one of them raised."""
    start, raised = threading.Barrier(len(tasks)), []

    def run(task):
        start.wait()
        try:
            task()
        except BaseException as error:
            raised.append(error)

    threads = [threading.Thread(target=run, args=(task,)) for task in tasks]
    for thread in threads:
        thread.start()
    for thread in threads:
        thread.join()
    if raised:
        raise raised[0]


def beside(work, change):
    """Does a work, and beside it changes something again and again until the work is done."""
    ended = threading.Event()

    def works():
        try:
            work()
        finally:
            ended.set()

    def changes():
        while not ended.is_set():
            change()

    at_once(works, changes)


def adds():
    """Threads that add items, each its own."""
    seen = empty()

    def add(part):
        for item in ITEMS[part::4]:
            seen.add(item)

    at_once(*(lambda part=part: add(part) for part in range(4)))
    return lost(seen)


def updates():
    """Threads that add many items by one call."""
    seen = empty()
    at_once(*(lambda part=part: seen.update(ITEMS[part::4]) for part in range(4)))
    return lost(seen)


def adds_beside_unions():
    """A thread adds items, and another one takes in an empty filter all the while."""
    seen, other = empty(), empty()

    def unite():
        nonlocal seen
        seen |= other

    beside(lambda: [seen.add(item) for item in ITEMS], unite)
    return lost(seen)


def adds_beside_intersections():
    """A thread adds items, and another one keeps what is in a filter of all of them."""
    seen, other = empty(), empty()
    other.update(ITEMS)

    def intersect():
        nonlocal seen
        seen &= other

    beside(lambda: [seen.add(item) for item in ITEMS], intersect)
    return lost(seen)


def unions_both_ways():
    """Two threads unite the same two filters, each the other way round."""
    one, other = empty(), empty()

    def unite(into, of, items):
        for at in range(0, len(items), 10):
            into.update(items[at : at + 10])
            into |= of

    at_once(lambda: unite(one, other, ITEMS[::2]), lambda: unite(other, one, ITEMS[1::2]))
    return lost(one | other)


def files_beside_adds():
    """Files that are made while a thread adds items are whole: the seal is that of the words."""
    seen, made = empty(), []
    beside(lambda: [seen.add(item) for item in ITEMS], lambda: made.append(seen.to_bytes()))
    for file in made[::10]:
        seen |= Filter.from_bytes(file)
    return lost(seen)


CASES = (
    adds,
    updates,
    adds_beside_unions,
    adds_beside_intersections,
    unions_both_ways,
    files_beside_adds,
)
