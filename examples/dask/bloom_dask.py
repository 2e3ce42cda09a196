"""Filters of keys that lie on many machines, built and asked on a dask.distributed cluster.

    filter = build(client, ["a.keys", "b.keys"], 1_000_000, "1/1000").result()
    filter.save("all.bloom")

The parts of the keys are files of lines, the partitions of a dask.bag of texts or bytes, or those
of a column of a dask.dataframe. There are as many rows of parts as workers have threads: a worker
adds the keys of a part to the filter of the parts before it in the row, and a tree of unions makes
one filter of the rows. So a worker keeps the filter of its row, and during a task the one that it
makes, or those that it unites.

The union is the filter of all keys in whatever order, number and nesting the parts come:
`laws::union_of_any_parts` of the crate `summaries_engine` proves it. So a task that ran twice, or
that another worker did again, changes nothing.

Filters travel by pickle, as their words, which have no seal; the files that they are saved to have
one. Workers need the package fastbloom and this module, which `client.upload_file` sends.
"""

import os
from uuid import uuid4

from dask import delayed
from dask.delayed import Delayed
from dask.sizeof import sizeof
from distributed import Future

from fastbloom import Filter, SharedFilter

NO_KEY = bytes(16)
RETRIES = 3  # how often a task that failed is done again


class PartError(Exception):
    """A part of the keys that can't be read, or has something else than texts and bytes."""


@sizeof.register(Filter)
def _size(filter):
    """What the scheduler takes a filter for, when it chooses a task's worker."""
    return filter.num_bits // 8


def build(client, parts, items, rate, key=NO_KEY, retries=RETRIES):
    """A future of the filter of all keys of all parts. It waits for a first worker.

    `parts` is a list of files, a dask.bag, or a column of a dask.dataframe. `items`, `rate` and
    `key` are those of `Filter`, and are refused at once as there. The future raises PartError for a
    part that can't be read, also after as many retries.
    """
    SharedFilter(items, rate, key)  # which takes no memory until something is added
    parts = _named(parts)
    if not parts:
        raise ValueError("there is no part")
    client.wait_for_workers(1)
    # All workers may have gone since. The rows wait for the next one then.
    rows = min(len(parts), sum(client.nthreads().values()) or 1)
    made = _tree([_row(parts[row::rows], items, rate, key) for row in range(rows)])
    return client.compute(made, retries=retries)


def unite(client, filters, retries=RETRIES):
    """A future of the union of filters, or of futures of filters.

    It raises ValueError where two of them differ in their size, number of hashes or key.
    """
    united = _tree(list(map(_task_of, filters)))
    return client.compute(delayed(united), retries=retries)


def ask(client, filter, parts, retries=RETRIES):
    """Futures of each part's keys that the filter, or a future of one, may contain, in order.

    The filter is sent to each worker once. `parts` and `retries` are as for `build`.
    """
    if isinstance(filter, Future):
        client.replicate(filter)
    else:
        filter = _task_of(filter)
    found = [_found_in(filter, part, name) for name, part in _named(parts)]
    return client.compute(found, retries=retries)


def _task_of(filter):
    """A future of a filter as it is; and a filter as a task, which any worker can do again."""
    return filter if isinstance(filter, Future) else delayed(filter, pure=False, traverse=False)


def _named(parts):
    """Each part with its name: a file, or what a worker is to make of a bag or of a column."""
    if isinstance(parts, (str, bytes, os.PathLike)):
        raise TypeError("this is one part, and a list is wanted")
    if not hasattr(parts, "to_delayed"):
        return [(os.fsdecode(part), os.fsdecode(part)) for part in parts]
    if getattr(parts, "ndim", 1) != 1:
        raise TypeError("this is a table, and one column of it is wanted")
    made = parts.to_delayed()
    return [(f"part {number} of {len(made)}", part) for number, part in enumerate(made, 1)]


def _row(parts, items, rate, key):
    """The filter of a row of parts, one after the other.

    Its graph is one dictionary: by `delayed`, each part would copy that of the parts before it.
    """
    row, graphs = uuid4().hex, {}
    made = f"_empty-{row}"
    tasks = {made: (Filter, items, rate, key)}
    for number, (name, part) in enumerate(parts):
        if isinstance(part, Delayed):
            graphs[id(part.dask)] = part.dask  # the parts of one collection have one
            part = part.key
        before, made = made, f"_with_part-{row}-{number}"
        tasks[made] = (_with_part, before, part, name)
    for graph in graphs.values():
        tasks.update(graph)
    return Delayed(made, tasks)


def _tree(filters):
    """The union of filters: neighbours are united, until one is left."""
    if not filters:
        raise ValueError("there is no filter")
    while len(filters) > 1:
        pairs = zip(filters[::2], filters[1::2])
        filters = [_union(*pair) for pair in pairs] + filters[len(filters) // 2 * 2 :]
    return filters[0]


def _keys_of(part, name):
    """The keys of a part. Those of a file are its lines, without byte 10 at their end."""
    try:
        if not isinstance(part, str):
            yield from part
            return
        with open(part, "rb") as lines:
            for line in lines:
                yield line[:-1] if line.endswith(b"\n") else line
    except OSError as error:
        raise PartError(f"{name}: {error.strerror}") from error


# A task changes none of the filters that it is given, since another may be given them too.


def _with_part(filter, part, name):
    made = filter.copy()
    try:
        made.update(_keys_of(part, name))
    except (TypeError, ValueError) as error:
        raise PartError(f"{name}: {error}") from error
    return made


@delayed(pure=False)
def _union(one, other):
    return one | other


@delayed(pure=False)
def _found_in(filter, part, name):
    try:
        return [key for key in _keys_of(part, name) if key in filter]
    except (TypeError, ValueError) as error:
        raise PartError(f"{name}: {error}") from error
