"""The kinds of filters, and how a class of tests is run for each of them."""

import sys
import unittest

from fastbloom import BlockedFilter, Filter, SharedBlockedFilter, SharedFilter

COUNTING_KEY = bytes(range(16))


def changed(file, place, byte):
    return file[:place] + bytes([byte]) + file[place + 1 :]


class Kind:
    """What tests have of a kind: its classes, `filters` and `shared`, those of the `other` kind,
    and `worked`, the least file of the kind that docs/FILE.md explains, with three hashes and the
    key bytes 0 to 15, of `crab` and `lobster`. Words begin at a multiple of `aligned` bytes.
    """

    def small(self, *items, **options):
        seen = self.filters(1000, "1/1000", **options)
        seen.update(items)
        return seen


class Plain(Kind):
    filters, shared, other = Filter, SharedFilter, (BlockedFilter, SharedBlockedFilter)
    aligned, refusal_of_other = 8, (17, "the file has a blocked filter")
    worked = bytes.fromhex(
        "66626c6f6f6d0031 0300000000000000 0100000000000000 0001020304050607 08090a0b0c0d0e0f"
        "a81b0ad4ee8d9d5d 0000000000000000 0000000000000000 0014004080008010"
    )

    def refused_files(self):
        """Files that this kind alone refuses, by the number of the refusal."""
        return {17: [changed(self.worked, 48, 1)]}


class Lines(Kind):
    filters, shared, other = BlockedFilter, SharedBlockedFilter, (Filter, SharedFilter)
    aligned, refusal_of_other = 64, (18, "the file's filter isn't blocked")
    worked = bytes.fromhex(
        "66626c6f6f6d0031 0300000000000000 0800000000000000 0001020304050607 08090a0b0c0d0e0f"
        "cb93f2d0c688fbf4 0100000000000000 0000000000000000 0000000000000000 0000000000040000"
        "0000000000000000 0000000000000001 8000021000000000 0000004000000000 0000000000000000"
        "0000000000000000"
    )

    def refused_files(self):
        whole, part = changed(self.worked, 48, 0), changed(self.worked, 16, 7)
        return {
            11: [whole[:-1], part[:119]],
            12: [part, whole + b"\0"],
            13: [changed(self.worked, 49, 1)],
            16: [part[:120]],
            18: [whole, changed(part, 48, 0)[:120]],
        }


def for_each_kind(tests):
    """Makes of tests one class for each kind."""
    for kind in (Plain, Lines):
        name, module = kind.__name__ + tests.__name__, sys.modules[tests.__module__]
        made = type(name, (tests, kind, unittest.TestCase), {"__module__": tests.__module__})
        setattr(module, name, made)
    return tests
