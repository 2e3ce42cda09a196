"""Bloom filters: sets with no false negatives, and with false positives at a chosen rate.

    seen = Filter(1_000_000, "1/1000")
    seen.add("crab")           # False: it is new
    "crab" in seen             # True
    seen.save("seen.bloom")
    Filter.load("seen.bloom")  # or `mapped=True`, by which processes share its pages

Items are texts, which count as their UTF-8 bytes, and bytes-like objects. Threads may use one
filter at once. Where many add at once, or several processes do, take a SharedFilter. A
BlockedFilter is quicker where it is larger than the processor's cache, and a SharedBlockedFilter is
the one that is shared. A RotatingFilter keeps the last items of a stream without end, and a
GrowingFilter takes a number of items that isn't known. Filters that aren't blocked don't read the
files of those that are, nor the other way round.
"""

from ._base import AnyFilter
from ._checks import Estimate, Refusal
from ._mask import Mask
from ._plain import BlockedFilter, Filter
from ._several import GrowingFilter, RotatingFilter
from ._shared import SharedBlockedFilter, SharedFilter

__version__ = "0.17.0+rattle.1"
__all__ = [
    "AnyFilter",
    "BlockedFilter",
    "Estimate",
    "Filter",
    "GrowingFilter",
    "Mask",
    "Refusal",
    "RotatingFilter",
    "SharedBlockedFilter",
    "SharedFilter",
    "__version__",
]
