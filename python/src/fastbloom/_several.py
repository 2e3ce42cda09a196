"""Filters that are made of several: one that grows, and one for streams without end."""

from __future__ import annotations

import copy
import threading
from fractions import Fraction
from typing import Any, Iterable, Self, Union

from ._base import rounded_outward
from ._checks import number_of_items, rate_parts
from ._copies import add_attributes, attributes_of, state_of
from ._items import Buffer, Item, Rate, check_many
from ._plain import BlockedFilter, Filter

Part = Union[Filter, BlockedFilter]


def _restored(cls: type[Several], *parts: Any) -> Any:
    """The filter of such parts, as they were copied or pickled."""
    made = cls.__new__(cls)
    made._filters, made._items, made._rate, made._taken = parts
    made._lock = threading.RLock()
    return made


class Several:
    """What filters have that are made of several, of which the last is the newest."""

    __slots__ = ("_filters", "_items", "_rate", "_taken", "_lock", "__weakref__")
    _filters: list[Any]
    _items: int
    _rate: Fraction  # of the newest
    _taken: int
    _lock: Any

    def __init__(
        self, items: int, rate: Rate, key: Buffer = bytes(16), *, blocked: bool = False
    ) -> None:
        if hasattr(self, "_lock"):  # a call under way may use the filters that it has
            raise TypeError("a filter is made once")
        self._items, self._taken = max(number_of_items(items), 1), 0
        num, den = rate_parts(rate)
        self._rate = Fraction(num, 2 * den)
        made = BlockedFilter if blocked else Filter
        self._filters = [made(self._items, self._rate, key)]
        self._lock = threading.RLock()

    @property
    def items(self) -> int:
        """The number of items that it was made for, at least 1."""
        return self._items

    @property
    def taken(self) -> int:
        """How many items the newest filter took that it didn't contain."""
        return self._taken

    def __repr__(self) -> str:
        """What it was made for, and its size."""
        bits = sum(it.num_bits for it in self._filters)
        return f"<{type(self).__name__}: for {self._items} items, {bits} bits>"

    def add(self, item: Item) -> bool:
        """Adds an item, and returns whether it was contained before.

        True may be a false positive.
        """
        return self.add_hash(self.hash(item))

    def add_hash(self, value: int) -> bool:
        """As `add`, by the hash. One out of range raises ValueError."""
        raise NotImplementedError

    def __contains__(self, item: Item) -> bool:
        """Whether an item is contained. True may be a false positive."""
        return self.contains_hash(self.hash(item))

    def hash(self, item: Item) -> int:
        """The hash of an item: SipHash-1-3 of its bytes under the key."""
        return self._filters[-1].hash(item)  # type: ignore[no-any-return]

    def contains_hash(self, value: int) -> bool:
        """As `in`, by the hash. One out of range raises ValueError."""
        with self._lock:
            return any(it.contains_hash(value) for it in reversed(self._filters))

    def update(self, items: Iterable[Item]) -> None:
        """Adds each item of an iterable. Where it raises, those before it were added."""
        check_many(items, "add")
        for item in items:
            self.add(item)

    def _parts(self) -> tuple[Any, ...]:
        """Copies of the filters, and the numbers, as they are at one instant."""
        with self._lock:
            copies = [it.copy() for it in self._filters]
            return copies, self._items, self._rate, self._taken

    def copy(self) -> Self:
        """A filter with words of its own, which goes on as this one does."""
        made = _restored(type(self), *self._parts())
        add_attributes(made, attributes_of(self))
        return made  # type: ignore[no-any-return]

    __copy__ = copy

    def __deepcopy__(self, memo: Any) -> Self:
        made = _restored(type(self), *self._parts())
        memo[id(self)] = made
        add_attributes(made, copy.deepcopy(attributes_of(self), memo))
        return made  # type: ignore[no-any-return]

    def __reduce__(self) -> tuple[Any, ...]:
        """Pickles the filters and the numbers, and what a subclass adds."""
        return _restored, (type(self), *self._parts()), state_of(self)

    def exact_false_positive_rate(self) -> tuple[Fraction, Fraction]:
        """Two bounds of the rate of false positives as all its filters are.

        A look-up errs where one of them does. How their replies depend on each other isn't known:
        the lower bound is the greatest of theirs, and the upper one their sum, at most 1.
        """
        with self._lock:
            bounds = [it.exact_false_positive_rate() for it in self._filters]
        most = sum((high for _, high in bounds), Fraction(0))
        return max(low for low, _ in bounds), min(most, Fraction(1))

    def false_positive_rate(self) -> tuple[float, float]:
        """`exact_false_positive_rate` as two floats, rounded outward."""
        return rounded_outward(self.exact_false_positive_rate())


class RotatingFilter(Several):
    """The last items of a stream without end, in memory that stays the same.

    An item is contained at least as long as fewer than `items` different ones came behind its last
    add. Two filters take turns, each for this many items at half the rate, and a look-up asks both.
    An item goes into the newer one, also where the older one contains it. Once the newer one took
    `items`, it becomes the older, and the older one is cleared.

    Items and what is raised are as of a `Filter`. Threads may call one filter at once. It has no
    file of its own: pickle keeps it.
    """

    __slots__ = ()

    def __init__(
        self, items: int, rate: Rate, key: Buffer = bytes(16), *, blocked: bool = False
    ) -> None:
        """The empty filter for this many last items, of which 0 counts as 1, at a rate of false
        positives.

        It is made of Filters, or of BlockedFilters where it is `blocked`. It raises as these, and
        ValueError where half the rate has a part of 2^64 or more.
        """
        super().__init__(items, rate, key, blocked=blocked)
        self._filters.append(self._filters[0].copy())

    @property
    def older(self) -> Part:
        """The older filter itself, which isn't to be changed."""
        return self._filters[0]  # type: ignore[no-any-return]

    @property
    def newer(self) -> Part:
        """The newer filter itself, which isn't to be changed."""
        return self._filters[1]  # type: ignore[no-any-return]

    def add_hash(self, value: int) -> bool:
        """As `add`, by the hash. One out of range raises ValueError."""
        with self._lock:
            older, newer = self._filters
            if newer.add_hash(value):
                return True
            held: bool = older.contains_hash(value)
            self._taken += 1
            if self._taken >= self._items:
                self._filters, self._taken = [newer, older], 0
                older.clear()
            return held


class GrowingFilter(Several):
    """A set of texts or bytes whose number isn't known, at a chosen rate of false positives.

    Once its newest filter took as many new items as it was made for, the next one begins, for twice
    the items at half the rate. The rates that they are made for sum to less than the one asked for.
    What comes of it can be a little above, since each takes only items that it lacks.

    Items and what is raised are as of a `Filter`. Threads may call one filter at once. It has no
    file of its own: pickle keeps it.
    """

    __slots__ = ()

    def __init__(
        self, items: int, rate: Rate, key: Buffer = bytes(16), *, blocked: bool = False
    ) -> None:
        """The empty filter, for this many items at first, of which 0 counts as 1.

        It is made of Filters, or of BlockedFilters where it is `blocked`. It raises as these, also
        where it grows, and ValueError where the next rate has a part of 2^64 or more.
        """
        super().__init__(items, rate, key, blocked=blocked)

    @property
    def filters(self) -> tuple[Part, ...]:
        """Its filters themselves, from the oldest on, which aren't to be changed."""
        return tuple(self._filters)

    @property
    def approx_items(self) -> int:
        """How many items it took that it didn't contain. Some may have been held for others."""
        with self._lock:
            return (self._items << len(self._filters) - 1) - self._items + self._taken

    def add_hash(self, value: int) -> bool:
        """As `add`, by the hash. One out of range raises ValueError."""
        with self._lock:
            if self.contains_hash(value):
                return True
            room = self._items << len(self._filters) - 1
            if self._taken >= room:
                newest, rate = self._filters[-1], self._rate / 2
                made = type(newest)(2 * room, rate, newest.key)
                self._filters, self._rate, self._taken = [*self._filters, made], rate, 0
            self._filters[-1].add_hash(value)
            self._taken += 1
            return False
