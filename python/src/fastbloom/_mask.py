"""What many look-ups or adds return: a bit for each."""

from __future__ import annotations

import operator
from typing import Any, Iterator, List, Sequence, Union, overload

from ._items import Buffer

# The bits of a byte, from the lowest one.
_BITS = [[byte >> index & 1 == 1 for index in range(8)] for byte in range(256)]


class Mask(Sequence[bool]):
    """A sequence of truth values that is kept as bits, eight in a byte.

    It equals a list or tuple of the same values, and never changes. `numpy.asarray(mask)` is an
    array of booleans, and so may stand as an index of one. An array of numbers isn't made of it, so
    what takes places of rows, as `iloc` of pandas, raises TypeError.
    """

    __slots__ = ("_bits", "_count")

    def __init__(self, bits: Buffer, count: int) -> None:
        """The first values of a buffer of bits, from the lowest bit of each byte.

        ValueError: there are fewer bits, one of the last byte that is past the last value is set,
        or the count is below 0.
        """
        self._count = operator.index(count)
        size = (self._count + 7) // 8
        self._bits = memoryview(bits).tobytes()[: max(size, 0)]
        if self._count < 0 or len(self._bits) < size:
            raise ValueError("there are fewer bits than values")
        if self._count % 8 and self._bits[-1] >> self._count % 8:
            raise ValueError("a bit past the last value is set")

    @property
    def bits(self) -> memoryview:
        """The bits, from the lowest of each byte. Those past the last value are zero."""
        return memoryview(self._bits)

    def __len__(self) -> int:
        return self._count

    @overload
    def __getitem__(self, at: int) -> bool:
        ...

    @overload
    def __getitem__(self, at: slice) -> List[bool]:
        ...

    def __getitem__(self, at: Union[int, slice]) -> Union[bool, List[bool]]:
        if isinstance(at, slice):
            return self.tolist()[at]
        index = operator.index(at)
        if index < 0:
            index += self._count
        if not 0 <= index < self._count:
            raise IndexError("there is no such value")
        return self._bits[index // 8] >> index % 8 & 1 == 1

    def __iter__(self) -> Iterator[bool]:
        return iter(self.tolist())

    def tolist(self) -> List[bool]:
        """The values as a list."""
        values = [bit for byte in self.bits for bit in _BITS[byte]]
        del values[self._count :]
        return values

    def count(self, value: Any = True) -> int:
        """How many of the values are this one."""
        ones = bin(int.from_bytes(self._bits, "little")).count("1")
        return (ones if value == 1 else 0) + (self._count - ones if value == 0 else 0)

    def __eq__(self, other: object) -> bool:
        if isinstance(other, Mask):
            return self._count == other._count and self.bits == other.bits
        if isinstance(other, (list, tuple)):
            return self.tolist() == list(other)
        return NotImplemented

    __hash__ = None  # type: ignore[assignment]

    def __array__(self, dtype: Any = None, copy: Any = None) -> Any:
        """The values as an array of numpy. It is a copy always: ValueError where none is wanted.

        Numbers that are wanted raise TypeError: they might be taken for places.
        """
        import numpy

        if copy is False:
            raise ValueError("an array of these values is a copy")
        if dtype is not None and numpy.dtype(dtype).kind not in "bO":
            raise TypeError("a mask has no numbers: numpy.asarray(mask) has its truth values")
        bits = numpy.frombuffer(self.bits, dtype="u1")
        values = numpy.unpackbits(bits, count=self._count, bitorder="little").view(bool)
        return values if dtype is None else values.astype(dtype)

    def __repr__(self) -> str:
        return f"<{type(self).__name__}: {self.count()} of {self._count}>"
