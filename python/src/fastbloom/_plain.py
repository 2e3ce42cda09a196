"""What filters have that aren't shared: copies, files, and sets of them."""

from __future__ import annotations

import copy
import pickle
from typing import Any, BinaryIO, Iterable, Optional, Self, TypeVar, Union

from . import _core
from ._base import BLOCKED, EQUAL, INTERSECT, Base, Kind, Lines, Words
from ._checks import CUT, HEAD, SEAL, Limit, Refusal, check_file, number_of_hashes
from ._checks import unless_refused
from ._copies import add_attributes, attributes_of, state_of
from ._files import Path, map_file, open_regular, size_of, write_file
from ._items import Buffer, Item, plain_bytes

_Plain = TypeVar("_Plain", bound="Plain[Any]")


def _restored(cls: type[_Plain], data: bytes, items: Optional[int] = None) -> _Plain:
    """The filter that was pickled as a file."""
    read = cls.from_bytes(data, max_hashes=None)
    read._items = items
    return read


def _restored_words(
    cls: type[_Plain],
    num_hashes: int,
    key: bytes,
    words: Buffer,
    items: Optional[int] = None,
) -> _Plain:
    """The filter that was pickled as words, which are copied: they may be another filter's."""
    with memoryview(words).cast("B") as data:
        if not data.nbytes or data.nbytes % cls._unit:
            raise ValueError(f"words are of {cls._unit} bytes")
        view = cls._new_memory(data.nbytes // 8)
        view[:] = data
    return cls._of(view, number_of_hashes(num_hashes), key, items)


class Plain(Base[Kind]):
    """A filter whose calls come one after the other, as `Filter` says."""

    __slots__ = ()
    _new_memory = staticmethod(_core.memory)

    def __or__(self, other: Kind) -> Self:
        """A filter of what one of the two contains. It raises as `|=`."""
        if not isinstance(other, self._kind):
            return NotImplemented
        return self.union(other)

    def __and__(self, other: Kind) -> Self:
        """A filter of what both may contain. It raises as `|=`."""
        if not isinstance(other, self._kind):
            return NotImplemented
        return self.intersection(other)

    def union(self, *others: Union[Kind, Iterable[Item]]) -> Self:
        """A filter of what this one or any of the others contains. It raises as `update`."""
        united = self.copy()
        united.update(*others)
        return united

    def intersection(self, *others: Union[Kind, Iterable[Item]]) -> Self:
        """A filter of what this one and each of the others may contain. It raises as `update`."""
        common = self.copy()
        common.intersection_update(*others)
        return common

    def intersection_update(self, *others: Union[Kind, Iterable[Item]]) -> None:
        """Keeps what each of the others may contain. Where it raises, as `update`, all is kept."""
        for other in others:
            self._check_other(other)
        for fitting in list(map(self._as_filter, others)):
            self._change(fitting, INTERSECT)

    def _as_filter(self, other: Any) -> Any:
        """A filter, or that of items, with as many words and hashes as this one, and its key."""
        if isinstance(other, self._kind):
            return other
        made = self._kind._of(self._new_memory(self.num_words), self.num_hashes, self.key)
        made.update(other)
        return made

    def __eq__(self, other: object) -> bool:
        """Whether words, numbers of hashes and keys are equal."""
        if not isinstance(other, self._kind):
            return NotImplemented
        alike = (self.num_hashes, self.key) == (other.num_hashes, other.key)
        return alike and self._with(EQUAL, other)

    __hash__ = None  # type: ignore[assignment]

    def _now(self) -> Self:
        return self

    def _copy(self) -> Self:
        view = self._new_memory(self.num_words)
        view[:] = self._view
        return self._of(view, self.num_hashes, self.key, self.items)

    def copy(self) -> Self:
        """A filter with words of its own, which are equal to these."""
        made = self._copy()
        add_attributes(made, attributes_of(self))
        return made

    __copy__ = copy

    def __deepcopy__(self, memo: Any) -> Self:
        made = self._copy()
        memo[id(self)] = made
        add_attributes(made, copy.deepcopy(attributes_of(self), memo))
        return made

    def __reduce__(self) -> tuple[Any, ...]:
        """Pickles the bytes of the file, which have the key, and what a subclass adds."""
        return _restored, (type(self), self.to_bytes(), self.items), state_of(self)

    def __reduce_ex__(self, protocol: Any) -> Any:
        """From protocol 5 on it hands out the words themselves, which `buffer_callback` may take.

        No other thread adds meanwhile. The filter that is read has a copy of them.
        """
        if protocol < 5 or type(self).__reduce__ is not Plain.__reduce__:
            return self.__reduce__()
        words = pickle.PickleBuffer(self._view.toreadonly())
        made = type(self), self.num_hashes, self.key, words, self.items
        return _restored_words, made, state_of(self)

    def __sizeof__(self) -> int:
        """The bytes of memory, those of its words included."""
        return int(object.__sizeof__(self)) + self._view.nbytes

    def view(self) -> memoryview:
        """The words as a memoryview of numbers of 64 bits, which can't be written.

        Nothing is copied: it shows what is added later. `words` makes a copy.
        """
        return self._view.cast("Q").toreadonly()

    def words(self) -> list[int]:
        """The words, as a list of numbers."""
        return self._copy().view().tolist()

    def to_bytes(self, sealed: bool = True) -> bytes:
        """The bytes of the file that `save` writes."""
        file: bytes = unless_refused(self._to_bytes(sealed))
        return file

    def save(self, path: Path, sealed: bool = True) -> None:
        """Writes a file, whole or not at all. It raises OSError where that fails.

        A file that it replaces hands its rights on. A link stays, and the file to which it leads is
        replaced. A device, a pipe and a descriptor of the process, as `/dev/stdout`, are written as
        a stream. The words are read part by part, so that other threads may add in between: what
        was added before is in the file. A reader of a sealed file finds out whether a byte was
        changed. A file that is to be changed while others map it is not sealed.
        """

        def write(file: BinaryIO) -> None:
            unless_refused(self._write(file.fileno(), sealed))

        def write_stream(stream: BinaryIO) -> None:
            stream.write(self.to_bytes(sealed))

        write_file(path, write, write_stream)

    @classmethod
    def from_bytes(cls, data: Buffer, *, max_hashes: Limit = 64, max_words: Limit = None) -> Self:
        """The filter of a file's bytes, which are copied.

        Bytes that are no such file raise Refusal, which is a ValueError, with the first reason; so
        does the file of another kind of filter. A file with more than `max_hashes` hashes raises
        ValueError too, since each call on it takes as many steps, and one with more than
        `max_words` words; None stands for no limit. A filter of one's own has more than 64 hashes
        only where it is made for a few items at a rate below 10^-13.
        """
        data = plain_bytes(data, "a file is a bytes-like object")
        told = check_file(data[:HEAD], len(data), cls._number, max_hashes, max_words)
        view = cls._new_memory(told[0])
        view[:] = memoryview(data)[HEAD:]
        return cls._read(view, *told[1:])

    @classmethod
    def load(
        cls,
        path: Path,
        *,
        max_hashes: Limit = 64,
        max_words: Limit = None,
        mapped: bool = False,
    ) -> Self:
        """The filter of a file, which is read into memory.

        It raises OSError where the file can't be read, and as `from_bytes` where it is refused. The
        head is read first, so that a file with too many words takes no memory.

        A file that is `mapped` is read as its words are needed, and processes share its pages; but
        one with a seal is read whole, to check it. What this process adds stays its own. The file
        isn't to be truncated or written while it is mapped, as by `cp`: the filter would lose
        members, or the process end by a signal. `save` replaces it by a new file.
        """
        with open_regular(path) as file:
            head, size = file.read(HEAD), size_of(file)
            told = check_file(head, size, cls._number, max_hashes, max_words)
            if mapped:
                view = memoryview(map_file(file, size))[HEAD:]
            else:
                view = cls._new_memory(told[0])
                if file.readinto(view) != view.nbytes:  # it has become shorter
                    raise Refusal(CUT)
        return cls._read(view, *told[1:])

    @classmethod
    def _read(cls, view: memoryview, num_hashes: int, key: bytes, seal: int) -> Self:
        """The filter of the words of a file, unless its seal is that of other ones."""
        read = cls._of(view, num_hashes, key)
        if seal and seal != read._seal():
            raise Refusal(SEAL)
        return read


class Filter(Words["Filter"], Plain["Filter"]):
    """A set of texts or bytes with no false negatives, and with false positives at a chosen rate.

    Items are `str`, which count as their UTF-8 bytes, and bytes-like objects. Everything else
    raises TypeError, and a `str` that has no UTF-8 raises UnicodeEncodeError. Threads may call one
    filter at once, and none loses what another one adds. Calls come one after the other, but
    `update`, `contains_many`, `|`, `&`, `<=` and its kin, and `save` are several, and other calls
    may come between.
    """

    __slots__ = ()
    _number = 0


class BlockedFilter(Lines["BlockedFilter"], Plain["BlockedFilter"]):
    """A set of texts or bytes whose bits of one item lie in one line of the cache.

    So where it is larger than the processor's cache, adds and look-ups of many hashes are quicker
    than those of `Filter`, and it takes a little more memory at the same rate. That the rate is met
    was measured. It isn't met below some 1/4,000,000, where a `Filter` has more than 32 bits for
    each item. It takes no `Filter` in, nor the file of one.
    """

    __slots__ = ()
    _number = BLOCKED


Filter._kind, BlockedFilter._kind = Filter, BlockedFilter
