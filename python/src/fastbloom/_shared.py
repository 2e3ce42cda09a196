"""The classes of filters that threads and processes share."""

from __future__ import annotations

import mmap
from typing import Any, ClassVar, Generic, NoReturn, Self, TypeVar

from ._base import BLOCKED, LOAD, SHARED, TAKE, Base, Kind, Lines, Words
from ._checks import EMPTY_WORDS, HEAD, TOO_MANY_WORDS, Limit, Refusal
from ._checks import check_file, number_of_hashes
from ._files import Path, map_file, open_regular, shared_memory, size_of
from ._items import Buffer
from ._plain import BlockedFilter, Filter, Plain

OfWords = TypeVar("OfWords", bound=Plain[Any])  # what is taken out


class Shared(Base[Kind], Generic[Kind, OfWords]):
    """A filter that threads and processes fill at once, and that loses nothing.

    Each call is made of atomic operations on single words. It takes no lock, waits for no thread,
    and lets the interpreter's lock go while it runs. An add's `|` on a word is tried again only
    where another thread changed that word in between. The words are memory of the filter's own,
    which processes share that are forked of this one; or a buffer, as of
    `multiprocessing.shared_memory`, by `over`; or a file, by `map`. While any process uses such
    words, nothing but shared filters touches them.
    """

    __slots__ = ()
    _plain: ClassVar[type[Plain[Any]]]
    _new_memory = staticmethod(lambda num_words: memoryview(shared_memory(8 * num_words)))

    @classmethod
    def over(cls, buffer: Buffer, num_hashes: int, key: Buffer = bytes(16)) -> Self:
        """The filter over the words of a buffer that can be written, with what they contain.

        A process that has the same memory mapped fills the same filter. The buffer stays in use
        until `release`. ValueError: its bytes aren't words of 64 bits, or lines of 64 bytes where
        the filter is blocked, or aren't aligned to 8, or a number is out of range. Lines are best
        aligned to 64. TypeError: it can't be written, or the number is no integer.
        """
        return cls._over(memoryview(buffer).cast("B"), number_of_hashes(num_hashes), key)

    @classmethod
    def map(cls, path: Path, *, max_hashes: Limit = 64, max_words: Limit = None) -> Self:
        """The filter of a file, whose words all processes fill that map it.

        What is added goes into the file. It must have no seal, which adds would make wrong: make it
        by `save(path, sealed=False)`. A seal raises ValueError; else it raises as `Filter.load`.
        Where the disk is full, an add into a hole of the file ends the process by a signal, and so
        may any add where the file system copies what is written.
        """
        with open_regular(path, "r+b") as file:
            head, size = file.read(HEAD), size_of(file)
            _, num_hashes, key, seal = check_file(head, size, cls._number, max_hashes, max_words)
            if seal:
                raise ValueError("the file has a seal, which adds would make wrong")
            memory = map_file(file, size, mmap.ACCESS_WRITE)
        return cls._over(memoryview(memory)[HEAD:], num_hashes, key)

    @classmethod
    def _over(cls, view: memoryview, num_hashes: int, key: Buffer) -> Self:
        try:
            if view.nbytes == 0:
                raise Refusal(EMPTY_WORDS)
            if view.nbytes // 8 >= 2**58:
                raise Refusal(TOO_MANY_WORDS)
            if view.nbytes % cls._unit:
                raise ValueError(f"words are of eight bytes, in units of {cls._unit}")
            made = cls._of(view, num_hashes, key)
        except BaseException:
            view.release()  # or the error would keep the memory in use
            raise
        return made

    def release(self) -> None:
        """Lets go of the buffer. A call that is under way ends with the words that it has.

        The filter then has no words: it contains nothing, and keeps nothing that is added. `load`
        and `take` raise Refusal. The buffer can be closed once no call is under way.
        """
        self._release(memoryview(b""))

    def take(self) -> OfWords:
        """Takes the items out into a plain filter.

        Each word is read and cleared by one operation, so no bit that another thread or process
        sets meanwhile is lost: it is either taken or still there.
        """
        return self._copied(TAKE)

    def load(self) -> OfWords:
        """A plain filter with the words as they are loaded, one after the other, as for a file."""
        return self._copied(LOAD)

    _copy = _now = load

    def _copied(self, call: int) -> OfWords:
        view = self._plain._new_memory(self.num_words)
        plain: Any = self._plain._of(view, self.num_hashes, self.key, self.items)
        if not self._with(call, plain):  # it was released
            raise Refusal(EMPTY_WORDS)
        return plain  # type: ignore[no-any-return]

    def __or__(self, other: Kind) -> OfWords:
        """A plain filter of what one of the two contains, as loaded. It raises as `|=`."""
        if not isinstance(other, self._kind):
            return NotImplemented
        return self.load().union(other._copy())

    def __and__(self, other: Kind) -> OfWords:
        """A plain filter of what both may contain, as loaded. It raises as `|=`."""
        if not isinstance(other, self._kind):
            return NotImplemented
        return self.load().intersection(other._copy())

    def __reduce__(self) -> NoReturn:
        raise TypeError(
            "a shared filter isn't pickled: hand its memory or its file on, or `load()`"
        )


class SharedFilter(Words["SharedFilter"], Shared["SharedFilter", Filter]):
    """A filter that threads and processes fill; a `Filter` is quicker where one thread adds."""

    __slots__ = ()
    _number, _plain = SHARED, Filter


class SharedBlockedFilter(
    Lines["SharedBlockedFilter"], Shared["SharedBlockedFilter", BlockedFilter]
):
    """A blocked filter that threads and processes fill.

    Adds of many hashes are quicker where it is larger than the processor's cache.
    """

    __slots__ = ()
    _number, _plain = BLOCKED | SHARED, BlockedFilter


SharedFilter._kind, SharedBlockedFilter._kind = SharedFilter, SharedBlockedFilter
