"""What sizes, rates and heads of files are refused for."""

from __future__ import annotations

import operator
import struct
from decimal import Decimal
from fractions import Fraction
from numbers import Real
from typing import Any, NamedTuple, Optional

from . import _core
from ._items import Rate

Limit = Optional[int]  # of what a reader takes
EMPTY_WORDS, TOO_MANY_WORDS, _ZERO_RATE, CUT, _TOO_LONG, SEAL = 2, 3, 4, 11, 12, 14
_REASONS = {
    1: "zero bits",
    EMPTY_WORDS: "no words",
    TOO_MANY_WORDS: "too many words",
    _ZERO_RATE: "rate with a zero part",
    5: "size too large",
    6: "no memory",
    7: "hash count out of range",
    8: "no worker",
    9: "not a filter",
    10: "a version of the file that isn't known",
    CUT: "the file is cut",
    _TOO_LONG: "the file goes on after its last word",
    13: "a reserved byte isn't zero",
    SEAL: "the seal is wrong: the file was changed",
    15: "input failed",
    16: "words that are no whole lines",
    17: "the file has a blocked filter",
    18: "the file's filter isn't blocked",
}
HEAD = 64  # bytes; the words of a file come next
_LONGEST_RATE, _LONGEST_EXPONENT = 2000, 4  # digits of a rate, and of its exponent


class Refusal(ValueError):
    """Why a size or a file is refused. `code` is the number that the header fastbloom.h names."""

    def __init__(self, code: int) -> None:
        super().__init__(code)
        self.code = code

    def __str__(self) -> str:
        return _REASONS.get(self.code, "an unknown refusal")


class Estimate(NamedTuple):
    """Two bounds of a number of items. `high` is None where no number is too many."""

    low: int
    high: Optional[int]


def unless_refused(told: Any) -> Any:
    """What a call of the library tells, unless it is the number of a reason."""
    if isinstance(told, int):
        raise Refusal(told)
    return told


def number_of_items(items: int) -> int:
    items = int(operator.index(items))
    if not 0 <= items < 2**64:
        raise ValueError("items are from 0 to 2^64 - 1")
    return items


def number_of_hashes(num_hashes: int) -> int:
    num_hashes = operator.index(num_hashes)
    if not 1 <= num_hashes < 2**32:
        raise ValueError("hashes are from 1 to 2^32 - 1")
    return num_hashes


def rate_parts(rate: Rate) -> tuple[int, int]:
    """The two parts of a rate. That of a float is read from its shortest text."""
    if not isinstance(rate, (str, Real, Decimal)):
        raise TypeError(f"a rate is a text or a number, not {type(rate).__name__}")
    text = str(rate)
    # A fraction of more digits may take long to make.
    exponent = text.upper().partition("E")[2].strip().lstrip("+-0_")
    if len(text) > _LONGEST_RATE or len(exponent) > _LONGEST_EXPONENT:
        raise ValueError("a rate has too many digits")
    try:
        fraction = Fraction(text)
    except ZeroDivisionError:
        raise Refusal(_ZERO_RATE) from None
    if not 0 <= fraction.numerator < 2**64 or fraction.denominator >= 2**64:
        raise ValueError("the parts of a rate are from 0 to 2^64 - 1")
    if fraction >= 1:
        raise ValueError("a rate of false positives is below 1")
    return fraction.numerator, fraction.denominator


def check_file(head: bytes, size: int, kind: int, *limits: Limit) -> tuple[int, int, bytes, int]:
    """What the first 64 bytes of a file of this size tell, if the file isn't refused for them.

    They are the numbers of words and of hashes, the key and the seal. The limits are of hashes and
    of words.
    """
    # Where the head is truncated, good numbers stand for those that it lacks. The last two, by
    # which the kinds differ, are read after the size.
    good = struct.pack("<8Q", 0, 1, 1, 0, 0, 0, 0, 0)
    there = min(len(head) // 8 * 8, 48)
    wanted = HEAD + 8 * unless_refused(_core.read_head(0, head[:there] + good[there:]))[0]
    if size > wanted:
        raise Refusal(_TOO_LONG)
    if size < wanted or len(head) < HEAD:  # a file that grows may have been short
        raise Refusal(CUT)
    told: tuple[int, int, bytes, int] = unless_refused(_core.read_head(kind, head))
    for name, found, most in zip(("hashes", "words"), told[1::-1], limits):
        if most is not None and found > most:
            raise ValueError(f"the file has {found} {name}, and max_{name} is {most}")
    return told
