"""What counts as an item, and as many: texts, and objects that hand out bytes."""

from __future__ import annotations

import re
from collections import abc
from decimal import Decimal
from fractions import Fraction
from typing import TYPE_CHECKING, Any, Union

if TYPE_CHECKING:
    from _typeshed import ReadableBuffer

    Buffer = ReadableBuffer
else:  # Before Python 3.12 there is no name for what has a buffer.
    Buffer = getattr(abc, "Buffer", Union[bytes, bytearray, memoryview])

Item = Union[str, Buffer]
Rate = Union[str, float, Fraction, Decimal]

# Formats of buffers. The elements of the first are items themselves: texts or bytes of a width, as
# numpy has them in arrays, or objects. Those of the second are pointers. A Z before one of these
# letters is a complex number.
_OF_ITEMS = re.compile(r"\d[sw]|O")
_OF_POINTERS = re.compile("[OPXz&]|Z(?![fdg])")
_OF_BYTES = ("B", "b", "c")

# The calls that take hashes instead of items, by those that take one item.
_FOR_HASHES = {"add": "add_hashes", "in": "contains_hashes"}


def plain_bytes(value: Buffer, wanted: str) -> bytes:
    """The bytes of an object, whose class may not tell another length. It raises what is wanted."""
    if type(value) is bytes:
        return value
    why = ""
    try:
        with memoryview(value) as view:
            if isinstance(value, bytes) or _has_data(value, view):
                return view.tobytes()
    except TypeError:
        pass
    except (ValueError, BufferError) as error:  # it isn't handed out, or was released
        why = f": {error}"
    raise TypeError(f"{wanted}, not {type(value).__name__}{why}")


def _has_data(value: Any, view: memoryview) -> bool:
    """Whether a buffer is neither a single number, nor has pointers instead of values."""
    if view.ndim == 0 or getattr(value, "ndim", 1) == 0:
        return False
    # The names of a record's fields stand between colons.
    return not _OF_POINTERS.search(re.sub(":[^:]*:", "", view.format))


def check_many(items: Any, call: str) -> None:
    """Raises TypeError for one item where many are wanted, and names the call that takes it."""
    if not is_one(items):
        return
    if not isinstance(items, str) and _has_numbers(items):
        call = _FOR_HASHES[call]
        raise TypeError(f"this has numbers, and no items; `{call}` takes an array of hashes")
    raise TypeError(f"this is one item, which `{call}` takes")


def is_one(items: Any) -> bool:
    """Whether an object is one item: a text or bytes, but no array of texts or of other arrays."""
    if isinstance(items, (str, bytes, bytearray, memoryview)):
        return True
    try:
        with memoryview(items) as view:
            return view.ndim < 2 and not _OF_ITEMS.search(view.format)
    except (TypeError, ValueError, BufferError):
        return False


def _has_numbers(value: Buffer) -> bool:
    """Whether a buffer has a number, or numbers that aren't bytes."""
    try:
        with memoryview(value) as view:
            return view.ndim == 0 or view.format.lstrip("@=<>!") not in _OF_BYTES
    except ValueError:  # it was released
        return False
