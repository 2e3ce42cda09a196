"""What subclasses of filters add, which copies and pickles have too."""

from __future__ import annotations

from typing import Any


def attributes_of(made: object) -> tuple[dict[str, Any], dict[str, Any]]:
    """What a subclass adds: its attributes, and those of them that have slots."""
    slots = {}
    for cls in type(made).__mro__:
        is_own = cls.__module__.startswith(f"{__package__}.")
        names = () if is_own else vars(cls).get("__slots__", ())
        for name in (names,) if isinstance(names, str) else names:
            if name.startswith("__") and not name.endswith("__"):
                name = f"_{cls.__name__.lstrip('_')}{name}"  # how Python keeps a private name
            if name not in ("__dict__", "__weakref__") and hasattr(made, name):
                slots[name] = getattr(made, name)
    return getattr(made, "__dict__", {}), slots


def state_of(made: object) -> Any:
    """What a subclass adds, as pickle takes it."""
    attributes, slots = attributes_of(made)
    return (attributes or None, slots) if slots else attributes or None


def add_attributes(made: object, added: tuple[dict[str, Any], dict[str, Any]]) -> None:
    attributes, slots = added
    if attributes:
        made.__dict__.update(attributes)
    for name, value in slots.items():
        setattr(made, name, value)
