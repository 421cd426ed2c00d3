"""A dictionary that can't be changed."""

from __future__ import annotations

from typing import Any, NoReturn, TypeVar

Key = TypeVar("Key")
Content = TypeVar("Content")


class Kept(dict[Key, Content]):
    """A dictionary that can't be changed, and so has a hash. It can be pickled and copied, and is written as JSON."""

    def __hash__(self) -> int:  # type: ignore[override]
        return hash(_frozen(self))

    def _refused(self, *_words: object, **_more: object) -> NoReturn:
        raise TypeError("a result can't be changed; dict(..) makes a copy that can")

    __setitem__ = __delitem__ = __ior__ = update = pop = popitem = clear = setdefault = _refused  # type: ignore

    def __reduce__(self) -> tuple[Any, ...]:
        return Kept, (dict(self),)


def _frozen(value: object) -> object:
    """A value with a hash that is the same where the value is."""
    if isinstance(value, dict):
        return frozenset((key, _frozen(part)) for key, part in value.items())
    return tuple(map(_frozen, value)) if isinstance(value, (list, tuple)) else value
