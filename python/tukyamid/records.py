"""The base of small types with named fields, as the commands and the replies are.

They are no dataclasses, and no named tuples: importing those modules takes longer than a question of the command does.
"""

from __future__ import annotations

from .fast_imports import TYPE_CHECKING

if TYPE_CHECKING:
    from typing import Self


class Value:
    """Named fields, compared by their values. They are set once, when the value is made.

    >>> class Point(Value):
    ...     __slots__ = ("x", "y")
    ...     def __init__(self, x: int, y: int) -> None:
    ...         self.x, self.y = x, y
    >>> Point(1, 2) == Point(1, 2), Point(1, 2) == Point(2, 1), Point(1, 2)
    (True, False, Point(x=1, y=2))
    """
    __slots__: tuple[str, ...] = ()

    @property
    def _names(self) -> tuple[str, ...]:
        return tuple(name for kind in reversed(type(self).__mro__) for name in kind.__dict__.get("__slots__", ()))

    def but(self, **changed: object) -> Self:
        """A value with other fields than these.

        >>> Value().but()
        Value()
        """
        return type(self)(**{name: getattr(self, name) for name in self._names} | changed)

    def __eq__(self, other: object) -> bool:
        if type(other) is not type(self):
            return NotImplemented
        return all(getattr(self, name) == getattr(other, name) for name in self._names)

    def __hash__(self) -> int:
        return hash((type(self), *(getattr(self, name) for name in self._names)))

    def __repr__(self) -> str:
        named = ", ".join(f"{name}={getattr(self, name)!r}" for name in self._names)
        return f"{type(self).__name__}({named})"
