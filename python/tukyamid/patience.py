"""An end to what takes too long."""

from __future__ import annotations

from .fast_imports import TYPE_CHECKING, allocate_lock, start_new_thread

if TYPE_CHECKING:
    from collections.abc import Callable


class ended_after:
    """Calls `end` unless the `with` is over within a number of seconds.

    >>> with ended_after(60, lambda: print("too late")):
    ...     pass
    """

    def __init__(self, seconds: float, end: Callable[[], None]) -> None:
        self._seconds, self._end = seconds, end
        self._is_under_way = allocate_lock()

    def __enter__(self) -> None:
        self._is_under_way.acquire()
        start_new_thread(self._watch, ())

    def __exit__(self, *_: object) -> None:
        self._is_under_way.release()

    def _watch(self) -> None:
        if not self._is_under_way.acquire(timeout=self._seconds):
            self._end()
