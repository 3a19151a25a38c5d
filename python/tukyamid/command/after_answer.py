"""What the command still does once its answer is written. Ctrl-C ends that, and not the answer."""

from __future__ import annotations

from ..fast_imports import TYPE_CHECKING

if TYPE_CHECKING:
    from collections.abc import Callable

_calls: list[Callable[[], None]] = []


def do_later(call: Callable[[], None]) -> None:
    """Has something done when the answer is written."""
    _calls.append(call)


def do_now() -> None:
    """Does all that was left for later."""
    try:
        while _calls:
            _calls.pop(0)()
    except KeyboardInterrupt:
        _calls.clear()
