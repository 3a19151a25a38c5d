"""Views: a client's own, whose lines the service answers, and those of an engine, according to the answered lines."""

from __future__ import annotations

import re
from collections.abc import Iterator

_NAME = re.compile(rb"[a-z0-9_-]{1,32}")
_LINE = re.compile(rb"view ([a-z0-9_-]{1,32}) (?:time (0|[1-9][0-9]{0,9})|"
                   rb"root ((?:[0-9a-fA-F]{24})?[0-9a-fA-F]{40}) (0|[1-9][0-9]{0,2})|close)")
_MOST_TIME = 2**32 - 1
_MOST_AMOUNT = 255
_MOST_ROOTS = 64

# A view as a value: its time, and its roots with their amounts by fingerprint.
Value = tuple[bytes, tuple[tuple[bytes, bytes], ...]]


def is_name(octets: bytes) -> bool:
    return _NAME.fullmatch(octets) is not None


class View:
    """The time and the roots of an open view. `revision` changes whenever the view does."""
    __slots__ = ("time", "roots", "revision", "_value")

    def __init__(self, time: bytes) -> None:
        self.time = time
        self.roots: dict[bytes, bytes] = {}
        self.revision = 0
        self._value: Value | None = None

    @property
    def value(self) -> Value:
        if self._value is None:
            self._value = self.time, tuple(sorted(self.roots.items()))
        return self._value

    def revise(self, revision: int) -> None:
        self.revision = revision
        self._value = None


def lines_of(name: bytes, value: Value) -> Iterator[bytes]:
    """The lines that make a view of this value."""
    yield b"view %s time %s" % (name, value[0])
    for fpr, amount in value[1]:
        yield b"view %s root %s %s" % (name, fpr, amount)


class ViewBudget:
    """How many more views and roots there may be, over all views that share the budget."""

    def __init__(self, left: int = 1 << 30) -> None:
        self.left = left

    def take(self) -> bool:
        """Takes the place of one, if there is one."""
        if self.left <= 0:
            return False
        self.left -= 1
        return True


class Views:
    """Open views by name, up to a limit."""

    def __init__(self, most: int = 1 << 30) -> None:
        self._most = most
        self._views: dict[bytes, View] = {}
        self._revisions = 0
        self.budget = ViewBudget()

    def close(self) -> None:
        """Returns what it used of the budget."""
        self.budget.left += sum(1 + len(view.roots) for view in self._views.values())
        self._views.clear()

    def get(self, name: bytes) -> View | None:
        return self._views.get(name)

    def take(self, line: bytes) -> bytes:
        """Does what a line `view ..` says, and gives its reply."""
        match = _LINE.fullmatch(line)
        if match is None:
            return b"refused line\n"
        name, time, fpr, amount = match.groups()
        if time is not None:
            return self._set_time(name, time)
        if amount is not None and int(amount) > _MOST_AMOUNT:
            return b"refused line\n"
        view = self._views.get(name)
        if view is None:
            return b"refused view\n"
        if fpr is not None:
            return self._set_root(view, fpr.lower(), amount)
        self.budget.left += 1 + len(view.roots)
        del self._views[name]
        return b"ok\n"

    def _set_time(self, name: bytes, time: bytes) -> bytes:
        if int(time) > _MOST_TIME:
            return b"refused line\n"
        view = self._views.get(name)
        if view is None:
            if len(self._views) >= self._most or not self.budget.take():
                return b"refused full views\n"
            view = self._views[name] = View(time)
        elif view.time == time:
            return b"ok\n"
        view.time = time
        self._revise(view)
        return b"ok\n"

    def _set_root(self, view: View, fpr: bytes, amount: bytes) -> bytes:
        before = view.roots.get(fpr)
        if amount == b"0":
            if before is None:
                return b"refused absent\n"
            del view.roots[fpr]
            self.budget.left += 1
        elif before is None and (len(view.roots) >= _MOST_ROOTS or not self.budget.take()):
            return b"refused full roots\n"
        else:
            view.roots[fpr] = amount
        if view.roots.get(fpr) != before:
            self._revise(view)
        return b"ok\n"

    def _revise(self, view: View) -> None:
        self._revisions += 1
        view.revise(self._revisions)

    def lines(self) -> Iterator[bytes]:
        """The lines that make these views, in a dump's order."""
        for name, view in sorted(self._views.items()):
            yield from lines_of(name, view.value)
