"""What a watch reports: a binding's amount, what it was before, and what was changed meanwhile."""

from __future__ import annotations

import os
import pwd

from ..command.output import printable
from ..fast_imports import TYPE_CHECKING
from ..formats.phrases import count, cut, moment
from ..records import Value

if TYPE_CHECKING:
    from collections.abc import Mapping

    from ..protocol.service_lines import Change

_MOST_CHANGES = 5
_MOST_OF_A_CHANGE = 400
_SPACES = "    "


class Subject(Value):
    """What is watched: whether this user ID is authenticated to the wanted amount, from these roots."""
    __slots__ = ("fpr", "user_id", "wanted", "roots")

    def __init__(self, fpr: str, user_id: bytes, wanted: int, roots: Mapping[str, int]) -> None:
        self.fpr, self.user_id, self.wanted, self.roots = fpr, user_id, wanted, dict(roots)


class Notice(Value):
    """A report. `before` is None if nothing was reported before. `changes` are those of the keyring since then, newest
    first, that are about keys of the paths, or all if there are no such; `causes` are others. `number` is the last
    change that the amount depends on for certain, and `keys` are those of its paths. `waiting` says which signatures
    wait to be verified."""
    __slots__ = ("subject", "time", "amount", "before", "number", "keys", "changes", "causes", "waiting")

    def __init__(self, subject: Subject, time: int, amount: int, before: int | None, number: int,
                 keys: frozenset[str] = frozenset(), changes: tuple[Change, ...] = (), causes: tuple[str, ...] = (),
                 waiting: str = "") -> None:
        self.subject, self.time, self.amount, self.before = subject, time, amount, before
        self.number, self.keys, self.changes, self.causes = number, keys, changes, causes
        self.waiting = waiting

    @property
    def is_reached(self) -> bool:
        return self.amount >= self.subject.wanted

    def text(self) -> str:
        """The report for people."""
        subject = self.subject
        was = "" if self.before is None else f"; it was {self.before}"
        word = "reached" if self.is_reached else "not reached"
        lines = [f"{moment(self.time)}: {cut(subject.user_id)}, key {subject.fpr}",
                 f"{_SPACES}{word}: {self.amount} of {subject.wanted}{was}", *map(_SPACES.__add__, self._causes())]
        return "".join(line + "\n" for line in lines)

    def _causes(self) -> list[str]:
        lines = list(self.causes)
        lines += map(shown, self.changes[:_MOST_CHANGES])
        left = len(self.changes) - _MOST_CHANGES
        lines += [f"and {count(left, 'earlier change')}: tukyamid log"] if left > 0 else []
        if self.before is not None and not lines:
            lines = ["nobody changed the keyring: something has begun or ended with time"]
        return [*lines, self.waiting] if self.waiting else lines

    def environment(self) -> dict[str, str | bytes]:
        """The facts, for a command."""
        subject = self.subject
        return {"TUKYAMID_KEY": subject.fpr, "TUKYAMID_USER_ID": subject.user_id.replace(b"\0", b"\\x00"),
                "TUKYAMID_AMOUNT": str(self.amount),
                "TUKYAMID_BEFORE": "" if self.before is None else str(self.before),
                "TUKYAMID_WANTED": str(subject.wanted), "TUKYAMID_REACHED": "yes" if self.is_reached else "no",
                "TUKYAMID_TIME": str(self.time),
                "TUKYAMID_CHANGES": "".join(shown(one) + "\n" for one in self.changes[:_MOST_CHANGES]),
                "TUKYAMID_TEXT": self.text()}


def shown(change: Change) -> str:
    """A change, and by whom it was made."""
    what = printable(change.what)
    what = what if len(what) <= _MOST_OF_A_CHANGE else f"{what[:_MOST_OF_A_CHANGE]}…"
    return (f"change {change.number}, {moment(change.time)}, by {_user(change.user)}, process {change.process}: "
            f"{what}")


def _user(number: int) -> str:
    """A user's name and number."""
    try:
        return f"{pwd.getpwuid(number).pw_name} ({number})"
    except KeyError:
        return "you" if number == os.geteuid() else f"user {number}"


def are_about(changes: list[Change], fprs: frozenset[str]) -> tuple[Change, ...]:
    """The changes that name one of these keys, or that name no key but a signature's number; all if there are none.

    >>> from ..protocol.service_lines import Change
    >>> made = [Change(n, 0, 0, 1, what) for n, what in enumerate(["import ab", "verdict 12 bad", "drop cd"])]
    >>> [change.number for change in are_about(made, frozenset(["cd"]))], len(are_about(made[:1], frozenset()))
    ([1, 2], 1)
    """
    found = tuple(one for one in changes if _is_about(one.what.split(), fprs))
    return found or tuple(changes)


def _is_about(words: list[str], fprs: frozenset[str]) -> bool:
    is_of_number_alone = words[:1] == ["verdict"] and words[-1:] in (["bad"], ["none"])
    return is_of_number_alone or not fprs.isdisjoint(words)
