"""The last report of a watch, kept in a file: what changes while no watch runs is reported when one starts again."""

from __future__ import annotations

import json
import os
import stat

from ..command.exit_statuses import NoAnswer
from ..fast_imports import TYPE_CHECKING
from ..output_files import Output
from ..records import Value

if TYPE_CHECKING:
    from .watch_notice import Notice, Subject

_FORM = 1
_LONGEST = 1 << 20


class Last(Value):
    """What was reported last: an amount, the change of the keyring that it depended on, the keys of its paths, and
    whether the roots were others then."""
    __slots__ = ("amount", "number", "keys", "are_roots_new")

    def __init__(self, amount: int, number: int, keys: frozenset[str] = frozenset(),
                 are_roots_new: bool = False) -> None:
        self.amount, self.number, self.keys, self.are_roots_new = amount, number, keys, are_roots_new


class StateFile:
    """A file with the last report of one watch."""

    def __init__(self, path: str, subject: Subject) -> None:
        self._path, self._subject = path, subject

    def read(self) -> Last | None:
        """The last report; None if there is no file yet. NoAnswer if it is damaged, or of another watch."""
        try:
            file = os.open(self._path, os.O_RDONLY | os.O_NONBLOCK | os.O_NOCTTY | os.O_CLOEXEC)
        except FileNotFoundError:
            return None
        with open(file, "rb") as opened:
            if not stat.S_ISREG(os.fstat(file).st_mode):
                raise NoAnswer(f"{self._path} isn't a regular file")
            octets = opened.read(_LONGEST)
        try:
            said = json.loads(octets)
            binding = said["fingerprint"], said["user_id"], said["wanted"]
            last = Last(_number(said["amount"]), _number(said["change"]), frozenset(said["keys"]),
                        said["roots"] != self._subject.roots)
            is_known = said["form"] == _FORM
        except (ValueError, KeyError, TypeError, RecursionError):
            raise NoAnswer(f"{self._path} isn't the file of a watch") from None
        if not is_known or binding != self._binding():
            raise NoAnswer(f"{self._path} is the file of another watch")
        return last

    def keep(self, notice: Notice) -> None:
        """Keeps a report. An OSError if that can't be done."""
        fpr, user_id, wanted = self._binding()
        said = {"form": _FORM, "fingerprint": fpr, "user_id": user_id, "wanted": wanted, "amount": notice.amount,
                "change": notice.number, "keys": sorted(notice.keys), "roots": notice.subject.roots}
        with Output(os.fspath(self._path)) as output:
            output.write([json.dumps(said, indent=1).encode() + b"\n"])
            output.keep()

    def _binding(self) -> tuple[str, str, int]:
        return self._subject.fpr, self._subject.user_id.decode("utf-8", "surrogateescape"), self._subject.wanted


def _number(value: object) -> int:
    if not isinstance(value, int) or isinstance(value, bool) or value < 0:
        raise ValueError(value)
    return value
