"""To which account a user number belongs. An account may have thousands of subordinate numbers for containers
(`/etc/subuid`), and its programs may become any of them. All together have what one user has."""

from __future__ import annotations

import os
import pwd
from bisect import bisect_right
from typing import NamedTuple

SUBORDINATE = "/etc/subuid"
_MOST_OCTETS = 1 << 20
_LARGEST = 1 << 32


class _Range(NamedTuple):
    """The numbers from `first` to before `end`."""
    first: int
    end: int
    account: str


class Accounts:
    """The accounts of a file of ranges, NAME:FIRST:COUNT each, which is read again when it has changed."""

    def __init__(self, path: str = SUBORDINATE) -> None:
        self._path = path
        self._state: tuple[int, int, int] | None = None
        self._ranges: list[_Range] = []
        self._numbers: dict[str, int | None] = {}

    def of(self, number: int) -> int:
        """The number of the account that a user number belongs to; itself if no other has it."""
        self._refresh()
        place = bisect_right(self._ranges, number, key=lambda one: one.first) - 1
        if place < 0 or number >= self._ranges[place].end:
            return number
        found = self._ranges[place]
        if found.account not in self._numbers:
            self._numbers[found.account] = _number_of(found.account)
        account = self._numbers[found.account]
        return found.first if account is None else account

    def _refresh(self) -> None:
        try:
            found = os.stat(self._path)
        except OSError:
            self._state, self._ranges = None, []
            return
        state = found.st_mtime_ns, found.st_size, found.st_ino
        if state != self._state:
            self._state, self._numbers = state, {}
            self._ranges = sorted(_read(self._path))


def _read(path: str) -> list[_Range]:
    try:
        with open(path, encoding="utf-8", errors="replace") as file:
            lines = file.read(_MOST_OCTETS).splitlines()
    except OSError:
        return []
    ranges = []
    for line in lines:
        account, *numbers = line.strip().split(":")
        if len(numbers) == 2 and all(one.isascii() and one.isdecimal() for one in numbers):
            first, count = map(int, numbers)
            if first + count <= _LARGEST:
                ranges.append(_Range(first, first + count, account))
    return ranges


def _number_of(account: str) -> int | None:
    """The number of an account, by its name or its number."""
    if account.isascii() and account.isdecimal():
        return int(account)
    try:
        return pwd.getpwnam(account).pw_uid
    except KeyError:
        return None


account_of = Accounts().of
