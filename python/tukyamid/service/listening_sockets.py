"""Sockets that the service listens on: made at a path, or passed on by systemd."""

from __future__ import annotations

import contextlib
import os
import socket
import stat
from pathlib import Path

from tukyamid.safe_folders import check_folder

from .paths_and_locks import Lock, Taken, beside

_FIRST_PASSED = 3
BACKLOG = 1024
_NOTICE_SECONDS = 5.0
# The names of passed sockets, with whether their clients may change something. A socket unit that names none passes
# its own name.
_NAMES = {"read-write": True, "tukyamid.socket": True, "read-only": False, "tukyamid-read-only.socket": False}


class WrongSocket(OSError):
    """A socket that was passed on can't be served; the text says why."""


def _users_of(mode: int) -> frozenset[int] | None:
    """Who may connect to a socket of this mode: only its owner and root, or whomever the system lets in (None)."""
    return None if mode & 0o077 else frozenset((os.geteuid(), 0))


class Listening:
    """A socket at a path. While its lock is held no other service binds there, or takes its file away."""

    def __init__(self, path: Path, mode: int) -> None:
        """Takes the lock; nobody can connect yet."""
        self._path = path
        self._mode = mode
        self.users = _users_of(mode)
        self._identity: tuple[int, int] | None = None
        check_folder(str(path.parent), is_shared_fine=True)
        try:
            self._lock = Lock(beside(path, ".lock"))
        except Taken:
            raise OSError(f"a service is already running at {path}") from None
        self.socket = socket.socket(socket.AF_UNIX)

    def open(self) -> None:
        """Listens from now on."""
        with contextlib.suppress(FileNotFoundError):
            if stat.S_ISSOCK(self._path.lstat().st_mode):
                self._path.unlink()  # Left over: who made it has ended, or would hold the lock.
        os.fchmod(self.socket.fileno(), self._mode)  # So its file has this mode from the beginning.
        before = os.umask(0o777 & ~self._mode)
        try:
            self.socket.bind(os.fspath(self._path))
        finally:
            os.umask(before)
        found = self._path.lstat()
        self._identity = found.st_dev, found.st_ino
        self.socket.listen(BACKLOG)

    def remove(self) -> None:
        """Takes the file away, so that nobody new connects; if it is still this socket's."""
        with contextlib.suppress(FileNotFoundError):
            found = self._path.lstat()
            if (found.st_dev, found.st_ino) == self._identity:
                self._path.unlink()

    def close(self) -> None:
        self.remove()
        self.socket.close()
        self._lock.release()


class Passed:
    """A socket of systemd's, which listens on when the service has ended."""

    def __init__(self, passed: socket.socket) -> None:
        self.socket = passed
        if passed.family != socket.AF_UNIX or not passed.getsockopt(socket.SOL_SOCKET, socket.SO_ACCEPTCONN):
            raise WrongSocket(f"the passed socket {passed.fileno()} isn't a Unix socket that listens")
        passed.set_inheritable(False)
        name = passed.getsockname()
        self.users = _users_of(os.stat(name).st_mode) if isinstance(name, str) and name else None

    def open(self) -> None:
        """Nothing: it listens already."""

    def remove(self) -> None:
        """Nothing: it isn't the service's."""

    def close(self) -> None:
        self.socket.close()


def passed_sockets() -> list[tuple[Passed, bool]]:
    """The sockets that systemd passed on, each with whether its clients may change something. WrongSocket if that isn't
    known: nobody may change something because a name was misspelt."""
    if os.environ.get("LISTEN_PID") != str(os.getpid()):
        return []
    count = int(os.environ.get("LISTEN_FDS") or 0)
    names = (os.environ.get("LISTEN_FDNAMES") or "").split(":")
    found = []
    for place in range(count):
        name = names[place] if place < len(names) else ""
        if name not in _NAMES:
            raise WrongSocket(f"a socket was passed with the name {name!r}; set FileDescriptorName in its unit to "
                              "read-only or read-write")
        found.append((Passed(socket.socket(fileno=_FIRST_PASSED + place)), _NAMES[name]))
    return found


def notify(text: str) -> None:
    """Reports to systemd how the service is, if systemd has started it and wants to know. What it doesn't take within
    some seconds is lost."""
    address = os.environ.get("NOTIFY_SOCKET")
    if address:
        with contextlib.suppress(TimeoutError), socket.socket(socket.AF_UNIX, socket.SOCK_DGRAM) as sender:
            sender.settimeout(_NOTICE_SECONDS)
            sender.sendto(text.encode(), "\0" + address[1:] if address.startswith("@") else address)
