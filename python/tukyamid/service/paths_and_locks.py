"""Where a user's socket and database are, and the locks that keep each to one service."""

from __future__ import annotations

import fcntl
import os
import stat
import time
from pathlib import Path

from tukyamid.keyrings.directory_entries import own_directory
from tukyamid.safe_folders import runtime_file

_PAUSE = 0.01


class Taken(OSError):
    """Another process has the lock."""


def default_socket() -> Path:
    """The socket of the user's service."""
    return Path(runtime_file("tukyamid.socket"))


def default_database() -> Path:
    return _data() / "tukyamid" / "keyring.db"


def default_directory() -> Path:
    """The certificate directory that the user's programs share."""
    return Path(own_directory())


def default_log() -> Path:
    """Where a service that was started by a command writes what it has to say."""
    return _state() / "tukyamid" / "service.log"


def state_folder() -> Path:
    """Where a service keeps what it remembers beside its database: the folder that systemd gives it, or the user's."""
    given = os.environ.get("STATE_DIRECTORY", "").split(":")[0]
    return Path(given) if given else _state() / "tukyamid"


def _state() -> Path:
    named = os.environ.get("XDG_STATE_HOME")
    return Path(named) if named else Path.home() / ".local" / "state"


def _data() -> Path:
    named = os.environ.get("XDG_DATA_HOME")
    return Path(named) if named else Path.home() / ".local" / "share"


def open_own(path: Path, flags: int) -> int:
    """Opens a file of the user's own; makes it if it isn't there. PermissionError if the name leads to another user's
    file, or to anything that isn't a file."""
    opened = os.open(path, flags | os.O_CREAT | os.O_NOFOLLOW | os.O_NONBLOCK, 0o600)
    found = os.fstat(opened)
    if not stat.S_ISREG(found.st_mode) or found.st_uid != os.geteuid():
        os.close(opened)
        raise PermissionError(f"{path} has to be a file of your own")
    return opened


class Lock:
    """A lock file. It stays where it is, so that all lock the same; its lock ends with its holder."""

    def __init__(self, path: Path, patience: float = 0.0) -> None:
        """Takes the lock; `Taken` if another process has it, and still has it after `patience` seconds."""
        self._file = open_own(path, os.O_RDWR)
        end = time.monotonic() + patience
        while not self._is_locked():
            if time.monotonic() >= end:
                os.close(self._file)
                raise Taken(f"another process uses {path.with_suffix('')}")
            time.sleep(_PAUSE)

    def _is_locked(self) -> bool:
        try:
            fcntl.flock(self._file, fcntl.LOCK_EX | fcntl.LOCK_NB)
        except BlockingIOError:
            return False
        return True

    def __enter__(self) -> Lock:
        return self

    def __exit__(self, *_: object) -> None:
        self.release()

    def release(self) -> None:
        if self._file >= 0:
            os.close(self._file)
            self._file = -1


def is_locked(path: Path) -> bool:
    """Whether a process has the lock of a file, which needn't be there."""
    try:
        opened = os.open(path, os.O_RDONLY | os.O_NOFOLLOW | os.O_NONBLOCK)
    except OSError:
        return False
    try:
        fcntl.flock(opened, fcntl.LOCK_SH | fcntl.LOCK_NB)
    except BlockingIOError:
        return True
    finally:
        os.close(opened)
    return False


def beside(path: Path, ending: str) -> Path:
    return path.with_name(path.name + ending)
