"""What a command writes for its user: made aside, and then put in its place whole, or dropped.

A regular file keeps its owner and its mode, and a link stays: what it leads to is written. Anything else, such as a
device, a pipe or `/dev/fd/63`, is written through, and never replaced. So is a file in a directory in which others
could replace what is made there: no name in it is looked up twice.
"""

import contextlib
import os
import stat
import tempfile
from collections.abc import Iterable, Sequence
from pathlib import Path
from types import TracebackType
from typing import BinaryIO, Self

from .safe_folders import check_folder
from .service.paths_and_locks import beside, is_locked
from .service.storage.atomic_files import sync_folder

STANDARD_OUTPUT = "-"
_ENDINGS = ("", "-wal", "-shm", "-journal", ".lock")
_MOST_LINKS = 40
_OF_THE_USER = ("user.", "system.posix_acl_access")


class Output:
    """The place of an output: a file's name, or `-` for standard output. `kept` are databases that it may not be."""

    def __init__(self, name: str, kept: Sequence[Path] = ()) -> None:
        self._name = name
        self._kept = kept
        self._place = Path(name)
        self._found: os.stat_result | None = None
        self._through: int | None = None
        self._folder: int | None = None  # The directory, if others could replace what is made in it.
        self._aside: tempfile.TemporaryDirectory[str] | None = None

    def __enter__(self) -> Self:
        """Looks at the place, and opens what is written through. OSError if nothing can be written there."""
        self._through = 1 if self._name == STANDARD_OUTPUT else _descriptor(self._name)
        if self._through is not None:
            self._through = os.dup(self._through)
        else:
            self._place = _behind_links(Path(self._name).absolute())
            self._look()
        try:
            self._aside = self._make_aside()
        except BaseException:
            self._close()
            raise
        return self

    def _look(self) -> None:
        _refuse_databases(self._place, self._kept)
        if _is_of_others(self._place.parent):
            self._folder = os.open(self._place.parent, os.O_RDONLY | os.O_DIRECTORY)
        with contextlib.suppress(FileNotFoundError):
            self._found = self._place.stat()
            _refuse_others(self._place, self._found)
            if stat.S_ISDIR(self._found.st_mode):
                raise IsADirectoryError(f"{self._place} is a directory")
            if self._folder is not None and not _is_plain(self._found):
                raise PermissionError(f"{self._place} isn't a file of one name, in a directory of others")
            if not stat.S_ISREG(self._found.st_mode):
                self._through = os.open(self._place, os.O_WRONLY | os.O_NOCTTY)

    def _make_aside(self) -> tempfile.TemporaryDirectory[str]:
        """A directory for what is being made: beside its place if it is renamed to there in the end."""
        if self._through is None and self._folder is None:
            try:
                return tempfile.TemporaryDirectory(prefix=".tukyamid-", dir=self._place.parent)
            except OSError as error:
                if self._found is None:
                    raise OSError(error.errno, error.strerror, str(self._place.parent)) from None
                self._through = os.open(self._place, os.O_WRONLY)  # The file may be written, its directory not.
        return tempfile.TemporaryDirectory(prefix="tukyamid-")

    def __exit__(self, kind: type[BaseException] | None, error: BaseException | None,
                 traceback: TracebackType | None) -> None:
        self._close()

    def _close(self) -> None:
        for opened in self._through, self._folder:
            if opened is not None:
                os.close(opened)
        self._through = self._folder = None
        if self._aside is not None:
            self._aside.cleanup()

    @property
    def path(self) -> Path:
        """Where it is made: a file that isn't there yet."""
        assert self._aside is not None
        return Path(self._aside.name) / "content"

    def write(self, pieces: Iterable[bytes]) -> None:
        """Makes it of these octets, for its owner alone."""
        with open(os.open(self.path, os.O_WRONLY | os.O_CREAT | os.O_EXCL, 0o600), "wb") as file:
            file.writelines(pieces)

    def keep(self) -> None:
        """Puts what was made in its place."""
        with open(self.path, "rb") as made:
            if self._folder is not None:
                self._through = self._opened_among_others(self._folder)
            elif self._through is None and not self._keeps_owner(made):
                self._through = os.open(self._place, os.O_WRONLY)
            if self._through is not None:
                self._copy(made, self._through)
                return
            os.fsync(made.fileno())
        os.replace(self.path, self._place)
        sync_folder(self._place.parent)

    def _opened_among_others(self, folder: int) -> int:
        """Opens the place in a directory of others: a new file, or the one that was found there."""
        flags = os.O_WRONLY | os.O_NOFOLLOW | os.O_NONBLOCK | os.O_NOCTTY
        if self._found is None:
            return os.open(self._place.name, flags | os.O_CREAT | os.O_EXCL, 0o600, dir_fd=folder)
        opened = os.open(self._place.name, flags, dir_fd=folder)
        found = os.fstat(opened)
        if not os.path.samestat(found, self._found) or not _is_plain(found):
            os.close(opened)
            raise PermissionError(f"{self._place} was replaced meanwhile")
        return opened

    def _keeps_owner(self, made: BinaryIO) -> bool:
        """Gives what was made the owner, mode and access list of the file in its place; False if that can't be done."""
        if self._found is None:
            return True
        try:
            os.fchown(made.fileno(), self._found.st_uid, self._found.st_gid)
            os.fchmod(made.fileno(), stat.S_IMODE(self._found.st_mode))
            for name in os.listxattr(self._place):
                if name.startswith(_OF_THE_USER):  # The system sets the others.
                    os.setxattr(made.fileno(), name, os.getxattr(self._place, name))
        except OSError:
            return False
        return True

    def _copy(self, made: BinaryIO, through: int) -> None:
        """Writes all of it through a descriptor; an OSError that names the place if that can't be done."""
        name = "standard output" if self._name == STANDARD_OUTPUT else self._name
        try:
            if self._found is not None and stat.S_ISREG(self._found.st_mode):
                os.ftruncate(through, 0)
            while piece := made.read(1 << 16):
                while piece:
                    piece = piece[os.write(through, piece):]
        except OSError as error:
            raise OSError(error.errno, error.strerror, name) from None


def _descriptor(name: str) -> int | None:
    """The descriptor that a name such as `/dev/stdout` or `/dev/fd/63` means; None for any other name."""
    own = os.path.realpath("/proc/self/fd")
    for _ in range(_MOST_LINKS):
        folder, last = os.path.split(os.path.abspath(name))
        if os.path.realpath(folder) == own and last.isdecimal():
            return int(last)
        try:
            name = os.path.join(folder, os.readlink(name))
        except OSError:
            break
    return None


def _behind_links(path: Path) -> Path:
    """What a link leads to, or the path itself. PermissionError if it is another user's link in a shared directory."""
    for _ in range(_MOST_LINKS):
        if not path.is_symlink():
            return path
        _refuse_others(path, path.lstat())
        path = path.parent / path.readlink()
    raise OSError(f"{path}: too many links")


def _is_of_others(folder: Path) -> bool:
    """Whether others could put something else in the place of what is made in a directory."""
    try:
        check_folder(os.fspath(folder), is_shared_fine=True)
    except PermissionError:
        return True
    except OSError:  # It isn't there, or isn't a directory: who makes something in it says so.
        pass
    return False


def _is_plain(found: os.stat_result) -> bool:
    """Whether this is a regular file that has no second name."""
    return stat.S_ISREG(found.st_mode) and found.st_nlink == 1


def _refuse_others(path: Path, found: os.stat_result) -> None:
    """PermissionError if this is another user's, in a directory in which everybody may make files: who made it may
    want to read what is written, or to have something else overwritten."""
    folder = path.parent.stat()
    if folder.st_mode & stat.S_ISVTX and folder.st_mode & (stat.S_IWOTH | stat.S_IWGRP):
        if found.st_uid not in (os.geteuid(), folder.st_uid):
            raise PermissionError(f"{path} is another user's, in a directory that everybody may write to")


def _refuse_databases(path: Path, kept: Sequence[Path]) -> None:
    """PermissionError if this is a file of a database that is to be kept, or that a service uses."""
    for database in kept:
        for file in (beside(database, ending) for ending in _ENDINGS):
            if os.path.realpath(path) == os.path.realpath(file) or path.exists() and file.exists() and \
                    path.samefile(file):
                raise PermissionError(f"{path} belongs to the database {database}; name another file")
    for ending in _ENDINGS:
        used = path.with_name(path.name.removesuffix(ending))
        if path.name.endswith(ending) and is_locked(beside(used, ".lock")):
            raise PermissionError(f"a service uses {used}; name another file")
