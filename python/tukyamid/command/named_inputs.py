"""What the words name as inputs: files, certificate directories, pipes, and gpg's own keyring.

The stamp of an input says which files it is and when they were changed. An input whose stamp is the same needn't be
read again to know that it is the same.
"""

from __future__ import annotations

import os
import stat

from ..fast_imports import TYPE_CHECKING, Protocol
from ..records import Value
from .exit_statuses import WrongWords

if TYPE_CHECKING:
    from collections.abc import Iterable, Iterator
    from contextlib import ExitStack

    from .parsed_words import Given


# As many as the verifier reads of a file.
MOST_OCTETS = 512 << 20


class Stamp(Value):
    """A text that changes with the input, and the newest time in it, in nanoseconds."""
    __slots__ = ("text", "newest")

    def __init__(self, text: str, newest: int) -> None:
        self.text, self.newest = text, newest


class Source(Protocol):
    """An input."""

    def stamp(self) -> Stamp | None:
        """Its stamp; None if nothing is known without reading it."""

    def path(self, stack: ExitStack) -> str:
        """A file or directory that has it, as long as the stack is open."""


def sources_of(given: Given) -> list[Source]:
    """The inputs that the words name, in the order in which they are read."""
    sources: list[Source] = []
    for name in given.keyring:
        if _is_read_once(name):
            sources.append(Pipe(name))
        else:
            sources.append(Named(name))
    if given.gpg or given.gpg_keyring:
        sources.append(Gpg())
    sources += [Named(name) for name in given.directory]
    return sources


class Named:
    """A file or a certificate directory."""

    def __init__(self, name: str) -> None:
        self._name = name

    def stamp(self) -> Stamp | None:
        return stamp_of(_files(self._name))

    def path(self, stack: ExitStack) -> str:
        return self._name


class Pipe:
    """What can be read once alone: a pipe, a device, or standard input, which is `-`."""

    def __init__(self, name: str) -> None:
        self._name = name

    def stamp(self) -> Stamp | None:
        return None

    def path(self, stack: ExitStack) -> str:
        from ..bounded_reading import pieces_of
        return _as_file(pieces_of(self._name), stack)


class Gpg:
    """gpg's own keyring."""

    def stamp(self) -> Stamp | None:
        from . import gpg
        return stamp_of(file for file in gpg.keyring_files() if os.path.exists(file))

    def path(self, stack: ExitStack) -> str:
        from . import gpg
        return _as_file([gpg.export()], stack)


def _files(name: str) -> Iterator[str]:
    """A file, or a certificate directory and its certificates."""
    from ..keyrings.directory_entries import entries_of
    yield name
    if os.path.isdir(name):
        yield from entries_of(name)


def stamp_of(files: Iterable[str]) -> Stamp | None:
    """The stamp of some files; None if there is none, or if one can't be looked at."""
    parts, newest = [], 0
    try:
        for file in files:
            found = os.stat(file)
            newest = max(newest, found.st_mtime_ns, found.st_ctime_ns)
            parts.append(f"{os.path.realpath(file)}\0{found.st_dev} {found.st_ino} {found.st_size} {found.st_mtime_ns} "
                         f"{found.st_ctime_ns}\0")
    except OSError:
        return None
    return Stamp("".join(parts), newest) if parts else None


def _is_read_once(name: str) -> bool:
    if name == "-":
        return True
    try:
        mode = os.stat(name).st_mode
    except OSError:
        return False  # It is said where it is read.
    return not stat.S_ISREG(mode) and not stat.S_ISDIR(mode)


def _as_file(pieces: Iterable[bytes], stack: ExitStack) -> str:
    """A file of these octets, as long as the stack is open. WrongWords if they are too many."""
    from tempfile import NamedTemporaryFile
    file = stack.enter_context(NamedTemporaryFile(prefix="tukyamid-"))
    for piece in pieces:
        file.write(piece)
        if file.tell() > MOST_OCTETS:
            raise WrongWords(f"an input has more than {MOST_OCTETS >> 20} MiB; give it in several files")
    file.flush()
    return file.name
