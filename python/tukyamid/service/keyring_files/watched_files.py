"""The files of a watched keyring: one file, the entries of a certificate directory, or a folder of keyring files. They
are regular files: whatever else somebody names is refused, and never waited for."""

from __future__ import annotations

import contextlib
import os
import stat
from collections.abc import Iterator

from tukyamid.keyrings import directory_entries

MOST_OCTETS = 512 << 20
_KEYRING = (".pgp", ".gpg", ".asc")


class Unreadable(Exception):
    """The keyring can't be read; the text says why."""


def files_of(name: str) -> list[str]:
    """The files of a keyring, in order. Unreadable if it is neither a regular file nor a certificate directory."""
    try:
        mode = os.stat(name).st_mode
        if stat.S_ISREG(mode):
            return [name]
        if not stat.S_ISDIR(mode):
            raise Unreadable(f"{name}: this is neither a regular file nor a directory")
        found = directory_entries.entries_of(name) or sorted(_keyrings(name))
        if not found and not _is_new(name):
            keyrings = ", ".join(f"*{end}" for end in _KEYRING)
            raise Unreadable(f"{name}: this isn't a certificate directory: it has no certificate as 0a/1b2c.., and no "
                             f"{directory_entries.TRUST_ROOT}; nor has it keyrings as {keyrings}")
        return found
    except OSError as error:
        raise unreadable(name, error) from None


def is_folder_of_files(name: str) -> bool:
    """Whether a keyring is a folder of keyring files, as a keyserver dumps them."""
    try:
        return os.path.isdir(name) and not directory_entries.entries_of(name) and any(_keyrings(name))
    except OSError as error:
        raise unreadable(name, error) from None


def folders_of(name: str) -> dict[str, frozenset[bytes] | None]:
    """The directories in which a keyring's files can change, each with the names of these files; None is any name."""
    if os.path.isdir(name):
        return {folder: None for folder in (name, *directory_entries.folders_of(name))}
    places = {os.path.split(path) for path in (os.path.abspath(name), os.path.realpath(name))}
    return {folder: frozenset(os.fsencode(file) for own, file in places if own == folder) for folder, _ in places}


def read_files(name: str, files: list[str]) -> list[bytes]:
    """What these files of a keyring have. Unreadable if it is too much, or if one isn't a regular file any more."""
    left, texts = MOST_OCTETS, []
    for file in files:
        try:
            text = _read(file, left)
        except OSError as error:
            raise unreadable(name, error) from None
        if text is None:
            raise Unreadable(f"{name}: it has more than {MOST_OCTETS >> 20} MiB; give it in several files")
        texts.append(text)
        left -= len(text)
    return texts


def unreadable(name: str, error: OSError) -> Unreadable:
    return Unreadable(f"{error.filename or name}: {error.strerror or error}")


def _is_new(folder: str) -> bool:
    """Whether a directory without certificates may be a certificate directory: nothing is in it, or what programs that
    keep one leave there."""
    return all(name == "writelock" or name.startswith(("_", ".")) or directory_entries.is_folder_name(name)
               for name in os.listdir(folder))


def _keyrings(folder: str) -> Iterator[str]:
    """The keyring files in a folder."""
    with os.scandir(folder) as entries:
        yield from (entry.path for entry in entries if entry.name.endswith(_KEYRING) and entry.is_file())


@contextlib.contextmanager
def open_regular(file: str) -> Iterator[int]:
    """Opens a regular file. What was opened is looked at: by now it may be a device, or a FIFO, on which opening
    doesn't wait."""
    number = os.open(file, os.O_RDONLY | os.O_NONBLOCK | os.O_CLOEXEC | os.O_NOCTTY)
    try:
        if not stat.S_ISREG(os.fstat(number).st_mode):
            raise Unreadable(f"{file}: this isn't a regular file")
        yield number
    finally:
        os.close(number)


def _read(file: str, most: int) -> bytes | None:
    """What a file has; None if that is more than `most`. It may grow while it is read."""
    with open_regular(file) as number:
        if os.fstat(number).st_size > most:
            return None
        with open(number, "rb", closefd=False) as opened:
            text = opened.read(most + 1)
    return text if len(text) <= most else None
