"""The sources of watched keyrings: a file, a certificate directory, or the user's gpg. Each is read here once, and the
verifier gets what was read: by then the file may be any other one."""

from __future__ import annotations

import hashlib
import os
from dataclasses import dataclass

from tukyamid.keyrings.gpg_keyring import GpgFailed, existing_files, exported, home_directory, possible_files

from . import watched_files
from .watched_files import Unreadable, files_of, read_files, unreadable

GPG = "gpg"

# The size, time and place of each file: what changes whenever a file does.
Stamp = tuple[tuple[str, int, int, int], ...]


@dataclass(frozen=True)
class Looked:
    """What a keyring's files have, with the digest of it: their names in a certificate directory, or one text without a
    name."""
    digest: bytes
    files: tuple[tuple[str, bytes], ...]


def is_name(name: str) -> bool:
    """Whether a keyring may have this name: an absolute path, or gpg's, with or without its home directory."""
    return name == GPG or os.path.isabs(name.removeprefix(GPG + ":"))


def stamp_of(name: str) -> Stamp:
    try:
        return tuple((file, found.st_size, found.st_mtime_ns, found.st_ino)
                     for file, found in ((file, os.stat(file)) for file in _files(name)))
    except OSError as error:
        raise unreadable(name, error) from None


def folders_of(name: str) -> dict[str, frozenset[bytes] | None]:
    """The directories in which a keyring's files can change, as `watched_files.folders_of` says it."""
    if not _is_gpg(name):
        return watched_files.folders_of(name)
    places = [os.path.split(file) for file in possible_files(_home(name)) if os.path.isdir(os.path.dirname(file))]
    return {folder: frozenset(os.fsencode(file) for own, file in places if own == folder) for folder, _ in places}


def look_at(name: str) -> Looked:
    """Reads the files of a keyring, or has gpg export it; Unreadable if that can't be done."""
    try:
        files = _files(name)
        texts = [exported(_home(name))] if _is_gpg(name) else read_files(name, files)
        digest = hashlib.sha256(b"".join(hashlib.sha256(text).digest() for text in texts)).digest()
        places = [""] if _is_gpg(name) or files == [name] else [os.path.relpath(file, name) for file in files]
        return Looked(digest, tuple(zip(places, texts)))
    except OSError as error:
        raise unreadable(name, error) from None
    except GpgFailed as error:
        raise Unreadable(f"{name}: {error}") from None


def _is_gpg(name: str) -> bool:
    return not name.startswith("/")


def _home(name: str) -> str:
    """gpg's home directory. It is in the name, since the service's user may have several; without one, it is that of
    whoever started the service."""
    return name.partition(":")[2] or home_directory()


def _files(name: str) -> list[str]:
    if not _is_gpg(name):
        return files_of(name)
    files = existing_files(_home(name))
    if not files:
        raise Unreadable(f"{name}: gpg has no keyring in {_home(name)}")
    return files
