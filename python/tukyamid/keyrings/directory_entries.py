"""A certificate directory's files: where the user's own one is, and which of its files are certificates, by the draft
of the shared OpenPGP certificate directory."""

from __future__ import annotations

import os

from ..fast_imports import TYPE_CHECKING

if TYPE_CHECKING:
    from collections.abc import Iterator

TRUST_ROOT = "trust-root"
_DIGITS = frozenset("0123456789abcdef")
_FIRST, _OTHERS = 2, (38, 62)  # How many digits of a fingerprint name a folder, and a file in it.


def own_directory() -> str:
    """The certificate directory that the user's programs share."""
    data = os.environ.get("XDG_DATA_HOME") or os.path.expanduser("~/.local/share")
    return os.environ.get("PGP_CERT_D") or os.path.join(data, "pgp.cert.d")


def entries_of(directory: str) -> list[str]:
    """The certificates of a certificate directory, in order. Links to files count as files, and nothing else counts."""
    return sorted(_entries(directory))


def folders_of(directory: str) -> list[str]:
    """The folders of a certificate directory in which certificates may be."""
    with os.scandir(directory) as entries:
        return [entry.path for entry in entries if is_folder_name(entry.name) and entry.is_dir()]


def is_folder_name(name: str) -> bool:
    return len(name) == _FIRST and _DIGITS.issuperset(name)


def _entries(directory: str) -> Iterator[str]:
    root = os.path.join(directory, TRUST_ROOT)
    if os.path.isfile(root):
        yield root
    for folder in folders_of(directory):
        with os.scandir(folder) as entries:
            yield from (entry.path for entry in entries if _is_file_name(entry.name) and entry.is_file())


def _is_file_name(name: str) -> bool:
    return len(name) in _OTHERS and _DIGITS.issuperset(name)
