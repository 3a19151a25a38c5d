"""The digest of an input: what its files contain, and which verifier reads them."""

import hashlib
import os
from collections.abc import Iterable, Iterator
from pathlib import Path

from .directory_entries import entries_of

LAYOUT = "tukyamid 3"


def files_of(path: Path) -> Iterator[tuple[bytes, Path]]:
    """The files of an input, each with what its name adds to the digest."""
    if not path.is_dir():
        yield b"file", path
        return
    yield from ((b"entry " + os.fsencode(os.path.relpath(file, path)), Path(file)) for file in entries_of(str(path)))


def digest_of(paths: Iterable[str | os.PathLike[str]], verifier: str) -> str:
    """The digest of the contents of keyring files and certificate directories, in the order of the paths, and of the
    version of the verifier."""
    whole = hashlib.sha256()
    for part in LAYOUT.encode(), verifier.encode():
        whole.update(len(part).to_bytes(4, "big") + part)
    for path in map(Path, paths):
        named = list(files_of(path))
        whole.update(b"directory %d " % len(named) if path.is_dir() else b"")
        for name, file in named:
            with open(file, "rb") as stream:
                content = hashlib.file_digest(stream, "sha256").digest()
            whole.update(len(name).to_bytes(4, "big") + name + content)
    return whole.hexdigest()
