"""What was verified is kept: a dump of the engine in the user's cache folder, under the digest of the input.

An entry is a folder that is written beside its place and then renamed, so that none is ever seen half written. Whoever
can write there can forge verdicts. So the folder is made for its owner alone, and one that others can write isn't used.
"""

import contextlib
import fcntl
import functools
import json
import mmap
import os
import shutil
import stat
import tempfile
from collections.abc import Iterable, Iterator
from pathlib import Path
from typing import Any

from ..client.connection import Connection
from ..openpgp.certificates import bindings_of
from ..protocol import spelling
from ..protocol.refusals import TukyamidError
from ..protocol.verdicts import Verdicts, verdicts_of
from ..safe_folders import check_way
from .input_digest import LAYOUT
from .keyring import Bindings

MOST_ENTRIES = 8
LOCK_OF_A_SERVICE = "keyring.db.lock"


class StoreRefused(TukyamidError):
    """The folder isn't the user's own, or others can write there."""


def default_folder() -> Path:
    return Path(os.environ.get("XDG_CACHE_HOME") or Path.home() / ".cache") / "tukyamid"


class Entry:
    """A kept dump of certificates and verdicts, and the bindings of its certificates."""

    def __init__(self, folder: Path) -> None:
        self.folder = folder
        self.about: dict[str, Any] = json.loads((folder / "about.json").read_text())

    def is_whole(self) -> bool:
        size: int = self.about["octets"]
        return self.about["layout"] == LAYOUT and (self.folder / "dump").stat().st_size == size

    def give_to(self, engine: Connection) -> bool:
        """Has the engine take the dump, and returns whether it was taken whole."""
        try:
            with open(self.folder / "dump", "rb", buffering=0) as file:
                return engine.restore(file)
        except ValueError:
            return False

    @functools.cached_property
    def verdicts(self) -> Verdicts:
        if not self.about["octets"]:
            return Verdicts()
        with open(self.folder / "dump", "rb") as file:
            return Verdicts(mmap.mmap(file.fileno(), 0, access=mmap.ACCESS_READ), self.about["verdicts"])

    @functools.cached_property
    def bindings(self) -> Bindings:
        """The fingerprint and the user ID of each binding."""
        pairs = [line.partition(b" ") for line in (self.folder / "bindings").read_bytes().splitlines()]
        return [(fpr.decode("ascii"), spelling.read_user_id(uid)) for fpr, _, uid in pairs]


class Held:
    """The verdicts and the bindings of a dump that isn't kept."""

    def __init__(self, lines: Iterable[bytes]) -> None:
        whole = list(lines)
        self.verdicts = verdicts_of(whole)
        self.bindings: Bindings = [pair for line in whole for pair in _bindings_of_line(line)]


def _bindings_of_line(line: bytes) -> Iterator[tuple[str, bytes]]:
    return bindings_of(bytes.fromhex(line[7:].decode("ascii"))) if line.startswith(b"import ") else iter(())


class Store:
    """The folder of entries. StoreRefused if others can change what is kept there."""

    def __init__(self, folder: str | os.PathLike[str] | None = None) -> None:
        self.folder = Path(folder) if folder else default_folder()
        with contextlib.suppress(FileNotFoundError):
            self._check()

    def _check(self) -> None:
        about = self.folder.stat()
        if not stat.S_ISDIR(about.st_mode):
            raise StoreRefused(f"{self.folder} isn't a folder")
        if about.st_uid != os.geteuid():
            raise StoreRefused(f"the folder {self.folder} is another user's")
        if about.st_mode & (stat.S_IWGRP | stat.S_IWOTH):
            raise StoreRefused(f"others can write to the folder {self.folder}")
        try:
            check_way(os.fspath(self.folder))
        except PermissionError as error:
            raise StoreRefused(str(error)) from None

    def find(self, digest: str) -> Entry | None:
        """The entry of this digest, or None."""
        folder = self.folder / digest
        try:
            entry = Entry(folder)
            if not entry.is_whole():
                raise ValueError("another layout, or cut")
        except FileNotFoundError:
            return None
        except (OSError, ValueError, KeyError, TypeError):
            self.forget(digest)
            return None
        try:
            os.utime(folder)
        except OSError:
            pass  # It is used all the same, and forgotten sooner.
        return entry

    def forget(self, digest: str) -> None:
        shutil.rmtree(self.folder / digest, ignore_errors=True)

    def good_verdicts(self, verifier: str) -> dict[str, str]:
        """The fingerprint by number of each good signature that this version of the verifier has verified in the entry
        that was used last."""
        for folder in reversed(self._oldest_first()):
            entry = self.find(folder.name)
            if entry is not None and entry.about.get("verifier") == verifier:
                return dict(entry.verdicts.good())
        return {}

    def keep(self, digest: str, lines: Iterable[bytes], verifier: str) -> Entry:
        """Writes an entry of a dump's lines, whole or not at all, and returns it. Only certificates and verdicts are
        kept."""
        self.folder.mkdir(mode=0o700, parents=True, exist_ok=True)
        self._check()  # Others may have made it meanwhile.
        new = Path(tempfile.mkdtemp(prefix=".new-", dir=self.folder))
        try:
            _write(new, lines, verifier)
            self._rename(new, self.folder / digest)
        finally:
            shutil.rmtree(new, ignore_errors=True)
        for folder in self._oldest_first()[:-MOST_ENTRIES]:
            if not _is_served(folder):
                shutil.rmtree(folder, ignore_errors=True)
        return Entry(self.folder / digest)

    @staticmethod
    def _rename(new: Path, place: Path) -> None:
        try:
            new.rename(place)
        except OSError:
            if not place.is_dir():  # If it is there, another process has kept the same.
                raise

    def _oldest_first(self) -> list[Path]:
        try:
            entries = [folder for folder in self.folder.iterdir() if not folder.name.startswith(".")]
            return sorted(entries, key=lambda one: one.stat().st_mtime)
        except OSError:
            return []


def _is_served(folder: Path) -> bool:
    """Whether a service has the database of an entry open, which it locks."""
    try:
        with open(folder / LOCK_OF_A_SERVICE, "rb") as file:
            fcntl.flock(file, fcntl.LOCK_SH | fcntl.LOCK_NB)
    except BlockingIOError:
        return True
    except OSError:
        pass
    return False


def _write(folder: Path, lines: Iterable[bytes], verifier: str) -> None:
    about: dict[str, Any] = {"layout": LAYOUT, "verifier": verifier, "verdicts": 0, "octets": 0}
    with open(folder / "dump", "wb") as dump, open(folder / "bindings", "wb") as bindings:
        for line in lines:
            dump.write(line + b"\n")
            about["octets"] += len(line) + 1
            if line.startswith(b"import "):
                about["verdicts"] = about["octets"]
            for fpr, uid in _bindings_of_line(line):
                bindings.write(f"{fpr} {spelling.write_user_id(uid)}\n".encode("ascii"))
        for file in dump, bindings:
            file.flush()
            os.fsync(file.fileno())
    (folder / "about.json").write_text(json.dumps(about))
