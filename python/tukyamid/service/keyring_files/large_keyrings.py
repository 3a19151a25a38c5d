"""Keyrings of any size: a file of packets, or a folder of files as a keyserver dumps them. They are loaded in parts.
The database says how far each file is loaded: so whatever ends the service, at most one part is loaded again."""

from __future__ import annotations

import asyncio
import hashlib
import os
import re
from collections.abc import AsyncGenerator, Sequence
from contextlib import aclosing
from dataclasses import dataclass, replace
from typing import TYPE_CHECKING

from ..line_intake import LineIntake
from ..storage.database import Actor
from ..storage.loaded_files import Loaded
from .certificate_cuts import begins_certificate, piece_at
from .keyring_reader import Certificates, read_certificates
from .progress import Progress, make_imports, one_ahead
from .watched_files import Unreadable, files_of, is_folder_of_files, open_regular, read_files, unreadable

if TYPE_CHECKING:
    from hashlib import _Hash

_LARGE = 8 << 20
_HASHED_AT_ONCE = 1 << 20
_MOST_FAULTS = 20  # Of a file.
_OCTET = re.compile(r"(?<=: octet )[0-9]+(?=: )")


@dataclass(frozen=True)
class Part:
    """Some certificates of a file, and how far it is loaded with them."""
    loaded: Loaded
    read: Certificates


def is_large(name: str) -> bool:
    """Whether a keyring is loaded in parts: a folder of files, or a large file of packets. Unreadable if it can't be
    opened."""
    if not name.startswith("/"):
        return False
    if is_folder_of_files(name):
        return True
    return len(files := files_of(name)) == 1 and files[0] == name and _is_of_packets(name)


def _is_of_packets(file: str) -> bool:
    with open_regular(file) as number:
        return os.fstat(number).st_size > _LARGE and bool(os.pread(number, 1, 0)[0] & 0x80)


def are_whole(name: str, loaded: Sequence[Loaded]) -> bool:
    """Whether all files of a keyring are loaded as they are now."""
    stamps = {one.file: one.stamp for one in loaded if one.is_whole}
    try:
        return all(stamps.get(_own(name, path)) == _stamp(os.stat(path)) for path in files_of(name))
    except OSError as error:
        raise unreadable(name, error) from None


class LargeFile:
    """A file of a large keyring while it is loaded. `before` is how far it was loaded before."""

    def __init__(self, file: str, own: bytes, before: Loaded | None, verifier: Sequence[str]) -> None:
        self._file = file
        self._own = own
        self._before = before
        self._verifier = verifier

    async def parts(self) -> AsyncGenerator[Part, None]:
        """The parts that are still to be loaded. A file that can't be read is one with a fault."""
        try:
            with open_regular(self._file) as number:
                about = os.fstat(number)
                stamp = _stamp(about)
                if self._before is not None and self._before.is_whole and self._before.stamp == stamp:
                    return
                loaded, digest = await asyncio.to_thread(self._begun, number, stamp, about.st_size)
                if loaded.is_whole:
                    yield Part(loaded, Certificates((), ()))
                while not loaded.is_whole:
                    part = await self._part(number, loaded, digest)
                    loaded = part.loaded
                    yield part
        except OSError as error:
            fault = f"{self._file}: {error.strerror or error}"
        except Unreadable as error:
            fault = str(error)
        else:
            return
        yield Part(Loaded(self._own, "", 0, 0, b"", 0, fault), Certificates((), ()))

    def _begun(self, number: int, stamp: str, size: int) -> tuple[Loaded, _Hash]:
        """How far an open file is loaded, unless it has changed since: nothing may be before that but what was loaded,
        and a certificate begins behind it."""
        before, digest = self._before, hashlib.sha256()
        if before is not None and before.octets <= size:
            _hash(number, digest, 0, before.octets)
            if digest.digest() == before.digest and (
                    before.octets == size or begins_certificate(number, before.octets)):
                return replace(before, stamp=stamp, size=size), digest
        return Loaded(self._own, stamp, 0, size, b""), hashlib.sha256()

    async def _part(self, number: int, loaded: Loaded, digest: _Hash) -> Part:
        if loaded.octets == 0 and not os.pread(number, 1, 0)[0] & 0x80:  # It is armored, and so read as a whole.
            (text,) = await asyncio.to_thread(read_files, self._file, [self._file])
            octets, end, fault = text, loaded.size, ""
        else:
            piece = await asyncio.to_thread(piece_at, number, loaded.size, loaded.octets)
            octets, end, fault = piece.octets, piece.end, piece.fault
        faults = [f"{self._file}: {fault}"] if fault else []
        read = Certificates((), ())
        if octets:
            try:
                read = await read_certificates(self._verifier, self._file, [("", octets)])
            except Unreadable as error:
                faults.append(_moved(str(error), self._file, loaded.octets))
        faults += [_moved(one, self._file, loaded.octets) for one in read.left_out]
        await asyncio.to_thread(_hash, number, digest, loaded.octets, end)
        return Part(replace(loaded, octets=end, digest=digest.digest(),
                            certificates=loaded.certificates + len(read.octets),
                            fault=_joined(loaded.fault, faults)), read)


class Load:
    """One large keyring while it is loaded."""

    def __init__(self, intake: LineIntake, name: str, verifier: Sequence[str]) -> None:
        self._intake = intake
        self._name = name
        self._verifier = verifier
        self.share = 0.0  # How much of it is loaded, from 0 to 1.
        self.files: dict[bytes, Loaded] = {}

    @property
    def certificates(self) -> int:
        return sum(one.certificates for one in self.files.values())

    @property
    def left_out(self) -> list[str]:
        return [line for one in self.files.values() for line in one.fault.splitlines()]

    @property
    def digest(self) -> bytes:
        return hashlib.sha256(b"".join(self.files[file].digest for file in sorted(self.files))).digest()

    async def parts(self, progress: Progress) -> AsyncGenerator[Part, None]:
        """Those that are still to be loaded, one of them read ahead."""
        before = {one.file: one for one in await self._intake.find(lambda finder: finder.loaded(self._name))}
        sizes = await asyncio.to_thread(_sizes, self._name)
        total, done = max(1, sum(sizes.values())), 0
        for path in sizes:
            own = _own(self._name, path)
            if own in before:
                self.files[own] = before[own]
            async with aclosing(one_ahead(LargeFile(path, own, before.get(own), self._verifier).parts())) as parts:
                async for part in parts:
                    progress.share = min(1.0, (done + part.loaded.octets) / total)
                    yield part
            done += sizes[path]

    async def take(self, part: Part, actor: Actor, progress: Progress) -> None:
        """Imports a part, and notes that."""
        refused = await make_imports(self._intake, part.read.octets, actor, progress)
        loaded = part.loaded
        if refused:
            loaded = replace(loaded, fault=_joined(loaded.fault, [
                f"{refused} of {len(part.read.octets)} certificates were refused"]))
        self.files[loaded.file] = loaded
        await self._intake.write(lambda: self._intake.database.put_loaded(self._name, loaded))
        self.share = progress.share or 0.0


def _own(name: str, path: str) -> bytes:
    """A file's path within the keyring's folder; empty if the file is the keyring."""
    return b"" if path == name else os.fsencode(os.path.relpath(path, name))


def _stamp(about: os.stat_result) -> str:
    return f"{about.st_size} {about.st_mtime_ns} {about.st_ino}"


def _sizes(name: str) -> dict[str, int]:
    """The files of a keyring, in order, each with its size."""
    try:
        return {path: os.stat(path).st_size for path in files_of(name)}
    except OSError as error:
        raise unreadable(name, error) from None


def _moved(said: str, file: str, place: int) -> str:
    """What the verifier says of a part of a file that begins at this place."""
    return file + _OCTET.sub(lambda found: str(int(found[0]) + place), said.removeprefix(file), count=1)


def _joined(fault: str, more: Sequence[str]) -> str:
    return "\n".join([*fault.splitlines(), *more][:_MOST_FAULTS])


def _hash(number: int, digest: _Hash, place: int, end: int) -> None:
    while place < end and (octets := os.pread(number, min(_HASHED_AT_ONCE, end - place), place)):
        digest.update(octets)
        place += len(octets)
