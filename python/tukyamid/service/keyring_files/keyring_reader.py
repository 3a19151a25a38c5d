"""The certificates of a keyring, as the verifier reads them. The command's `--keyring` takes them from it too.

The verifier reads copies. A keyring's own files may be something else by then: an endless device, say, or a FIFO."""

from __future__ import annotations

import asyncio
import os
import tempfile
from collections.abc import Sequence
from dataclasses import dataclass

from ..started_program import start_program
from .verifier_program import PIECE, NotVerified, lines_with
from .watched_files import Unreadable

# Nothing is verified meanwhile: half a gigabyte takes some seconds.
_SECONDS = 300
_MOST_ERRORS = 1 << 16
_UNREADABLE = 3
_TEXT = "keyring"  # No name in a certificate directory.

Files = Sequence[tuple[str, bytes]]


@dataclass(frozen=True)
class Certificates:
    """Each with its packets unchanged, and what was left out."""
    octets: tuple[bytes, ...]
    left_out: tuple[str, ...]


async def read_certificates(verifier: Sequence[str], name: str, files: Files) -> Certificates:
    """Has the verifier read these files of a keyring. Unreadable if nothing can be read; NotVerified if the verifier
    isn't there or fails."""
    with tempfile.TemporaryFile() as errors, tempfile.TemporaryDirectory(prefix="tukyamid-") as folder:
        text = os.path.join(folder, _TEXT)
        await asyncio.to_thread(_copy, files, folder, text)
        is_text = os.path.exists(text)
        words = [*verifier, "--public", "--certificates", "--", "-" if is_text else folder]
        try:
            async with asyncio.timeout(_SECONDS):
                octets, status = await _run(words, text if is_text else os.devnull, errors.fileno())
        except TimeoutError:
            raise Unreadable(f"{name}: the verifier didn't read it within {_SECONDS} seconds") from None
        errors.seek(0)
        said = [_without_front(line, name, "-:" if is_text else folder)
                for line in errors.read(_MOST_ERRORS).decode("utf-8", "replace").splitlines()]
    if status not in (0, 1, _UNREADABLE):
        raise NotVerified(f"the verifier failed: {said[-1] if said else f'it ended with status {status}'}")
    left_out = tuple(line for line in said if line.endswith("left out"))
    if status == _UNREADABLE or left_out and not octets:
        raise Unreadable((left_out or said or [f"{name}: it can't be read"])[-1])
    return Certificates(octets, left_out)


def _copy(files: Files, folder: str, text: str) -> None:
    """Writes the files of a certificate directory into a folder, or a keyring that is one text."""
    for file, octets in files:
        place = os.path.join(folder, file) if file else text
        os.makedirs(os.path.dirname(place), exist_ok=True)
        with open(place, "xb") as copy:
            copy.write(octets)


async def _run(words: Sequence[str], given: str, errors: int) -> tuple[tuple[bytes, ...], int]:
    """The certificates that the verifier writes, and its exit status. Its standard input is a file."""
    with open(given, "rb") as stdin:
        try:
            process = await start_program(words, stdin=stdin, stderr=errors, limit=PIECE)
        except OSError as error:
            raise NotVerified(f"the verifier can't be started: {error}") from None
    assert process.stdout is not None
    try:
        octets: list[bytes] = []
        async for lines in lines_with(b"import ", process.stdout):
            octets += [bytes.fromhex(line[7:].decode("latin-1")) for line in lines]
        return tuple(octets), await process.wait()
    except ValueError:
        raise NotVerified("the verifier failed: it wrote something else than a certificate") from None
    finally:
        if process.returncode is None:
            process.kill()
            await process.wait()


def _without_front(line: str, name: str, front: str) -> str:
    """What the verifier says of a keyring, without its own name, and with the keyring's in place of what it read."""
    line = line.removeprefix("wot-verdicts: ")
    return name + line.removeprefix(front.removesuffix(":")) if line.startswith(front) else line
