"""A service of its own for a set of inputs, so that asking again is fast and the answer is about these inputs alone.

The digest of the inputs names its socket. A record beside it says, by the stamp of the inputs, what their digest was,
so that the files needn't be read for the next question. The service ends when nobody has asked for a minute.
"""

from __future__ import annotations

import os

from ..fast_imports import sha256
from ..records import Value
from ..safe_folders import own_folder, runtime_file
from .named_inputs import Stamp, stamp_of

# A file that was changed within this time before its stamp was taken may change again without another stamp.
_STABLE_NANOSECONDS = 2 * 10**9
_RECORD = ".digest"
_MOST_RECORDS = 64


def held_file(*parts: str) -> str:
    """A file of this module's, by what names it. Its folder is the user's alone."""
    folder = own_folder(runtime_file("tukyamid-held"))
    return os.path.join(folder, sha256(os.fsencode("\0".join(parts))).hexdigest()[:32])


class Record(Value):
    """What inputs of a stamp were: their digest, and the program that verified them, with its stamp."""
    __slots__ = ("digest", "verifier", "verifier_stamp")

    def __init__(self, digest: str, verifier: str, verifier_stamp: str) -> None:
        self.digest, self.verifier, self.verifier_stamp = digest, verifier, verifier_stamp

    def is_current(self) -> bool:
        """Whether the verifier is still the same."""
        stamp = stamp_of([self.verifier])
        return stamp is not None and stamp.text == self.verifier_stamp


def find_record(stamp: Stamp) -> Record | None:
    """The record of inputs that were the same, verified by the same program; None if there is none."""
    try:
        with open(_record_file(stamp), encoding="utf-8", errors="surrogateescape") as file:
            record = Record(*file.read().split("\n"))
    except (FileNotFoundError, TypeError):
        return None
    return record if record.is_current() else None


def keep_record(stamp: Stamp, begun: int, digest: str, verifier: str) -> None:
    """Keeps a record, unless the inputs changed so lately that another change might not be noticed. `begun` is the time
    in nanoseconds before the stamp was taken."""
    program = stamp_of([verifier])
    if program is None or max(stamp.newest, program.newest) + _STABLE_NANOSECONDS > begun:
        return
    name = _record_file(stamp)
    new = f"{name}.{os.getpid()}"
    with open(new, "w", encoding="utf-8", errors="surrogateescape") as file:
        file.write("\n".join((digest, verifier, program.text)))
    os.replace(new, name)
    _drop_oldest(os.path.dirname(name))


def _drop_oldest(folder: str) -> None:
    """Keeps the newest records."""
    with os.scandir(folder) as entries:
        records = sorted((entry.stat().st_mtime_ns, entry.path) for entry in entries if entry.name.endswith(_RECORD))
    for _, path in records[:-_MOST_RECORDS]:
        try:
            os.unlink(path)
        except FileNotFoundError:
            pass  # Another process has dropped it.


def _record_file(stamp: Stamp) -> str:
    return held_file(stamp.text) + _RECORD
