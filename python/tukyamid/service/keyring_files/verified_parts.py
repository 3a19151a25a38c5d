"""What the verifier has to look at, part by part, and what it says."""

from __future__ import annotations

import asyncio
import contextlib
import tempfile
from collections import deque
from collections.abc import AsyncGenerator, Iterable, Iterator, Sequence, Set
from contextlib import aclosing
from dataclasses import dataclass

from ..line_intake import LineIntake
from ..storage.unlooked import Unlooked
from .named_keys import NamedKeys
from .progress import Progress
from .verifier_program import LATE, VerifierRun

# What is verified at a time: certificates, and their octets.
_MOST_CERTIFICATES, _MOST_OCTETS = 2000, 8 << 20
# How many parts are verified at once: while one is prepared, or ends, processors have work with the other.
_AT_ONCE = 2
# For how many seconds it verifies before other lines are answered.
_SECONDS = 60


@dataclass(frozen=True)
class Verified:
    """Certificates with the verifier's verdicts: each signature's number with its issuer, or without octets if it is
    bad. `absent` are the IDs of keys that signatures name and that aren't kept, and `late` the places of certificates
    for which there was no time."""
    part: Sequence[Unlooked]
    verdicts: dict[bytes, bytes]
    absent: frozenset[bytes]
    late: Set[int]

    @property
    def done(self) -> int:
        """How many signatures wait no longer."""
        return sum(number in self.verdicts or one.place not in self.late for one in self.part
                   for number in one.numbers)


class VerifiedParts:
    """`has_left` is whether the last go has left something."""

    def __init__(self, intake: LineIntake) -> None:
        self._intake = intake
        self._keys = NamedKeys(intake)
        self._slow: set[int] = set()  # Certificates whose signatures take long.
        self.has_left = False

    async def all(self, words: Sequence[str], progress: Progress) -> AsyncGenerator[Verified, None]:
        """All that waits, and behind the rest what is known to take long, for as long as a go may take."""
        self._keys.forget()
        now = asyncio.get_running_loop().time
        end = now() + _SECONDS
        slow, self._slow, self.has_left = self._slow, set(), False
        under_way: deque[asyncio.Task[Verified]] = deque()
        try:
            async with aclosing(self._parts(slow)) as parts:
                async for part in parts:
                    if now() >= end:
                        self._slow |= slow
                        self.has_left = True
                        break
                    under_way.append(asyncio.create_task(self._verified(words, part, end - now(), progress)))
                    if len(under_way) == _AT_ONCE:
                        yield await self._first(under_way)
            while under_way:
                yield await self._first(under_way)
            self.has_left |= bool(self._slow)
        finally:
            for task in under_way:
                task.cancel()
            await asyncio.gather(*under_way, return_exceptions=True)

    async def _first(self, under_way: deque[asyncio.Task[Verified]]) -> Verified:
        """The first of these parts, once it is verified."""
        verified = await under_way[0]
        under_way.popleft()
        self._slow |= verified.late
        return verified

    async def _parts(self, slow: Set[int]) -> AsyncGenerator[list[Unlooked], None]:
        """What waits, each once."""
        for is_slow in (False, True) if slow else (False,):
            place = -1
            while part := await self._intake.search(
                    lambda finder: finder.unlooked(place, _MOST_CERTIFICATES, _MOST_OCTETS)):
                place = part[-1].place
                if some := [one for one in part if (one.place in slow) is is_slow]:
                    yield some

    async def _verified(self, words: Sequence[str], part: Sequence[Unlooked], seconds: float,
                        progress: Progress) -> Verified:
        verdicts: dict[bytes, bytes] = {}
        if not any(one.numbers for one in part):
            return Verified(part, verdicts, frozenset(), frozenset())
        keys, absent = await self._keys.named_by(part)
        with _written(one.octets for one in part) as given, _written(keys) as others:
            behind = ["--with", others] if keys else []  # The verifier would report an empty file.
            run = VerifierRun([*words, "--seconds", str(max(1, int(seconds))), *behind, "--pending", "--", given],
                              _questions(part))
            async with aclosing(run.lines()) as said:
                async for lines in said:
                    verdicts.update(map(_verdict_of, lines))
                    progress.advance(len(lines))
        late = {one.place for one in part if run.status == LATE and not verdicts.keys() >= {*one.numbers}}
        verified = Verified(part, verdicts, absent, late)
        progress.advance(verified.done - len(verdicts))
        return verified


def _verdict_of(line: bytes) -> tuple[bytes, bytes]:
    """The number and the issuer of a line `verdict NUMBER good ISSUER` or `verdict NUMBER bad`."""
    _, number, _, *issuer = line.decode("latin-1").split(" ")
    return bytes.fromhex(number), bytes.fromhex(issuer[0]) if issuer else b""


def _questions(part: Sequence[Unlooked]) -> bytes:
    """What has no verdict, as the engine's reply to `pending` says it. The verifier reads the numbers alone."""
    lines = [b"sig %s - -\n" % number.hex().encode() for one in part for number in one.numbers]
    return b"".join([b"pending %d\n" % len(lines), *lines])


@contextlib.contextmanager
def _written(texts: Iterable[bytes]) -> Iterator[str]:
    """A temporary file with these texts."""
    with tempfile.NamedTemporaryFile(prefix="tukyamid-", suffix=".pgp") as file:
        file.writelines(texts)
        file.flush()
        yield file.name
