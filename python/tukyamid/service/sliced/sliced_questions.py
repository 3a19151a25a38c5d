"""Questions to an engine that holds a part of the keyring: what a reply rests on is loaded, then it is asked."""

from __future__ import annotations

import re
from binascii import hexlify
from collections.abc import AsyncIterator, Awaitable, Callable, Collection, Sequence
from functools import partial
from typing import Protocol, TypeVar

from tukyamid.protocol.spelling import write_user_id

from ..sessions.views import Value
from ..storage.partial_reads import Part, Parts
from .partial_engine import REFUSED_BUDGET, BudgetExceeded, Loader
from .reader_thread import Found
from .reply_dependencies import Rest, rest_of, roots_of, slice_of, target_of
from .slices import Slices

_R = TypeVar("_R")
_BATCH = 256
_REFUSED_LINE = b"refused line\n"
_WANTED = re.compile(rb" ([1-9][0-9]{0,9})")
_MOST_WANTED = 2**32 - 1


class Read(Protocol):
    def __call__(self, call: Callable[[Parts], _R], /) -> Awaitable[_R]:
        """Reads parts of the database, in a thread of its own."""

    def here(self, call: Callable[[Parts], _R]) -> Found[_R] | None:
        """What a short call has read, if it could be made at once, in the caller's thread."""


class Asker:
    def __init__(self, loader: Loader, read: Read) -> None:
        self.loader = loader
        self.slices = Slices(loader.budget)
        self._read = read

    async def say(self, line: bytes) -> bytes:
        """The reply to a line for which nothing need be loaded."""
        return (await self.loader.ask(None, lambda _: [line]))[0]

    async def ask(self, word: bytes, value: Value, rest: bytes) -> bytes:
        """The reply to a line that asks about one certificate; `rest` is what follows its view."""
        if word == b"ask" and self._has_at_hand(value, rest):
            return await self._say(word, value, rest)
        try:
            needed, ready = await self._read(partial(self._gather, word, value, rest))
            await self.loader.load(needed.base, needed.beside, partial(self._fetch, ready))
        except BudgetExceeded:
            reply = await self.say(b"%s -%s" % (word, rest))
            return reply if reply == _REFUSED_LINE else REFUSED_BUDGET
        return await self._say(word, value, rest)

    async def ask_all(self, value: Value, rests: Sequence[bytes]) -> list[bytes]:
        """The replies to lines `ask` from a view, in one conversation with the engine."""
        targets = frozenset(fpr for rest in rests if (fpr := target_of(rest[1:])) is not None)
        gather = partial(self._gather_all, value, targets)
        found = None if self.slices.kept(roots_of(value)) is None else self._read.here(gather)
        needed, ready = found.value if found is not None else await self._read(gather)
        return await self.loader.load_and_ask(needed.base, needed.beside, partial(self._fetch, ready), value,
                                              lambda name: [b"ask %s%s" % (name, rest) for rest in rests])

    async def _say(self, word: bytes, value: Value, rest: bytes) -> bytes:
        return (await self.loader.ask(value, lambda name: [b"%s %s%s" % (word, name, rest)]))[0]

    def _has_at_hand(self, value: Value, rest: bytes) -> bool:
        """Whether all that the reply to a line `ask` rests on is loaded. What was looked up before shows that, with no
        look into the database."""
        target, found = target_of(rest[1:]), self.slices.kept(roots_of(value))
        return (target is not None and found is not None and found.is_whole
                and self.loader.has_at_hand(found.members, target))

    def _gather(self, word: bytes, value: Value, rest: bytes, parts: Parts) -> tuple[Rest, list[Part]]:
        """What the reply rests on, and what isn't loaded of it beside the slice, if that isn't much."""
        return self._with_missing(rest_of(word, value, rest[1:], self.slices, parts, self.loader.budget), parts)

    def _gather_all(self, value: Value, targets: frozenset[bytes], parts: Parts) -> tuple[Rest, list[Part]]:
        return self._with_missing(Rest(slice_of(value, self.slices, parts), targets), parts)

    def _with_missing(self, needed: Rest, parts: Parts) -> tuple[Rest, list[Part]]:
        missing = [fpr for fpr in needed.beside if not self.loader.holds(fpr)]
        return needed, _parts_of(missing[:_BATCH], parts)

    async def _fetch(self, ready: list[Part], fprs: Sequence[bytes]) -> list[Part]:
        """Those that are at hand already, or all of them from the database."""
        known = {part.fpr: part for part in ready}
        if all(fpr in known for fpr in fprs):
            return [known[fpr] for fpr in fprs]
        return await self._read(partial(_parts_of, fprs))

    async def targets(self, value: Value) -> tuple[Collection[bytes], list[bytes]]:
        """The slice of a view, and the certificates that its members have certified; BudgetExceeded if it is more."""
        def look(parts: Parts) -> tuple[Collection[bytes], list[bytes]]:
            members = slice_of(value, self.slices, parts)
            return members, parts.certified_by(members)
        return await self._read(look)

    async def bindings(self, value: Value, wanted: int) -> AsyncIterator[bytes]:
        """The lines of a list. Who has a path from a root was certified by a member of the slice."""
        members, targets = await self.targets(value)
        step = max(1, min(_BATCH, self.loader.budget - len(members)))
        for start in range(0, len(targets), step):
            batch = targets[start:start + step]
            await self.loader.load(members, frozenset(batch), partial(self._fetch, []))
            spelled = await self._read(partial(_spelled, batch))
            replies = await self.loader.ask(value, lambda name: [
                b"ask %s %s %d %s" % (name, fpr, wanted, user_id) for fpr, user_id in spelled])
            for (fpr, user_id), reply in zip(spelled, replies):
                if not reply.startswith(b"amount "):
                    raise BudgetExceeded  # The line that asks for a user ID of some megabytes is too long.
                amount = int(reply.split(b" ", 2)[1])
                if amount >= wanted:
                    yield b"bind %d %s %s\n" % (amount, fpr, user_id)

    async def listed(self, value: Value, rest: bytes) -> bytes:
        wanted = wanted_of(rest)
        if wanted is None:
            return _REFUSED_LINE
        try:
            return listing(b"list", [line async for line in self.bindings(value, wanted)])
        except BudgetExceeded:
            return REFUSED_BUDGET

    async def pending(self) -> bytes:
        fprs = await self._read(lambda parts: list(parts.unverified()))
        lines: list[bytes] = []
        step = min(_BATCH, self.loader.budget)
        for start in range(0, len(fprs), step):
            batch = fprs[start:start + step]
            await self.loader.load((), frozenset(batch), partial(self._fetch, []))
            lines += (await self.say(b"pending")).splitlines(keepends=True)[1:]
            await self.loader.forget(batch)
        return listing(b"pending", lines)


def wanted_of(rest: bytes) -> int | None:
    """The amount of a line `list`, behind its view; None if it is malformed."""
    match = _WANTED.fullmatch(rest)
    return int(match[1]) if match and int(match[1]) <= _MOST_WANTED else None


def listing(word: bytes, lines: list[bytes]) -> bytes:
    return b"".join([b"%s %d\n" % (word, len(lines)), *lines])


def _parts_of(fprs: Sequence[bytes], parts: Parts) -> list[Part]:
    return [part for fpr in fprs if (part := parts.part(fpr)) is not None]


def _spelled(fprs: Sequence[bytes], parts: Parts) -> list[tuple[bytes, bytes]]:
    """The bindings of certificates as lines spell them."""
    return [(hexlify(fpr), write_user_id(user_id).encode()) for fpr in fprs for user_id in parts.user_ids(fpr)]
