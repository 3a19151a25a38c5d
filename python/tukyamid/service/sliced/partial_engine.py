"""An engine that holds a part of the keyring: what a question needs is loaded, and what was used least recently makes
room."""

from __future__ import annotations

from binascii import hexlify
from collections import OrderedDict
from collections.abc import Awaitable, Callable, Collection, Iterable, Iterator, Sequence
from itertools import count

from ..engines.conversation import CannotStart, EngineGone, KilledByLine, Talk
from ..engines.shared_views import VIEWS_OF_AN_ENGINE
from ..sessions.views import Value, lines_of
from ..storage.database import DatabaseFault
from ..storage.partial_reads import Part

# Reads the parts of these certificates that are kept.
Fetch = Callable[[Sequence[bytes]], Awaitable[list[Part]]]
# Makes the lines that follow once what they need is loaded.
Then = Callable[[], list[bytes]]
REFUSED_BUDGET = b"refused full budget\n"
_AT_ONCE = 256
_MOST_OCTETS = 64 << 20  # Of certificates, unless a question needs more at once.
_MOST_IN_VIEWS = 1 << 17  # Views times loaded certificates.
_MOST_MOVED = 86_400  # Seconds: what has begun or ended within a day is little of a keyring.


def _nothing() -> list[bytes]:
    return []


class BudgetExceeded(Exception):
    """What a question rests on is more than an engine may load."""


class Loader:
    """One engine, and what it holds: each certificate with the verdicts on its signatures, and views by their values.
    When its program ends, another one begins with nothing."""

    def __init__(self, program: Sequence[str], budget: int) -> None:
        self.budget = budget
        self._talk = Talk(program)
        self._loaded: OrderedDict[bytes, tuple[bytes, ...]] = OrderedDict()
        self._sizes: dict[bytes, int] = {}
        self._octets = 0
        self._views: OrderedDict[Value, bytes] = OrderedDict()
        self._names = count()
        self._base: Collection[bytes] = ()

    @property
    def pid(self) -> int | None:
        return self._talk.pid

    @property
    def count(self) -> int:
        """How many certificates are loaded."""
        return len(self._loaded)

    def holds(self, fpr: bytes) -> bool:
        return fpr in self._loaded

    def has_at_hand(self, base: Collection[bytes], fpr: bytes) -> bool:
        """Whether the engine holds all that is kept of `base`, and this certificate."""
        if base is not self._base or fpr not in self._loaded:
            return False
        self._loaded.move_to_end(fpr)
        return True

    async def load(self, base: Collection[bytes], beside: Collection[bytes], fetch: Fetch) -> None:
        """Has the engine hold these certificates, as far as they are kept. `base` is the same object again and again
        as long as it has the same members. BudgetExceeded if they aren't all held at once."""
        await self._load(base, beside, fetch, _nothing)

    async def load_and_ask(self, base: Collection[bytes], beside: Collection[bytes], fetch: Fetch, value: Value,
                           lines: Callable[[bytes], Sequence[bytes]]) -> list[bytes]:
        """As `load`, and then `ask`, in one conversation."""
        asked: list[bytes] = []

        def then() -> list[bytes]:
            before = list(self._lines_for(value))
            asked[:] = lines(self._views[value])
            return [*before, *asked]

        return (await self._load(base, beside, fetch, then))[-len(asked):]

    async def _load(self, base: Collection[bytes], beside: Collection[bytes], fetch: Fetch, then: Then) -> list[bytes]:
        """Returns the replies to the lines of `then`, which is called just before they are sent."""
        try:
            if base is not self._base:
                self._base = ()
                await self._hold(base, base, fetch, _nothing)
                self._base = base
            return await self._hold(beside, base, fetch, then)
        except (BudgetExceeded, DatabaseFault):
            raise  # Between two conversations: what the engine holds is known.
        except BaseException:
            self.end()
            raise

    async def _hold(self, fprs: Collection[bytes], base: Collection[bytes], fetch: Fetch, then: Then) -> list[bytes]:
        missing = []
        for fpr in fprs:
            if fpr in self._loaded:
                self._loaded.move_to_end(fpr)
            else:
                missing.append(fpr)
        for start in range(0, len(missing), _AT_ONCE):
            parts = await fetch(missing[start:start + _AT_ONCE])
            is_last = start + _AT_ONCE >= len(missing)
            replies = await self._put(parts, base, fprs, then if is_last else _nothing)
        return replies if missing else await self._talk.run(then())

    async def _put(self, parts: list[Part], base: Collection[bytes], needed: Collection[bytes],
                   then: Then) -> list[bytes]:
        room = self.budget - len(parts)
        drops = self._dropped(self._oldest(len(self._loaded) - room, base, needed))
        if len(self._loaded) > room:
            await self._talk.run(drops)
            raise BudgetExceeded
        octets = self._octets + sum(len(part.octets) for part in parts) - _MOST_OCTETS
        if octets > 0 and len(self._loaded) > len(base) + len(needed):
            drops += self._dropped(self._oldest(0, base, needed, octets))
        lines = [line for part in parts for line in part.lines()]
        replies = (await self._talk.run([*drops, *lines, *then()]))[len(drops):]
        if not all(reply.startswith(b"ok") for reply in replies[:len(lines)]):
            await self._make_room(parts, lines, replies, base, needed)
            replies[len(lines):] = await self._talk.run(then())
        for part in parts:
            self._loaded[part.fpr] = tuple(number for number, _ in part.verdicts)
            self._sizes[part.fpr] = len(part.octets)
            self._octets += len(part.octets)
        return replies[len(lines):]

    async def _make_room(self, parts: list[Part], lines: list[bytes], replies: list[bytes], base: Collection[bytes],
                         needed: Collection[bytes]) -> None:
        """The engine is full in another way than by its certificates: all that isn't needed goes."""
        refusal = next(reply for reply in replies if not reply.startswith(b"ok"))
        if not refusal.startswith(b"refused full "):
            raise EngineGone(f"a part of the database was answered with {refusal[:80]!r}")
        await self._drop(self._oldest(len(self._loaded), base, needed))
        if not all(reply.startswith(b"ok") for reply in await self._talk.run(lines)):
            self.end()
            raise BudgetExceeded

    def _oldest(self, number: int, base: Collection[bytes], needed: Collection[bytes], octets: int = 0) -> list[bytes]:
        """Those that are loaded and not needed, used least recently first, until they are this many and this large."""
        found: list[bytes] = []
        for _ in range(len(self._loaded)):
            if len(found) >= number and octets <= 0:
                break
            fpr = next(iter(self._loaded))
            self._loaded.move_to_end(fpr)
            if fpr not in base and fpr not in needed:
                found.append(fpr)
                octets -= self._sizes[fpr]
        return found

    async def forget(self, fprs: Iterable[bytes]) -> None:
        """These have changed: they are loaded again when a question needs them."""
        self._base = ()
        try:
            await self._drop([fpr for fpr in fprs if fpr in self._loaded])
        except BaseException:
            self.end()
            raise

    async def _drop(self, fprs: Iterable[bytes]) -> None:
        await self._talk.run(self._dropped(fprs))

    def _dropped(self, fprs: Iterable[bytes]) -> list[bytes]:
        """The lines that drop these certificates, which count as dropped."""
        lines = []
        for fpr in fprs:
            self._octets -= self._sizes.pop(fpr)
            lines.append(b"drop " + hexlify(fpr))
            lines += [b"verdict %s none" % hexlify(number) for number in self._loaded.pop(fpr)]
        return lines

    async def ask(self, value: Value | None, lines: Callable[[bytes], Sequence[bytes]]) -> list[bytes]:
        """The replies to the lines that are made with the name of a view of this value."""
        try:
            before = [] if value is None else list(self._lines_for(value))
            sent = [*before, *lines(b"-" if value is None else self._views[value])]
            return (await self._talk.run(sent))[len(before):]
        except BaseException as error:
            self.end()  # Nobody knows how much of it the engine has done.
            if isinstance(error, EngineGone) and not isinstance(error, CannotStart):
                raise KilledByLine(str(error)) from None
            raise

    def _lines_for(self, value: Value) -> Iterator[bytes]:
        """The lines that make a view of this value, if there is none. Each view takes memory for all that is loaded, so
        others make room."""
        if value in self._views:
            self._views.move_to_end(value)
        else:
            yield from self._opened(value)
        most = min(VIEWS_OF_AN_ENGINE, max(1, _MOST_IN_VIEWS // max(1, len(self._loaded))))
        while len(self._views) > most:
            _, name = self._views.popitem(last=False)
            yield b"view %s close" % name

    def _opened(self, value: Value) -> Iterator[bytes]:
        time, roots = value
        near = next((one for one in reversed(self._views)
                     if one[1] == roots and abs(int(time) - int(one[0])) <= _MOST_MOVED), None)
        if near is not None:
            name = self._views[value] = self._views.pop(near)
            yield b"view %s time %s" % (name, time)
            return
        if len(self._views) >= VIEWS_OF_AN_ENGINE:
            yield b"view %s close" % self._views.popitem(last=False)[1]
        name = self._views[value] = b"v%d" % next(self._names)
        yield from lines_of(name, value)

    def end(self) -> None:
        """Ends the program; another one begins with nothing."""
        self._talk.kill()
        self._loaded.clear()
        self._sizes.clear()
        self._octets = 0
        self._views.clear()
        self._base = ()

    async def close(self) -> None:
        await self._talk.close()
        self.end()

