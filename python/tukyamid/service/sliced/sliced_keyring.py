"""A keyring that is larger than an engine. All lines go through one queue; a question is asked when an engine has
loaded what its reply depends on, and a change goes from the engine that merges to the database."""

from __future__ import annotations

import re
from binascii import hexlify
from collections.abc import Awaitable, Callable, Sequence
from functools import partial

from ..engines.attempts import Attempts
from ..engines.conversation import EngineGone
from ..sessions.long_replies import keys_of
from ..sessions.outbox import Pieces
from ..sessions.views import Value
from ..storage.certificate_rows import brought
from ..storage.database import Actor, DatabaseFault, Snapshot
from ..storage.database_threads import Access
from ..storage.group_commit import FAULT, Barrier
from ..storage.journal import Change, Done, Verdicts
from ..storage.partial_reads import HasParts, Parts
from ..storage.locked_changes import Begun
from .line_queue import Asked, LineQueue, Once, Queued
from .merging_engine import Merging, touched_by
from .partial_engine import Loader
from .reader_thread import Reader
from .sliced_changes import Changes
from .sliced_long_replies import LongReplies, Work
from .sliced_questions import Asker, wanted_of
from .sliced_watches import Watched

_FEW_TARGETS = 16
_REFUSED_ABSENT = b"refused absent\n"
_EXPORT = re.compile(rb"export ((?:[0-9a-fA-F]{24})?[0-9a-fA-F]{40})")


class Sliced:
    """`budget` is how many certificates an engine may hold."""

    def __init__(self, program: Sequence[str], access: Access, database: HasParts, budget: int) -> None:
        self.access = access
        self.budget = budget
        self.watched = Watched(self)
        self.read = self._opened(access, database)
        self._asker = Asker(Loader(program, budget), self.read)
        self._attempts = Attempts(access.report, self._is_mended)
        self._changes = Changes(Merging(program, budget, self._attempts, access.report), access, self.read,
                                self._committed, self._begin_again)
        self._long_replies = LongReplies(program, budget, self._freeze, self.answer, access.report)
        self._committer = self._changes.committer
        self._line_queue = LineQueue(self._changes.make, self._changes.refuse, access.report)

    def _opened(self, access: Access, database: HasParts) -> Reader:
        return Reader(access, database)

    @property
    def fault(self) -> str:
        return self._committer.fault

    @property
    def count(self) -> int:
        """The number of the last change that is committed."""
        return self._committer.count

    @property
    def pids(self) -> list[int]:
        pids = [self._asker.loader.pid, self._changes.merging.pid, *self._long_replies.pids]
        return [pid for pid in pids if pid is not None]

    @property
    def loaded(self) -> int:
        return self._asker.loader.count

    def lag(self) -> float:
        """For how many seconds the next line has waited."""
        return self._line_queue.lag()

    async def start(self) -> None:
        figures = await self.access.find(lambda finder: finder.log(1))
        self._committer.count = figures[0].number if figures else 0

    async def close(self) -> None:
        """Ends the engines, when what was handed in is answered."""
        await self._line_queue.close()
        await self._long_replies.close()
        await self._changes.close()
        await self._asker.loader.close()
        self.read.close()

    async def _freeze(self) -> Parts:
        """Has the database read as it is now, whatever is committed later."""
        try:
            return await self.read(lambda parts: parts.frozen())
        except DatabaseFault:
            if not await self._is_mended():
                raise
            return await self.read(lambda parts: parts.frozen())

    async def _is_mended(self) -> bool:
        """Whether the database can be read again that couldn't."""
        return False

    def change(self, line: bytes, actor: Actor, done: Done, begun: Begun = lambda: None) -> None:
        """Has a change made; `begun` is called when it has its place in the order of lines."""
        if self._committer.refuses():
            done(FAULT, self.count)
        else:
            self._line_queue.add(Change(line, 0, set(), actor, brought(line), done))
        begun()

    def set_verdicts(self, verdicts: Verdicts) -> None:
        """Has the verifier's verdicts made."""
        if self._committer.refuses():
            verdicts.finish(FAULT, self.count)
        else:
            self._line_queue.add(verdicts)

    def ask(self, line: bytes, done: Done) -> None:
        """A line that is no view's, and changes nothing."""
        match = _EXPORT.fullmatch(line)
        if line == b"pending":
            self.enqueue(partial(self.begin, lambda asker: asker.pending()), done)
        elif match:
            self.enqueue(partial(self.answer, partial(self._export, bytes.fromhex(match[1].decode()))), done)
        else:
            self.enqueue(partial(self.answer, partial(self.say, line)), done)

    def question(self, word: bytes, value: Value, rest: bytes, done: Done) -> None:
        """A line that asks from a view of this value; `rest` is what follows the view."""
        if word == b"list":
            self.enqueue(partial(self.go_over, value, wanted_of(rest) or 1, lambda asker: asker.listed(value, rest)),
                         done)
        else:
            self.enqueue(partial(self.answer, partial(self._ask, word, value, rest)), done,
                         (value, rest) if word == b"ask" else None)

    def keys(self, done: Callable[[bytes | Pieces | None, int], None]) -> None:
        """The reply to `keys`, in pieces, from the database as it is when the lines before it are answered."""
        async def work() -> None:
            done(keys_of(await self._freeze()), self.count)
        self.enqueue_inner(work, lambda _: done(FAULT, self.count))

    def snapshot(self, done: Callable[[Snapshot | None], None]) -> None:
        """Asks for a snapshot behind the changes so far."""
        async def work() -> None:
            self._committer.add(Barrier(done))
        self.enqueue_inner(work, lambda _: done(None))

    def enqueue(self, work: Callable[[Done], Awaitable[None]], done: Done, asked: Asked | None = None) -> None:
        """Has a line answered, once, after those before it, whatever `work` raises."""
        once = Once(done)
        self.enqueue_inner(partial(work, once), lambda _: once(FAULT, self.count), asked)

    def enqueue_inner(self, work: Callable[[], Awaitable[None]], fail: Callable[[Exception], None],
                      asked: Asked | None = None) -> None:
        """Has something done after the lines so far; `fail` is called if that raises something."""
        self._line_queue.add(Queued(work, fail, asked))

    async def go_over(self, value: Value, wanted: int, work: Work, done: Done) -> None:
        """Has work done that goes over a whole list: here, or in an engine of its own if it is long."""
        try:
            _, targets = await self._asker.targets(value)
        except Exception:
            targets = []  # The work meets it too.
        try:
            if len(targets) <= _FEW_TARGETS:
                await self.answer(lambda: work(self._asker), done)
            else:
                await self.begin(work, done)
        except Exception as error:
            self._fail(error, done)

    async def begin(self, work: Work, done: Done) -> None:
        try:
            await self._long_replies.begin(work, partial(self._counted, done, self.count))
        except Exception as error:
            self._fail(error, done)

    def _fail(self, error: Exception, done: Callable[[bytes, int], None]) -> None:
        self.access.report(str(error) if isinstance(error, DatabaseFault) else repr(error))
        done(FAULT, self.count)

    @staticmethod
    def _counted(done: Done, count: int, reply: bytes | None, _: int) -> None:
        done(reply, count)

    async def say(self, line: bytes) -> bytes:
        """The reply to a line that asks about nothing that is kept."""
        return await self._asker.say(line)

    async def amount(self, value: Value, rest: bytes) -> bytes:
        """The reply to a line `ask`."""
        return await self._ask(b"ask", value, rest)

    async def _ask(self, word: bytes, value: Value, rest: bytes) -> bytes:
        return await self._asker.ask(word, value, rest)

    async def answer(self, work: Callable[[], Awaitable[bytes]], done: Done) -> None:
        """Has the reply that work makes handed on."""
        try:
            reply = await self._attempts.reply(work)
        except Exception as error:
            self._fail(error, done)
        else:
            done(reply, self.count)

    async def _export(self, fpr: bytes) -> bytes:
        part = await self.read(lambda parts: parts.part(fpr))
        return b"export %s\n" % hexlify(part.octets) if part is not None else _REFUSED_ABSENT

    async def _committed(self, made: list[Change]) -> None:
        """Behind a commit of these changes."""
        await self._follow(made)

    async def _follow(self, made: list[Change]) -> None:
        """After a commit: what changed is loaded again when it is needed, and watches that rest on it report it."""
        try:
            touched, reached = await self.read(partial(self._touched, made))
            await self._asker.loader.forget(touched)
        except Exception as error:
            self.access.report(str(error) if isinstance(error, DatabaseFault | EngineGone) else repr(error))
            await self._begin_again()
        else:
            await self.watched.change(touched, reached)

    async def _begin_again(self) -> None:
        """Whatever is loaded, and whatever is known, may have changed."""
        self._asker.loader.end()
        self._asker = Asker(self._asker.loader, self.read)
        await self.watched.look_at_all()

    def _touched(self, made: list[Change], parts: Parts) -> tuple[set[bytes], set[tuple[bytes, ...]]]:
        touched = touched_by(made, parts)
        unknown = {roots for roots in self.watched.roots() if self._asker.slices.kept(roots) is None}
        return touched, unknown | set(self._asker.slices.change(touched, parts))
