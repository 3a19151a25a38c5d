"""One engine behind the service, started again whenever its program ends."""

from __future__ import annotations

import asyncio
import contextlib
from collections import deque
from collections.abc import Sequence

from ..storage.journal import Change, Done, Journal, Point
from .blamed_lines import Blame
from .held_replies import HeldReplies
from .in_flight import Home, Sent, answered_without, ignore
from .program_run import Program
from .replay_replies import NO_COMMAND, Feed, fail
from .replayed_state import OnReport, ReplayedState, Watch

_TRIES = 3
_PAUSES = (0.0, 0.2, 0.4, 0.8, 1.6, 2.0)
_SHORT_PAUSE = 0.01
_LONGEST_WAIT = 3.0
_LONGEST_ABSENCE = 30.0


class Engine:
    """Sends lines to a program in their order. If the program ends, another one is given the keyring, from the journal,
    and the views, watches and cursors; the lines that weren't answered are sent again. So clients only notice a delay.
    A reply is handed on once all changes that it rests on are committed."""

    def __init__(self, program: Sequence[str], journal: Journal, home: Home, point: Point) -> None:
        self.point = point
        self.waiting: deque[Sent] = deque()
        self.stuck: Change | None = None
        loop = asyncio.get_running_loop()
        self._now = loop.time
        self.ready: asyncio.Future[None] = loop.create_future()
        self.has_begun: asyncio.Future[None] = loop.create_future()
        self._program = program
        self._journal = journal
        self._home = home
        self.replayed = ReplayedState()
        self._held = HeldReplies()
        self._feed: Feed | None = None
        self._running: Program | None = None
        self._closing = asyncio.Event()
        self._failures = 0
        self._blame = Blame()
        self._is_up = False
        self._last_up = self._now()
        self._is_rolled_back = False
        self._task = loop.create_task(self._keep_running())

    @property
    def pid(self) -> int | None:
        return None if self._running is None else self._running.pid

    @property
    def is_busy(self) -> bool:
        """Whether a line waits for its reply, or a reply for a commit."""
        return bool(self.waiting or self._held)

    def lag(self) -> float:
        """How long the first waiting line has waited, in seconds."""
        return self._now() - self.waiting[0].since if self.waiting else 0.0

    def send_watch(self, line: bytes, done: Done, on_report: OnReport) -> None:
        """Sends a line `watch NAME on ..`. `on_report` is called with each watch line that follows later replies. A
        line that is no command is sent before it: so watch lines behind earlier replies aren't taken for its reply."""
        self.send(NO_COMMAND, ignore, is_inner=True)
        self.send(line, done, watch=Watch(line, on_report))

    def send(self, line: bytes, done: Done, change: Change | None = None, watch: Watch | None = None,
             is_inner: bool = False, replies: int = 1) -> None:
        self.waiting.append(sent := Sent(line, done, change, watch, is_inner, self._now()))
        sent.replies = sent.left = replies
        if self._blame.suspect is None and self._running is not None and self._running.is_live:
            self._running.send(line)

    async def close(self) -> None:
        """Ends the program's input and waits for its end."""
        self._closing.set()
        if self._running is not None:
            self._running.end_input()
        done, _ = await asyncio.wait([self._task], timeout=_LONGEST_WAIT)
        if not done:
            self._kill()
            await asyncio.wait([self._task])

    def give_up_first(self) -> Sent:
        """Takes the first waiting line away; nobody has answered it."""
        sent = self.waiting.popleft()
        if sent.change is not None:
            self.point = sent.change
        self.stuck = None
        self._failures = 0
        self._blame.clear()
        if self._running is not None and self._running.is_live:
            self._begin_again()  # Its reply mustn't be taken for another line's.
        return sent

    def release(self) -> None:
        """Hands on what rests on committed changes alone."""
        self._held.release()

    def roll_back(self, point: Point) -> None:
        """All changes behind this point are none. What rests on them is asked for once more."""
        again = self._held.take_back(point, self.replayed)
        self.waiting = deque([*again, *(sent for sent in self.waiting if sent.change is None)])
        self.point, self.stuck = point, None
        self._blame.clear()
        self._begin_again()

    def _begin_again(self) -> None:
        self._is_rolled_back = True
        self._kill()

    async def _keep_running(self) -> None:
        while not self._closing.is_set():
            try:
                await self._run_once()
            except Exception as error:  # Whatever it was, another program takes its place.
                self._home.report(repr(error))
                await asyncio.sleep(_SHORT_PAUSE)

    async def _run_once(self) -> None:
        status: object
        try:
            status = await self._run()
        except Exception as error:  # The database can't be read, say: it is tried again as where a program ends.
            is_of_system = isinstance(error, OSError)
            status = f"{self._program[0]}: {error}" if is_of_system else f"none, for {error!r}"
            self._fail(OSError(status) if is_of_system else error)
        if self._is_rolled_back:
            self._is_rolled_back = False
        elif not self._closing.is_set():
            await self._take_end(status)

    async def _take_end(self, status: object) -> None:
        self._failures += 1
        self._home.report(f"an engine ended with status {status}; another takes its place")
        if self._failures >= _TRIES:
            self._fail(OSError(f"the engine's program ends immediately, with status {status}"))
        if self._is_up:
            self._last_up = self._now()
            if self.waiting and self._blame.take_end(self.waiting[0]):
                self._give_up(self.waiting[0])
        elif self._now() - self._last_up > _LONGEST_ABSENCE:
            self._answer_without()
        if self._failures > 1:
            with contextlib.suppress(TimeoutError):
                await asyncio.wait_for(self._closing.wait(), _PAUSES[min(self._failures, len(_PAUSES)) - 1])

    def _answer_without(self) -> None:
        """No program has been up for long, so nobody waits any longer. What opens or closes something is still sent to
        the next one."""
        self._home.refuse_changes("no engine can be started")
        waiting, self.waiting = self.waiting, deque()
        self.waiting.extend(answered_without(waiting))

    def _kill(self) -> None:
        if self._running is not None:
            self._running.kill()

    async def _run(self) -> object:
        """Runs one program to its end, and gives its status."""
        self._is_up = False
        while not self._journal.is_there and not self._closing.is_set():
            await asyncio.sleep(_SHORT_PAUSE)
        count, lines = self._journal.lines(self.point.place)
        feed = self._feed = Feed(count, list(self.replayed.lines()), self.replayed.watches)
        running = self._running = Program(self._take, self._home.report)
        try:
            return await running.run(self._program, lines, lambda: self._lines_after(feed))
        finally:
            running.kill()

    def _lines_after(self, feed: Feed) -> list[bytes]:
        """The lines for a program that has reached the state of the last one."""
        return [*feed.following, *(sent.again() for sent in self.waiting if not self._blame.holds_back(sent))]

    def _take(self, reply: bytes) -> None:
        if self._feed is not None:
            self._take_fed(self._feed, reply)
            return
        if reply.startswith(b"watch ") and not (self.waiting and self.waiting[0].watch):
            self._take_watch_line(reply)
            return
        self._failures = 0
        if (sent := self.waiting[0]).left > 1 and sent.take(reply):
            return
        self.waiting.popleft()
        if self._blame.suspect is not None:
            self._send_others()
        if sent.change is not None:
            self.point = sent.change
            sent.done(reply, 0)
            return
        if reply.startswith(b"watch ") and sent.watch is not None:
            sent.watch.reported = reply
            self.replayed.watches[reply.split(b" ")[1]] = sent.watch
        else:
            self.replayed.take(sent.line, reply)
        if sent.is_inner:
            sent.done(reply, sent.replies - 1)
        else:
            self._held.add(self.point, sent, reply, sent.watch)

    def _take_fed(self, feed: Feed, reply: bytes) -> None:
        if not self.has_begun.done():
            self.has_begun.set_result(None)
        fault, reported = feed.take(reply)
        if fault:
            self._fail(ValueError(fault))
        if reported is not None:
            self._take_watch_line(reported)
        if not feed.left:
            self._feed, self._is_up = None, True
            if not self.ready.done():
                self.ready.set_result(None)

    def _take_watch_line(self, reply: bytes) -> None:
        """A watch line, after the reply to anybody's line."""
        name = reply.split(b" ")[1]
        watch = self.replayed.watches[name]
        if reply.endswith(b" gone\n"):
            del self.replayed.watches[name]
        watch.reported = reply
        self._held.add(self.point, None, reply, watch)

    def _fail(self, error: Exception) -> None:
        """The first program never came up; whoever waits for that gets this error."""
        fail(error, self.has_begun, self.ready)

    def _send_others(self) -> None:
        """The line that was tried alone is answered: those behind it follow."""
        self.stuck = None
        self._blame.clear()
        for sent in self.waiting:
            if self._running is not None:
                self._running.send(sent.line)

    def _give_up(self, first: Sent) -> None:
        """Gives up the line at which program after program ended. A change that another engine answered is no such
        line: it was made, and is tried again."""
        if first.change is None:
            self.give_up_first().give_up()
        else:
            self.stuck = first.change
            self._home.withdraw_where_all_are_stuck(first.change)
