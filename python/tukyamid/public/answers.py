"""Answers as values of the keyring's state and the question: kept as long as the state is, and named by an ETag."""

from __future__ import annotations

import asyncio
import hashlib
from collections import OrderedDict
from typing import NamedTuple

from ..version import VERSION
from .api_questions import Question
from .last_change import LastChange, State
from .workers import Reply, Workers

MOST_OCTETS = 64 << 20
MOST_TRIES = 3


class Answer(NamedTuple):
    """`tag` is None for what no cache may keep: errors, and answers during which the keyring changed."""
    status: int
    body: bytes
    tag: str | None


class Answers:
    """Keeps answers up to some size, those that were asked for last. Those who ask the same at the same time wait for
    one answer."""

    def __init__(self, workers: Workers, last: LastChange) -> None:
        self._workers, self._last = workers, last
        self._kept: OrderedDict[str, bytes] = OrderedDict()
        self._octets = 0
        self._token = ""
        self._under_way: dict[str, asyncio.Task[Answer]] = {}

    async def ask(self, question: Question, known: frozenset[str] = frozenset()) -> Answer:
        """The answer. It has status 304 and nothing else if its tag is `known` to whoever asks. TukyamidError if there
        is none."""
        state = await self._last.now()
        self._begin(state)
        tag = tag_of(state, question)
        if tag in known:
            return Answer(304, b"", tag)
        if tag in self._kept:
            self._kept.move_to_end(tag)
            return Answer(200, self._kept[tag], tag)
        task = self._under_way.get(tag)
        if task is None:
            task = self._under_way[tag] = asyncio.create_task(self._made(question, state))
            task.add_done_callback(lambda done: self._note_end(tag, done))
        return await asyncio.shield(task)

    async def _made(self, question: Question, state: State) -> Answer:
        """The answer by a worker: over one state of the keyring, unless it changes all the time."""
        for _ in range(MOST_TRIES):
            reply = await self._workers.ask(question.as_line(state.token), question.is_long)
            before, state = state, await self._last.now()
            if before.token == state.token:
                return self._taken(question, state, reply)
        return Answer(reply.status, reply.body, None)

    def _taken(self, question: Question, state: State, reply: Reply) -> Answer:
        if reply.status != 200:
            return Answer(reply.status, reply.body, None)
        tag = tag_of(state, question)
        self._begin(state)
        self._kept[tag] = reply.body
        self._octets += len(reply.body)
        while self._octets > MOST_OCTETS:
            self._octets -= len(self._kept.popitem(last=False)[1])
        return Answer(200, reply.body, tag)

    async def close(self) -> None:
        """Gives up what is under way."""
        tasks = [*self._under_way.values()]
        for task in tasks:
            task.cancel()
        await asyncio.gather(*tasks, return_exceptions=True)

    def _begin(self, state: State) -> None:
        """Forgets the answers of another state."""
        if state.token != self._token:
            self._token = state.token
            self._kept.clear()
            self._octets = 0

    def _note_end(self, tag: str, done: asyncio.Task[Answer]) -> None:
        self._under_way.pop(tag, None)
        if not done.cancelled():
            done.exception()  # Whoever waited for it may have gone.


def tag_of(state: State, question: Question) -> str:
    """The ETag: the number of the last change, and a digest of all that an answer depends on."""
    text = repr((VERSION, state.token, question)).encode("utf-8", "surrogatepass")
    return f'"{state.change}-{hashlib.blake2b(text, digest_size=12).hexdigest()}"'
