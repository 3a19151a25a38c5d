"""Making changes again that were acknowledged, and that a shared database lacks."""

from __future__ import annotations

import asyncio
import os
from collections.abc import Iterable, Iterator, Sequence
from pathlib import Path
from typing import Protocol, runtime_checkable

from .line_intake import LineIntake
from .storage.acknowledged_changes import Entry, counted, read_script
from .storage.database import Actor, Database, DatabaseFault
from .storage.database_threads import Access
from .storage.partial_reads import MOST
from .storage.shared_database import Shared

_AT_ONCE = 200
_ATTEMPTS = 20
_PAUSE = 0.5
_FAULT = b"fault "
_DONE = (b"ok", b"refused absent")


@runtime_checkable
class TakesAgain(Shared, Protocol):
    """A database in which changes are missing."""

    def lacked_of(self, entries: Sequence[Entry]) -> list[Entry]:
        """Those of these changes that it doesn't have, and that weren't handed in."""

    def hand_in(self, entries: Iterable[Entry]) -> None:
        """Notes that these changes are made again, or given up."""


def hand_in(database: Database, paths: Iterable[Path], program: Sequence[str], is_made: bool) -> Iterator[str]:
    """Makes the changes of these files that are lacking, unless they are only to be given up. Says what was done."""
    entries = _entries_of(paths)
    if not isinstance(database, TakesAgain):
        raise DatabaseFault(f"{database.name}: only a database that machines share can lack changes")
    lacked = [one for place in range(0, len(entries), _AT_ONCE)
              for one in database.lacked_of(entries[place:place + _AT_ONCE])]
    if not is_made:
        database.hand_in(lacked)
    elif lacked:
        asyncio.run(_make(database, lacked, [*program, "run"]))
    done = "made again" if is_made else "given up"
    yield f"{counted(len(lacked))} {done}; {len(entries) - len(lacked)} there already"
    replaced = sum(one.line is None for one in lacked)
    if is_made and replaced:
        yield f"{replaced} of them replaced everything (restore, import-dump); make that by hand"


def _entries_of(paths: Iterable[Path]) -> list[Entry]:
    """The changes of these files in their order, each once; ValueError if one isn't a file of missing changes."""
    found: dict[bytes, Entry] = {}
    for path in paths:
        try:
            with open(path, "rb") as file:
                for entry in read_script(file):
                    found.setdefault(entry.place.mark, entry)
        except ValueError as error:
            raise ValueError(f"{path}: {error}") from None
    return sorted(found.values(), key=lambda entry: entry.place.number)


async def _make(database: TakesAgain, lacked: Sequence[Entry], program: Sequence[str]) -> None:
    intake = LineIntake(program, 1, Access(database), MOST.certificates)
    try:
        await intake.start()
        await intake.load()
        for place in range(0, len(lacked), _AT_ONCE):
            some = lacked[place:place + _AT_ONCE]
            await _make_some(intake, [one for one in some if one.line is not None])
            await intake.write(lambda some=some: database.hand_in(some))  # type: ignore[misc]
    finally:
        await intake.close()


async def _make_some(intake: LineIntake, entries: Sequence[Entry]) -> None:
    """Makes these changes in their order. One that fails is tried again, with those that come after it."""
    for _ in range(_ATTEMPTS):
        replies = await asyncio.gather(*(_made(intake, entry) for entry in entries))
        for entry, reply in zip(entries, replies):
            if not reply.startswith((*_DONE, _FAULT)):
                raise DatabaseFault(f"change {entry.place.number} gets the reply: {reply.decode()}")
        failed = [place for place, reply in enumerate(replies) if reply.startswith(_FAULT)]
        if not failed:
            return
        entries = entries[failed[0]:]
        await asyncio.sleep(_PAUSE)
    raise DatabaseFault(f"{intake.database.name}: changes can't be stored, try again: {intake.fault}")


async def _made(intake: LineIntake, entry: Entry) -> bytes:
    """The reply to a change."""
    answered: asyncio.Future[bytes] = asyncio.get_running_loop().create_future()
    assert entry.line is not None
    intake.change(entry.line, Actor(os.getuid(), os.getpid()),
                  lambda reply, _: answered.set_result((reply or b"the line was given up").strip()))
    return await answered
