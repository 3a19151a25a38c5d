"""Overviews of a keyring and what else takes long, each made by a process of its own, so that the page answers
meanwhile. One of a kind runs at a time."""

from __future__ import annotations

import asyncio
import contextlib
import json
from typing import Any

from ..own_processes import environment, words_of
from ..process_end import ended
from ..protocol.refusals import ServiceEnded
from .page_requests import Standpoint
from .service_connections import ServiceConnections

LONGEST_LINE = 1 << 26
PATIENCE = 1800.0
# Who asks again is answered as soon as there is something new, and after this time at the latest.
NEWS_PATIENCE = 0.5


class _Survey:
    """One overview: under way, done, or failed."""

    def __init__(self, asked: bytes, change: int) -> None:
        self.of = asked, change
        self.state: dict[str, Any] = {"progress": "starting"}
        self.task: asyncio.Task[None] | None = None
        self._changed = asyncio.Event()

    async def news(self) -> dict[str, Any]:
        """The state once it has changed since the last call, or as it is if that takes longer."""
        if "progress" in self.state:
            with contextlib.suppress(TimeoutError):
                await asyncio.wait_for(self._changed.wait(), NEWS_PATIENCE)
            self._changed.clear()
        return self.state

    def _set(self, state: dict[str, Any]) -> None:
        self.state = state
        self._changed.set()

    async def run(self, words: list[str], asked: bytes) -> None:
        process = await asyncio.create_subprocess_exec(
            *words, stdin=asyncio.subprocess.PIPE, stdout=asyncio.subprocess.PIPE, limit=LONGEST_LINE,
            start_new_session=True, env=environment())
        assert process.stdin is not None and process.stdout is not None
        try:
            async with asyncio.timeout(PATIENCE):
                process.stdin.write(asked)
                process.stdin.close()
                async for line in process.stdout:
                    self._set(json.loads(line))
                await process.wait()
        except (TimeoutError, ValueError, OSError) as error:
            self._set({"error": f"it wasn't finished: {error or 'it took too long'}"})
        finally:
            with contextlib.suppress(ProcessLookupError):
                process.terminate()
            await ended(process)
        if "progress" in self.state:
            self._set({"error": f"it ended with status {process.returncode}"})


class Surveys:
    """The overview that was asked for last, or what another module makes."""

    def __init__(self, connections: ServiceConnections, module: str = "overview_process") -> None:
        self._connections, self._module = connections, module
        self._last: _Survey | None = None

    async def ask(self, standpoint: Standpoint, **more: object) -> dict[str, Any]:
        """How far the overview is, or all of it. One of another question, or of an earlier keyring, is given up. Raises
        ServiceEnded if the service has ended meanwhile."""
        async with self._connections.talking() as client:
            change = max([one.number async for one in await client.log(1)], default=0)
        roots = dict(sorted(standpoint.roots.items()))
        asked = json.dumps({"time": standpoint.time, "roots": roots, **more}).encode()
        survey, last = _Survey(asked, change), self._last
        if last is not None and last.of == survey.of:
            state = await last.news()
            if "error" in state and self._last is last:
                self._last = None  # Who asks again after an error tries again.
            if state.get("lost"):
                raise ServiceEnded(state["error"])
            return state
        await self.close()
        words = [*words_of(f"web.{self._module}"), self._connections.socket]
        survey.task = asyncio.create_task(survey.run(words, asked))
        self._last = survey
        return survey.state

    async def close(self) -> None:
        """Gives up what is under way."""
        task = self._last.task if self._last is not None else None
        if task is not None:
            task.cancel()
            with contextlib.suppress(asyncio.CancelledError):
                await task
