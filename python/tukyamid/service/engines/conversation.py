"""A conversation with one program of the engine: some lines, then their replies."""

from __future__ import annotations

from collections import deque
from collections.abc import Iterable, Sequence

from ..started_program import StartedProgram, start_program
from .framing import ReplyCutter

_PIECE = 1 << 18
_WRITTEN_PIECE = 1 << 18


class EngineGone(Exception):
    """The engine's program has ended, or can't be started."""


class CannotStart(EngineGone):
    """The engine's program can't be started."""


class KilledByLine(EngineGone):
    """The engine's program has ended at a client's line, and not at what was loaded before."""


class Talk:
    """Starts the program when there is something to say; and another one after its end, once that was noticed."""

    def __init__(self, program: Sequence[str]) -> None:
        self._program = program
        self._process: StartedProgram | None = None
        self._cutter = ReplyCutter()
        self._replies: deque[bytes] = deque()

    @property
    def pid(self) -> int | None:
        return None if self._process is None or self._process.returncode is not None else self._process.pid

    async def run(self, lines: Iterable[bytes]) -> list[bytes]:
        """The replies to these lines, none of which may be a comment or a watch. EngineGone if the program ends."""
        replies: list[bytes] = []
        piece: list[bytes] = []
        size = 0
        for line in lines:
            piece.append(line)
            size += len(line)
            if size >= _WRITTEN_PIECE:
                replies += await self._run(piece)
                piece, size = [], 0
        return replies + await self._run(piece) if piece else replies

    async def _run(self, lines: list[bytes]) -> list[bytes]:
        try:
            process = await self._started()
            assert process.stdin is not None and process.stdout is not None
            process.stdin.write(b"\n".join([*lines, b""]))
            while len(self._replies) < len(lines):
                octets = await process.stdout.read(_PIECE)
                if not octets:
                    raise EngineGone(f"status {await process.wait()}")
                self._replies.extend(self._cutter.cut(octets))
        except (OSError, RuntimeError, ValueError, IndexError) as error:  # A RuntimeError is uvloop's: a closed pipe.
            raise EngineGone(str(error)) from None
        finally:
            if len(self._replies) != len(lines):
                self.kill()  # What it still says belongs to nothing.
        replies = list(self._replies)
        self._replies.clear()
        return replies

    async def _started(self) -> StartedProgram:
        if self._process is not None and self._process.returncode is not None:
            raise EngineGone(f"status {self._process.returncode}")  # Another one doesn't hold what this one held.
        if self._process is None:
            self._cutter, self._replies = ReplyCutter(), deque()
            cutter = self._cutter
            try:
                process = await start_program(self._program, limit=_PIECE)
            except OSError as error:
                raise CannotStart(f"{self._program[0]}: {error.strerror or error}") from None
            if self._cutter is not cutter:
                process.kill()
                raise EngineGone("it was ended while it was started")
            self._process = process
        return self._process

    def kill(self) -> None:
        self._cutter, self._replies = ReplyCutter(), deque()
        process, self._process = self._process, None
        if process is not None and process.returncode is None:
            process.kill()

    async def close(self) -> None:
        process = self._process
        self.kill()
        if process is not None:
            await process.wait()
