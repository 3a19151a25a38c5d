"""One run of the engine's program: lines in, whole replies out, to its end."""

from __future__ import annotations

import asyncio
import contextlib
import os
from collections.abc import Callable, Iterable, Iterator, Sequence

from ..started_program import StartedProgram, start_program
from .framing import ReplyCutter

_WRITTEN_PIECE = 1 << 14
_LONGEST_WAIT = 10.0


class _Output(asyncio.Protocol):
    """What a program writes, handed on as it comes. With a stream, each piece would wait for two rounds of the loop."""

    def __init__(self, take: Callable[[bytes], None], report: Callable[[str], None]) -> None:
        self.over: asyncio.Future[None] = asyncio.get_running_loop().create_future()
        self._take = take
        self._report = report
        self._transport: asyncio.BaseTransport | None = None

    def connection_made(self, transport: asyncio.BaseTransport) -> None:
        self._transport = transport

    def data_received(self, data: bytes) -> None:
        if self.over.done():
            return
        try:
            self._take(data)
        except Exception as error:
            self._report(f"an engine wrote something that isn't a reply: {error!r}")
            self.end()

    def connection_lost(self, exc: Exception | None) -> None:
        self.end()

    def end(self) -> None:
        """Takes nothing more."""
        if self._transport is not None:
            self._transport.close()
        if not self.over.done():
            self.over.set_result(None)


class Program:
    """`take` is called with each reply. Lines that are sent in one round of the loop are written at once."""

    def __init__(self, take: Callable[[bytes], None], report: Callable[[str], None]) -> None:
        self._take = take
        self._report = report
        self._process: StartedProgram | None = None
        self._stdin: asyncio.StreamWriter | None = None
        self._cutter = ReplyCutter()
        self._lines: list[bytes] = []
        self._is_killed = False

    @property
    def pid(self) -> int | None:
        return self._process.pid if self._process is not None and self._process.returncode is None else None

    @property
    def is_live(self) -> bool:
        """Whether it has what the last program held, and reads what is sent."""
        return self._stdin is not None

    def send(self, line: bytes) -> None:
        if not self._lines:
            asyncio.get_running_loop().call_soon(self._flush)
        self._lines.append(line)

    def _flush(self) -> None:
        if self._stdin is not None and not self._stdin.is_closing():
            self._stdin.write(b"".join([line + b"\n" for line in self._lines]))
        self._lines.clear()

    async def run(self, words: Sequence[str], lines: Iterator[bytes], behind: Callable[[], Iterable[bytes]]) -> object:
        """Starts the program, and gives its status when it has ended. It is sent these lines as it reads them, and
        then at once those that `behind` gives, from which on it is live."""
        output = _Output(self._cut, self._report)
        process = await self._start(words, output)
        assert process.stdin is not None
        if self._is_killed:
            self.kill()
        bringing = asyncio.get_running_loop().create_task(self._bring(process.stdin, lines, behind))
        try:
            await output.over
            self._stdin = None
            process.stdin.close()
            status = await asyncio.wait_for(process.wait(), _LONGEST_WAIT)
            with contextlib.suppress(ConnectionError, TimeoutError):
                await asyncio.wait_for(process.stdin.wait_closed(), _LONGEST_WAIT)
            return status
        except TimeoutError:
            return "none, but without its output"
        finally:
            self._stdin = None
            bringing.cancel()
            output.end()
            self.kill()

    async def _bring(self, stdin: asyncio.StreamWriter, lines: Iterator[bytes],
                     behind: Callable[[], Iterable[bytes]]) -> None:
        try:
            for piece in pieces(lines):
                stdin.write(piece)
                await stdin.drain()
                await asyncio.sleep(0)  # Questions to other engines come between.
        except Exception as error:  # Who reads the program's output meets its end.
            if not isinstance(error, ConnectionError):
                self._report(f"an engine can't be brought up to date: {error!r}")
            self.kill()
            return
        # Nothing else runs between here and the end, so no line comes between.
        self._lines.clear()
        stdin.write(b"".join([line + b"\n" for line in behind()]))
        if not self._is_killed:
            self._stdin = stdin

    async def _start(self, words: Sequence[str], output: _Output) -> StartedProgram:
        """Starts the program, whose output goes to `output`."""
        reading, writing = os.pipe()
        pipe = os.fdopen(reading, "rb", 0)
        try:
            process = await start_program(words, stdout=writing)
        except BaseException:
            pipe.close()
            raise
        finally:
            os.close(writing)
        self._process = process
        await asyncio.get_running_loop().connect_read_pipe(lambda: output, pipe)
        return process

    def _cut(self, octets: bytes) -> None:
        """Takes the replies that end within these octets."""
        for reply in self._cutter.cut(octets):
            if self._is_killed:
                return
            self._take(reply)

    def end_input(self) -> None:
        """Has it end when it has answered what was sent."""
        self._flush()
        if self._stdin is not None:
            self._stdin.close()
        else:
            self.kill()

    def kill(self) -> None:
        """Ends it at once; nothing that it still says is taken."""
        self._is_killed = True
        self._stdin = None
        if self._process is not None and self._process.returncode is None:
            self._process.kill()


def pieces(lines: Iterator[bytes]) -> Iterator[bytes]:
    """These lines with their line feeds, in pieces that are worth a write each."""
    piece: list[bytes] = []
    size = 0
    for line in lines:
        piece += line, b"\n"
        size += len(line) + 1
        if size >= _WRITTEN_PIECE:
            yield b"".join(piece)
            piece, size = [], 0
    if piece:
        yield b"".join(piece)
