"""Starts programs without holding up the service's loop.

Whoever starts a program waits until the new process runs it. If that process is stopped before, the wait lasts until
somebody ends it. So each program has a thread, which starts it and waits for its end."""

from __future__ import annotations

import asyncio
import contextlib
import os
import socket
import subprocess
import threading
from collections.abc import Callable, Sequence
from typing import IO, Any

from .child_processes import kill

PIPE = subprocess.PIPE
_LIMIT = 1 << 16
_File = int | IO[bytes] | None
# Python doesn't release its lock during a vfork, which lasts until the new process runs its program: a thread that
# waits for that would hold up all others.
setattr(subprocess, "_USE_VFORK", False)


class _Files:
    """What a program gets as its standard input, output and error, and the other ends of its pipes."""

    def __init__(self, *files: _File) -> None:
        self.given: list[IO[bytes] | None] = []
        self.ours: list[Any] = []
        for place, file in enumerate(files):
            our, their = self._ends(file, is_input=not place)
            self.ours.append(our)
            self.given.append(their)

    @staticmethod
    def _ends(file: _File, is_input: bool) -> tuple[Any, IO[bytes] | None]:
        if file is None:
            return None, None
        if file == PIPE and is_input:
            ours, theirs = socket.socketpair()  # It is noticed here when the program closes its end.
            return ours, os.fdopen(theirs.detach(), "rb", 0)
        if file == PIPE:
            reading, writing = os.pipe()
            return os.fdopen(reading, "rb", 0), os.fdopen(writing, "wb", 0)
        number = file if isinstance(file, int) else file.fileno()
        return None, os.fdopen(os.dup(number), "rb" if is_input else "wb", 0)

    def close_given(self) -> None:
        for file in self.given:
            if file is not None:
                file.close()


class StartedProgram:
    """A program, as `asyncio.create_subprocess_exec` gives it, as far as the service needs that."""

    def __init__(self) -> None:
        self._loop = asyncio.get_running_loop()
        self._begun: asyncio.Future[None] = self._loop.create_future()
        self._ended: asyncio.Future[int] = self._loop.create_future()
        self._process: subprocess.Popen[bytes] | None = None
        self._is_unwanted = False
        self._read: list[asyncio.BaseTransport] = []
        self.returncode: int | None = None
        self.stdin: asyncio.StreamWriter | None = None
        self.stdout: asyncio.StreamReader | None = None
        self.stderr: asyncio.StreamReader | None = None

    @property
    def pid(self) -> int:
        assert self._process is not None
        return self._process.pid

    async def wait(self) -> int:
        return await asyncio.shield(self._ended)

    def kill(self) -> None:
        """Ends it; nothing more of what it writes is read."""
        self._is_unwanted = True
        if self._process is not None and self.returncode is None:
            kill(self._process.pid)
        for transport in self._read:
            transport.close()

    async def begin(self, words: Sequence[str], files: _Files, inherited: Sequence[int]) -> None:
        thread = threading.Thread(target=self._live, args=(words, files, inherited), name="program", daemon=True)
        try:
            thread.start()
        except RuntimeError as error:  # No thread can be started.
            files.close_given()
            raise OSError(str(error)) from None
        await self._begun

    async def connect(self, ours: list[Any], limit: int) -> None:
        """Reads and writes the other ends of its pipes from now on."""
        stdin, stdout, stderr = ours
        if stdin is not None:
            protocol = asyncio.StreamReaderProtocol(asyncio.StreamReader())
            transport, _ = await self._loop.connect_write_pipe(lambda: protocol, stdin)
            self.stdin = asyncio.StreamWriter(transport, protocol, None, self._loop)
        self.stdout = await self._reader(stdout, limit)
        self.stderr = await self._reader(stderr, limit)

    async def _reader(self, pipe: Any, limit: int) -> asyncio.StreamReader | None:
        if pipe is None:
            return None
        reader = asyncio.StreamReader(limit)
        transport, _ = await self._loop.connect_read_pipe(lambda: asyncio.StreamReaderProtocol(reader), pipe)
        self._read.append(transport)
        return reader

    def _live(self, words: Sequence[str], files: _Files, inherited: Sequence[int]) -> None:
        """In its thread: from the start of the program to its end."""
        stdin, stdout, stderr = files.given
        try:
            process = subprocess.Popen(words, stdin=stdin, stdout=stdout, stderr=stderr, pass_fds=inherited)
        except Exception as error:
            self._hand_over(self._fail, error)
            return
        finally:
            files.close_given()
        self._hand_over(self._take, process)
        with contextlib.suppress(ChildProcessError):
            # Its number is kept until the loop knows of the end, so that no other process is killed in its place.
            os.waitid(os.P_PID, process.pid, os.WEXITED | os.WNOWAIT)
        self._hand_over(self._end, process)

    def _hand_over(self, call: Callable[..., None], *words: object) -> None:
        with contextlib.suppress(RuntimeError):  # The loop may have ended.
            self._loop.call_soon_threadsafe(call, *words)

    def _fail(self, error: Exception) -> None:
        if not self._begun.done():
            self._begun.set_exception(error)

    def _take(self, process: subprocess.Popen[bytes]) -> None:
        self._process = process
        if self._is_unwanted:
            kill(process.pid)
        if not self._begun.done():
            self._begun.set_result(None)

    def _end(self, process: subprocess.Popen[bytes]) -> None:
        self.returncode = process.wait()
        self._ended.set_result(self.returncode)
        if self.stdin is not None:
            self.stdin.close()


async def start_program(words: Sequence[str], stdin: _File = PIPE, stdout: _File = PIPE, stderr: _File = None,
                        limit: int = _LIMIT, inherited: Sequence[int] = ()) -> StartedProgram:
    """Starts a program; OSError if that isn't possible. PIPE makes a stream here, and the program itself reads or
    writes any other file. None is what this process has. It has the `inherited` descriptors, too."""
    files, program = _Files(stdin, stdout, stderr), StartedProgram()
    try:
        await program.begin(words, files, inherited)
        await program.connect(files.ours, limit)
    except BaseException:
        program.kill()
        raise
    return program
