"""Reads what a user names: no more than a bound, and without waiting for ever.

A pipe with a name (a FIFO) may be anybody's. Opening it doesn't wait for somebody who writes, and reading it fails if
nothing comes for ten seconds. A pipe without a name is the caller's own, as standard input is, and may be silent as
long as it likes.
"""

from __future__ import annotations

import errno
import os
import stat

from .fast_imports import TYPE_CHECKING

if TYPE_CHECKING:
    from collections.abc import Iterator

PATIENCE = 10.0
_PIECE = 1 << 16


def read_at_most(path: str, most: int) -> bytes | None:
    """What a file has; None if that is more than `most`."""
    octets = bytearray()
    for piece in pieces_of(path):
        octets += piece
        if len(octets) > most:
            return None
    return bytes(octets)


def pieces_of(path: str) -> Iterator[bytes]:
    """What a file has, piece by piece; `-` is standard input. An OSError if it can't be read, or is silent for too
    long."""
    is_input = path == "-"
    number = os.dup(0) if is_input else os.open(path, os.O_RDONLY | os.O_NONBLOCK | os.O_NOCTTY | os.O_CLOEXEC)
    try:
        is_fifo = not is_input and _is_named_pipe(os.fstat(number))
        if not is_input:
            os.set_blocking(number, not is_fifo)
        while piece := _next_of_fifo(number, path) if is_fifo else os.read(number, _PIECE):
            yield piece
    except OSError as error:
        raise OSError(error.errno, error.strerror, "standard input" if is_input else path) from None
    finally:
        os.close(number)


def _is_named_pipe(about: os.stat_result) -> bool:
    """Whether this is a pipe with a name: those without one have a file system of their own."""
    if not stat.S_ISFIFO(about.st_mode):
        return False
    ends = os.pipe()
    try:
        return about.st_dev != os.fstat(ends[0]).st_dev
    finally:
        os.close(ends[0])
        os.close(ends[1])


def _next_of_fifo(number: int, path: str) -> bytes:
    """What comes next from a FIFO; nothing once all who wrote to it have closed it."""
    import select
    waiting = select.poll()
    waiting.register(number, select.POLLIN)
    while waiting.poll(PATIENCE * 1000):
        try:
            return os.read(number, _PIECE)
        except BlockingIOError:
            pass  # Another reader was faster.
    raise OSError(errno.ETIMEDOUT, f"a pipe that was silent for {PATIENCE:.0f} seconds", path)
