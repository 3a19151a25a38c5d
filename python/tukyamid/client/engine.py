"""A running engine, asked from Python."""

from __future__ import annotations

import os

from ..fast_imports import TYPE_CHECKING
from ..protocol.refusals import EngineEnded, EngineMissing
from ..protocol.spelling import LONGEST_LINE, has_reply
from .connection import Connection
from .engine_process import EngineProcess
from .engine_program import find_program
from .listing import Listing

if TYPE_CHECKING:
    from collections.abc import Iterable

    Program = str | os.PathLike[str] | Iterable[str | os.PathLike[str]]

__all__ = ["Engine", "LONGEST_LINE", "Listing", "find_program", "has_reply", "program_words"]


def program_words(program: Program | None) -> list[str]:
    """The words that start a program, given as its path or as words; by default those of `find_program`."""
    if program is None:
        return find_program()
    if isinstance(program, (str, os.PathLike)):
        return [os.fspath(program)]
    return [os.fspath(word) for word in program]


class Engine(Connection):
    """Starts the program and talks to it.

    >>> with Engine() as engine:
    ...     engine.open_view("me", 1764547200)
    ...     [key.fpr for key in engine.keys()]
    []
    >>> with Engine() as engine:
    ...     engine.ask("nobody", "fac804259d6b2997afe074fcd2112d7c6c04741c", 120, "Alice")
    Traceback (most recent call last):
    tukyamid.protocol.refusals.RefusedView: refused view
    """

    def __init__(self, program: Program | None = None, arguments: Iterable[str] = ("run",)) -> None:
        """`program` is the program's path, or a list of words; by default what `find_program` finds."""
        words = program_words(program)
        try:
            self._process = EngineProcess([*words, *arguments])
        except OSError as error:
            raise EngineMissing(f"the engine can't be started: {words[0]}: {error.strerror}") from None
        super().__init__(self._process.reader, self._process.writer)

    def close(self) -> int:
        """Ends the input, waits for the program's end, and returns its exit status; what it still writes is dropped."""
        with self._lock:
            if not self._wire.is_closed:
                if self._in_exchange:
                    self._abandon()
                self._wire.close_output()
                self._wire.drain()
            return self._process.wait()

    def _end_error(self) -> EngineEnded:
        return EngineEnded(self._process.wait())

    def end_at_once(self) -> None:
        """Ends the program. A call that waits for it raises EngineEnded."""
        self._process.kill()

    def _abandon(self) -> None:
        self.end_at_once()
