"""The engine's process. `subprocess` would do all of this, but importing it takes as long as a question."""

from __future__ import annotations

import io
import os

from ..fast_imports import RLock
from .streams import PIECE

_SIGKILL, _SIGPIPE, _SIGXFSZ = 9, 13, 25
_IGNORED_HERE = _SIGPIPE, _SIGXFSZ  # Python ignores these, and a program that it starts shouldn't.


class EngineProcess:
    """A started program. `reader` has what it writes, and `writer` is its input. It has no other open file of this
    process's, apart from the standard error."""

    def __init__(self, words: list[str]) -> None:
        """OSError if the program can't be started."""
        its_input, own_output = os.pipe()
        own_input, its_output = os.pipe()
        try:
            self.pid = _spawned(words, its_input, its_output)
        except OSError:
            os.close(own_input)
            os.close(own_output)
            raise
        finally:
            os.close(its_input)
            os.close(its_output)
        self.reader = io.BufferedReader(io.FileIO(own_input), PIECE)
        self.writer = io.BufferedWriter(io.FileIO(own_output, "w"), PIECE)
        self._status: int | None = None
        self._lock = RLock()

    def wait(self) -> int:
        """Waits for its end, and returns its exit status: if a signal ended it, the signal's number below zero."""
        try:
            # While it is waited for, its ID stays its own. So `kill` never ends another program.
            os.waitid(os.P_PID, self.pid, os.WEXITED | os.WNOWAIT)
        except ChildProcessError:
            pass  # Another call has waited for it, or nobody can, since this process ignores its children's ends.
        with self._lock:
            if self._status is None:
                try:
                    self._status = os.waitstatus_to_exitcode(os.waitpid(self.pid, 0)[1])
                except ChildProcessError:
                    self._status = 0
            return self._status

    def kill(self) -> None:
        """Ends it at once."""
        with self._lock:
            if self._status is None:
                try:
                    os.kill(self.pid, _SIGKILL)
                except ProcessLookupError:
                    pass


def _spawned(words: list[str], its_input: int, its_output: int) -> int:
    actions: list[tuple[int, int] | tuple[int, int, int]] = [
        (os.POSIX_SPAWN_DUP2, its_input, 0), (os.POSIX_SPAWN_DUP2, its_output, 1)]
    actions += [(os.POSIX_SPAWN_CLOSE, fd) for fd in _inherited()]
    return os.posix_spawnp(words[0], words, os.environ, file_actions=actions, setsigdef=_IGNORED_HERE)


def _inherited() -> list[int]:
    """The open files that a started program would inherit, beside the standard ones."""
    inherited = []
    for name in os.listdir("/proc/self/fd"):
        try:
            if int(name) > 2 and os.get_inheritable(int(name)):
                inherited.append(int(name))
        except OSError:
            pass  # It is closed by now, as the one that lists them is.
    return inherited
