"""The user's command, which is run at each change."""

from __future__ import annotations

import os
import signal
import subprocess

from ..command.exit_statuses import NoAnswer
from ..fast_imports import TYPE_CHECKING

if TYPE_CHECKING:
    from collections.abc import Sequence

    from .watch_notice import Notice

PATIENCE = 60.0


def run(words: Sequence[str], notice: Notice) -> None:
    """Runs a command with the facts of a notice, and waits for its end. NoAnswer if it fails, or if it takes too long:
    then it is ended, with all that it started in its process group."""
    environment = {**os.environb, **{name.encode(): os.fsencode(value) for name, value in notice.environment().items()}}
    try:
        process = subprocess.Popen(words, stdin=subprocess.PIPE, env=environment, process_group=0)
    except (OSError, ValueError) as error:
        raise NoAnswer(f"{words[0]}: {getattr(error, 'strerror', None) or error}") from None
    try:
        process.communicate(notice.text().encode("utf-8", "surrogateescape"), PATIENCE)
    except subprocess.TimeoutExpired:
        raise NoAnswer(f"{words[0]} took longer than {PATIENCE:.0f} seconds, and was ended") from None
    finally:
        _end(process)
    if process.returncode != 0:
        raise NoAnswer(f"{words[0]} ended with status {process.returncode}")


def _end(process: subprocess.Popen[bytes]) -> None:
    """Ends a process that still runs, as it does if the watch is interrupted."""
    if process.poll() is None:
        os.killpg(process.pid, signal.SIGKILL)
        process.wait()
