"""How the command ends: its exit statuses, and one line for whatever isn't an answer."""

from __future__ import annotations

import os
import sys

from ..fast_imports import SIGINT, TYPE_CHECKING, signal
from ..protocol.refusals import TukyamidError
from .output import open_standard_files, say

if TYPE_CHECKING:
    from collections.abc import Callable
    from types import FrameType

REACHED, NOT_REACHED, WRONG_WORDS, NO_ANSWER, INTERRUPTED = 0, 1, 2, 3, 130
USAGE = "usage: tukyamid [option..] QUESTION ARGUMENT.. (see tukyamid --help)"


class WrongWords(Exception):
    """The words of the command are wrong; the text says why."""


class NoAnswer(TukyamidError):
    """There is no answer; the text says why."""


def run_guarded(run: Callable[[], int]) -> int:
    """The status of `run`, or that of its failure, which is then said in one line."""
    try:
        signal(SIGINT, _interrupt)
        open_standard_files()
        return run()
    except KeyboardInterrupt:
        return INTERRUPTED
    except WrongWords as error:
        say(str(error))
        say(USAGE, "")
        return WRONG_WORDS
    except Exception as error:
        if os.environ.get("TUKYAMID_TRACEBACK"):
            raise
        say(reason_of(error))
        return NO_ANSWER


def reason_of(error: Exception) -> str:
    """Why there is no answer, for people."""
    if isinstance(error, TukyamidError):
        return str(error)
    if isinstance(error, OSError):
        said = error.strerror or str(error)
        return said if error.filename is None else f"{os.fsdecode(error.filename)}: {said}"
    if isinstance(error, MemoryError):
        return "out of memory"
    said = f"{type(error).__name__}: {error}"
    return f"a bug in the command; TUKYAMID_TRACEBACK=1 shows where ({said})"


def _interrupt(number: int, frame: FrameType | None) -> None:
    """Ends a verifier that is running, since a thread waits for what it writes, and then the command."""
    verifier = sys.modules.get("tukyamid.keyrings.verifier")
    if verifier is not None:
        verifier.end_all()
    raise KeyboardInterrupt
