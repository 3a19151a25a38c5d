"""`tukyamid watch`: its words, and what is done with each report."""

from __future__ import annotations

from ..command.exit_statuses import NO_ANSWER, NOT_REACHED, REACHED, WrongWords
from ..command.output import write
from ..command.user_service import service
from ..fast_imports import TYPE_CHECKING
from . import notice_command, watch_words
from .watch_loop import Watch
from .watch_state import StateFile
from .watch_subject import NamedSubject

if TYPE_CHECKING:
    from collections.abc import Sequence

    from .watch_notice import Notice
    from .watch_words import Wanted


def run(words: Sequence[str]) -> int:
    """Runs the command, and returns the exit status."""
    given = watch_words.read(words)
    if given.help:
        write(watch_words.help_text())
        return REACHED
    if len(given.words) != 2:
        raise WrongWords("watch takes: KEY USERID")
    named = NamedSubject(words)
    subject = named.read()
    state = StateFile(given.state, subject) if given.state else None
    watch = Watch(subject, service, given.every, state.read() if state else None, named=named)
    for notice in watch.notices():
        _report(notice, given)
        if state is not None:
            state.keep(notice)
        if given.once and notice.before is not None:
            return _status_of(notice)
    return NO_ANSWER  # A watch has no end of its own.


def _report(notice: Notice, given: Wanted) -> None:
    """Prints a report. The command is run if it is of a change."""
    if not given.quiet:
        write(notice.text())
    if given.command and notice.before is not None:
        notice_command.run(given.command, notice)


def _status_of(notice: Notice) -> int:
    """What waits to be verified may change an answer that isn't reached."""
    return REACHED if notice.is_reached else NO_ANSWER if notice.waiting else NOT_REACHED
