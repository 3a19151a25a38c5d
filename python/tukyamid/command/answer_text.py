"""A question from its words to its text: the keyring is opened, the roots are found, the question is asked."""

from __future__ import annotations

import time

from ..fast_imports import TYPE_CHECKING
from ..keyrings.assessment import Report
from ..keyrings.unverified import is_certain
from . import questions
from .configured import configure
from .exit_statuses import NoAnswer
from .keyring_choice import Inputs
from .lines_sent_ahead import lines_ahead
from .trust_roots import Roots

if TYPE_CHECKING:
    from collections.abc import Callable, Iterator

    from ..keyrings.assessment import Assessment
    from ..keyrings.keyring import Keyring
    from ..planning.suppositions import Supposition
    from ..protocol.service_lines import Waiting
    from .keyring_choice import Say
    from .parsed_words import Given
    from .questions import Ask, Found


class _Names:
    """A user ID to say whose a key is, found when it is asked for."""

    def __init__(self, keyring: Keyring) -> None:
        self._keyring = keyring
        self._kept: dict[str, bytes | None] = {}

    def get(self, fpr: str | None, /) -> bytes | None:
        if fpr is None or len(fpr) < 40:
            return None  # A key ID alone is no fingerprint.
        if fpr not in self._kept:
            self._kept[fpr] = self._keyring.name(fpr)
        return self._kept[fpr]


def answer(given: Given, show: Callable[[Report], str], say: Say) -> tuple[str, bool]:
    """The text of the answer, and whether the amount is reached. `say` is called with what people should read beside
    it."""
    configure(given)
    ask = questions.read(given)
    at = int(time.time()) if given.time is None else given.time
    with Inputs(given, say, lines_ahead(given, at)) as inputs:
        keyring = inputs.keyring
        waiting = keyring.index.waiting()  # Before the question: what comes to wait later doesn't change its answer.
        roots = Roots(given, inputs).find(at)
        found, supposed = _asked(given, ask, keyring, at, roots.amounts)
        shown = tuple(one.but(strict=given.strict) for one in found.assessments)
        notes = (*roots.notes, *found.notes, *notes_on_waiting(keyring, shown, waiting))
        report = Report(given.question or "", given.amount, at, found.roots or roots.amounts, shown, _Names(keyring),
                        notes, supposed)
        return show(report), report.reached


def _asked(given: Given, ask: Ask, keyring: Keyring, at: int,
           roots: dict[str, int]) -> tuple[Found, tuple[Supposition, ...]]:
    """What the question comes to: over the keyring, or over one in which something is supposed."""
    if not given.suppose:
        return ask(keyring.view(at, roots)), ()
    from ..planning import spoken
    from ..planning.scratch import supposing
    supposed = spoken.resolved(keyring, given.suppose)
    with supposing(keyring, supposed, at, given.engine) as scratch:
        return ask(scratch.view(at, roots)), supposed


def notes_on_waiting(keyring: Keyring, found: tuple[Assessment, ...], waiting: Waiting | None) -> Iterator[str]:
    """The note on signatures that wait to be verified. NoAnswer if they could change the answer."""
    if waiting is None:
        return
    if not is_certain(keyring, found):
        raise NoAnswer(f"nothing can be said yet: {waiting}")
    yield f"{waiting}; none of them can change this answer"
