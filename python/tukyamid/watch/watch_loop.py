"""The watch itself: the service says when an amount may have changed, and then it is asked.

The service's watch lines wake it up. What counts is the answer to a question, together with the number of a change that
it depends on. So no change is missed between two connections, and the service's log says who made it.
"""

from __future__ import annotations

import time

from ..fast_imports import TYPE_CHECKING
from ..protocol.refusals import TukyamidError
from ..protocol.replies import Gone, Watched
from .watch_notice import Notice, Subject, are_about
from .watch_state import Last

if TYPE_CHECKING:
    from collections.abc import Callable, Iterator

    from ..client import Client
    from ..protocol.replies import Answer
    from ..protocol.service_lines import Change
    from .watch_subject import NamedSubject

    Connect = Callable[[], Client]

NAME = "w"
MOST_CHANGES = 100_000
PATIENCE = 60.0
_PAUSE = 0.5
_LOOK_SECONDS = 2.0
_PATIENCE_WITH_ROOTS = 5.0  # Longer than an editor takes to write a file.


class Watch:
    """A watch over one binding. `last` is what was reported last, and `named` has the roots as they are later on."""

    def __init__(self, subject: Subject, connect: Connect, every: float, last: Last | None = None,
                 patience: float = PATIENCE, named: NamedSubject | None = None) -> None:
        self._subject, self._connect, self._every, self._patience = subject, connect, every, patience
        self._last, self._named = last, named
        self._answered = float("-inf")  # When the service last answered.
        self._is_begun = False

    def notices(self) -> Iterator[Notice]:
        """The amount, unless it was reported before, and then each change of it. If the service goes away, it is
        looked for again; the error of a service that stays away is raised, and that of roots that can't be read."""
        while True:
            patience = _PATIENCE_WITH_ROOTS
            try:
                self._take_roots()
                patience = self._patience
                with self._connect() as client:
                    yield from self._over(client)
            except TukyamidError:
                if time.monotonic() - self._answered > patience:
                    raise
                time.sleep(_PAUSE)

    def _take_roots(self) -> None:
        """Takes other roots, if the configuration has changed."""
        if self._named is None or not self._named.has_changed:
            return
        roots, old = self._named.roots(), self._subject
        if roots != old.roots:
            self._subject = Subject(old.fpr, old.user_id, old.wanted, roots)
            if self._last is not None:
                self._last = Last(self._last.amount, self._last.number, self._last.keys, are_roots_new=True)

    def _over(self, client: Client) -> Iterator[Notice]:
        """What is to be reported over one connection, as long as it and the roots last."""
        self._is_begun = False
        while True:
            now = int(time.time())
            self._begin(client, now)
            for notice in self._looked(client, now):
                yield notice  # Whoever takes it may fail, and then it wasn't reported.
                self._last = Last(notice.amount, notice.number, notice.keys)
            self._answered = time.monotonic()
            if not self._wait(client):
                return  # Its view has the roots of before.

    def _wait(self, client: Client) -> bool:
        """Waits until the amount may have changed. False if the roots may have, which is looked at regularly."""
        end = time.monotonic() + self._every
        try:
            while self._named is None or not self._named.has_changed:
                left = end - time.monotonic()
                if left <= 0 or client.wait(min(left, _LOOK_SECONDS)):
                    return True
            return False
        finally:
            self._answered = time.monotonic()  # Until now there was a service.

    def _begin(self, client: Client, now: int) -> None:
        """Moves the view on to the present. The watch is begun if it isn't there."""
        subject = self._subject
        client.open_view(NAME, now)
        if not self._is_begun:
            for fpr, amount in subject.roots.items():
                client.set_root(NAME, fpr, amount)
            client.watch(NAME, NAME, subject.fpr, subject.wanted, subject.user_id)
            self._is_begun = True

    def _looked(self, client: Client, now: int) -> Iterator[Notice]:
        """What is to be reported: of all amounts since the last report those that differ from the one before."""
        number = int(client.status()["change"])
        lines = client.told()
        self._is_begun = not any(isinstance(one, Gone) for one in lines)
        answer = client.ask(NAME, self._subject.fpr, self._subject.wanted, self._subject.user_id)
        waiting = client.unverified()
        keys = frozenset({self._subject.fpr, *self._subject.roots, *_keys_of(answer)})
        causes = _Causes(client, self._last, number, keys)
        for amount in (*(one.amount for one in lines if isinstance(one, Watched)), answer.amount):
            last = self._last
            if last is None or last.amount != amount:
                yield Notice(self._subject, now, amount, None if last is None else last.amount, number, keys,
                             causes.changes(), causes.others(), "" if waiting is None else str(waiting))
        if self._last is not None:
            self._last = Last(self._last.amount, number, keys)


class _Causes:
    """Why an amount may have changed since the last report."""

    def __init__(self, client: Client, last: Last | None, number: int, keys: frozenset[str]) -> None:
        self._client, self._last, self._number = client, last, number
        self._keys = keys if last is None else keys | last.keys
        self._changes: tuple[Change, ...] | None = None

    def changes(self) -> tuple[Change, ...]:
        """Those of the keyring, newest first."""
        if self._changes is None:
            since = [] if self._last is None else _changes_since(self._client, self._last.number)
            self._changes = are_about(since, self._keys)
        return self._changes

    def others(self) -> tuple[str, ...]:
        last = self._last
        if last is None:
            return ()
        return (*(["your roots are others than before"] if last.are_roots_new else []),
                *(["the keyring was replaced by another one"] if self._number < last.number else []))


def _keys_of(answer: Answer) -> set[str]:
    """The keys on the paths of an answer."""
    return {fpr for path in answer.paths for fpr in (path.root, *(step.target for step in path.steps))}


def _changes_since(client: Client, number: int) -> list[Change]:
    """The changes of the keyring after one, newest first."""
    count = int(client.status()["change"]) - number
    if count <= 0:
        return []
    return [one for one in client.log(min(count, MOST_CHANGES)) if one.number > number]
