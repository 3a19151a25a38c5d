"""What a watch is about: the binding that its words name, and the roots of the words or of the configuration. The
configuration may change while the watch runs."""

from __future__ import annotations

import os
import time

from ..command import option_values
from ..command.configured import configure
from ..command.exit_statuses import NoAnswer, WrongWords
from ..command.key_names import resolve
from ..command.keyring_choice import Inputs
from ..command.output import say
from ..command.trust_roots import Roots
from ..command.user_service import service
from ..configuration.config_file import HOST_FILE, user_file
from ..fast_imports import TYPE_CHECKING
from ..keyrings.directory_entries import own_directory
from ..keyrings.service_keyring import served_keyring
from . import watch_words
from .watch_notice import Subject

if TYPE_CHECKING:
    from collections.abc import Sequence


class NamedSubject:
    """The subject that the words of a watch name. `has_changed` says whether the files that may name its roots are
    others than when it was read."""

    def __init__(self, words: Sequence[str]) -> None:
        self._words = words
        self._seen = _files()

    def read(self) -> Subject:
        """The subject as it is now. WrongWords if the words name none."""
        seen = _files()  # What changes from here on is noticed.
        subject = _subject_of(watch_words.read(self._words))
        self._seen = seen
        return subject

    def roots(self) -> dict[str, int]:
        """The roots as they are now. NoAnswer if there are none."""
        try:
            return self.read().roots
        except WrongWords as error:
            raise NoAnswer(str(error)) from None

    @property
    def has_changed(self) -> bool:
        return _files() != self._seen


def _files() -> list[tuple[int, int, int] | None]:
    """The states of the files that may name roots."""
    return [_state(path) for path in (user_file(), HOST_FILE, os.path.join(own_directory(), "trust-root"))]


def _state(path: str) -> tuple[int, int, int] | None:
    try:
        found = os.stat(path)
    except OSError:
        return None
    return found.st_mtime_ns, found.st_size, found.st_ino


def _subject_of(given: watch_words.Wanted) -> Subject:
    """The binding that the words name, and the roots: those of the words, or the user's own."""
    key, user_id = given.words
    try:
        fpr, sought = option_values.read_key(key), option_values.read_user_id(user_id)
    except ValueError as error:
        raise WrongWords(str(error)) from None
    configure(given)
    if given.gpg or given.gpg_keyring or given.keyring or given.directory:
        raise NoAnswer("watch asks about the service's keyring, and your configuration names other inputs")
    with service() as client:
        inputs = Inputs(given, say)
        inputs.keyring = served_keyring(client)
        chosen = Roots(given, inputs).find(int(time.time()))
        for note in chosen.notes:
            say(note)
        return Subject(resolve(inputs.keyring, fpr), sought, given.amount, chosen.amounts)
