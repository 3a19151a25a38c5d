"""The keyring that a question is asked about: the service's, or one of the files, directories and programs that the
words name."""

from __future__ import annotations

from ..fast_imports import TYPE_CHECKING
from ..keyrings.keyring import Keyring
from .exit_statuses import WrongWords
from .named_inputs import Pipe, sources_of

if TYPE_CHECKING:
    from collections.abc import Callable, Sequence
    from contextlib import ExitStack

    from ..keyrings.verified_cache import Store
    from .named_inputs import Source
    from .parsed_words import Given

    Say = Callable[[str], None]


class Inputs:
    """What the words name as inputs, and the keyring of all of it, as long as it is open. A service is sent the lines
    `ahead` at once, for the calls that follow."""

    def __init__(self, given: Given, say: Say, ahead: Sequence[bytes] = ()) -> None:
        self._given, self._say, self._ahead = given, say, ahead
        self._files: ExitStack | None = None
        self._paths: list[str] | None = None
        self.keyring: Keyring
        self.verifier_words = [given.verifier] if given.verifier else None

    def __enter__(self) -> Inputs:
        try:
            self.keyring = self._opened()
        except BaseException:
            self._close_files()
            raise
        return self

    def __exit__(self, *_: object) -> None:
        try:
            self.keyring.close()
        finally:
            self._close_files()

    def _close_files(self) -> None:
        if self._files is not None:
            self._files.close()

    def _opened(self) -> Keyring:
        sources = sources_of(self._given)
        if not sources and self._given.no_service:
            raise WrongWords("an input is missing: give --keyring FILE, --directory FOLDER or --gpg")
        if not sources:
            self._refuse_words_of_inputs()
            from .user_service import of_service
            return of_service(self._ahead)
        if any(isinstance(source, Pipe) for source in sources):
            self.as_paths(sources)  # What is wrong with it is said at once, and not tried again.
        is_alone = self._given.no_service or self._given.no_cache or self._given.anew or self._given.engine
        if is_alone:
            return self._by_an_engine(sources)
        from .input_service_client import Reopening
        reopening = Reopening(self._given, sources, lambda: self.as_paths(sources), self._ahead)
        return reopening.served() or reopening.begin_after(self._by_an_engine(sources))

    def _refuse_words_of_inputs(self) -> None:
        """The service has its own programs, and keeps what it verified."""
        words = {"--engine": self._given.engine, "--verifier": self._given.verifier, "--cache": self._given.cache,
                 "--no-cache": self._given.no_cache, "--anew": self._given.anew}
        for word, value in words.items():
            if value:
                raise WrongWords(f"{word} goes with an input: give --keyring FILE, --directory FOLDER or --gpg")

    def as_paths(self, sources: list[Source]) -> list[str]:
        """Files and directories that have the inputs, as long as this is open. Each input is read once."""
        if self._paths is None:
            from contextlib import ExitStack
            self._files = files = ExitStack()
            self._paths = [source.path(files) for source in sources]
        return self._paths

    def _by_an_engine(self, sources: list[Source]) -> Keyring:
        """A keyring in an engine that is started for this question."""
        engine = [self._given.engine] if self._given.engine else None
        return Keyring.open(self.as_paths(sources), self._store(), engine, self.verifier_words, self._given.anew,
                            say=self._say)

    def verified(self, sources: list[Source]) -> Keyring:
        """A keyring of these inputs in an engine of its own; what was verified of them is kept."""
        return self._by_an_engine(sources)

    def _store(self) -> Store | None:
        """Where verified keyrings are kept; None if nothing is to be kept, or if it isn't safe there."""
        from ..keyrings.verified_cache import Store, StoreRefused
        if self._given.no_cache:
            return None
        try:
            return Store(self._given.cache)
        except (StoreRefused, OSError) as error:
            self._say(f"no cache is used: {error}")
            return None
