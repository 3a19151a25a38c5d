"""Fills an engine with what keyring files and certificate directories hold, verified: from what was kept, or by the
verifier, which is only asked about signatures that it hasn't verified before."""

from collections.abc import Callable, Iterable, Iterator

from ..client.connection import Connection
from ..protocol.replies import PendingSignature
from .input_digest import digest_of
from .verified_cache import Entry, Held, Store, StoreRefused
from .verifier import Verifier, VerifierFailed

Say = Callable[[str], None]


class Filling:
    """An engine that is still empty, and where its certificates come from. `say` is called with a text for people if
    something was left out."""

    def __init__(self, engine: Connection, paths: list[str], verifier: Verifier, store: Store | None,
                 say: Say) -> None:
        self._engine, self._paths, self._verifier = engine, paths, verifier
        self._store, self._say = store, say

    def fill(self, anew: bool) -> Entry | Held:
        """Fills the engine, and returns what it then holds. `anew` verifies also what was kept."""
        try:
            digest = digest_of(self._paths, self._verifier.version)
        except OSError as error:
            raise VerifierFailed(f"{error.filename}: {error.strerror}") from None
        entry = self._store.find(digest) if self._store is not None and not anew else None
        if entry is not None and self._store is not None:
            if not entry.give_to(self._engine):
                self._store.forget(digest)
                raise VerifierFailed("the cache entry of this input was damaged, and has been deleted; ask again")
            return entry
        self._verify({} if anew or self._store is None else self._store.good_verdicts(self._verifier.version))
        return self._keep(digest, anew)

    def _keep(self, digest: str, anew: bool) -> Entry | Held:
        if self._store is None:
            return Held(self._engine.dump())
        try:
            if anew:
                self._store.forget(digest)
            return self._store.keep(digest, self._engine.dump(), self._verifier.version)
        except (OSError, StoreRefused) as error:
            why = error.strerror if isinstance(error, OSError) else error
            self._say(f"the result can't be kept in {self._store.folder}: {why}")
            return Held(self._engine.dump())

    def _verify(self, known: dict[str, str]) -> None:
        """Has the engine take certificates and verdicts, of which these are known already."""
        if known:
            self._feed(self._verifier.certificates(self._paths))
            there = {key.fpr for key in self._engine.keys()}
            self._feed(self._new_verdicts(known, there, list(self._engine.pending())))
        else:
            self._feed(self._verifier.lines(self._paths))
        if not next(iter(self._engine.keys()), None):
            raise VerifierFailed("no certificate was found")

    def _new_verdicts(self, known: dict[str, str], there: set[str],
                      pending: list[PendingSignature]) -> Iterator[bytes]:
        """Verdicts on what is pending: the known ones whose issuers are there, and the verifier's on the rest."""
        rest = [one for one in pending if known.get(one.number) not in there]
        yield from (f"verdict {one.number} good {known[one.number]}".encode("ascii") for one in pending
                    if known.get(one.number) in there)
        yield from self._verifier.pending(self._paths, rest)

    def _feed(self, lines: Iterable[bytes]) -> None:
        for refusal in self._engine.feed(lines):
            self._say(f"line {refusal.position} of the verifier's output: {refusal}")
