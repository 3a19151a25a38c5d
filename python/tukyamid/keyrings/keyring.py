"""An engine that was fed from keyring files and certificate directories.

    with Keyring.open(["friends.pgp"]) as keyring:
        view = keyring.view(time=1764547200, roots={alice: 120})
        view.ask(carol, 120, "Carol <carol@example.org>").amount
"""

from __future__ import annotations

import os

from ..fast_imports import TYPE_CHECKING, Protocol
from ..openpgp.certificates import CERTIFICATIONS, Certificate, Signature, key_id, read_certificate
from ..protocol.refusals import RefusedAbsent, RefusedView

# What starts programs and reads files is imported when it is needed: a service that runs needs none of it.
if TYPE_CHECKING:
    from collections.abc import Callable, Hashable, Iterable, Iterator, Mapping, Sequence
    from typing import TypeVar

    from ..client.connection import Connection
    from ..client.listing import Listing
    from ..protocol.replies import Answer, Binding, Explanation
    from ..protocol.service_lines import Waiting
    from .kept_answers import Kept
    from .verified_cache import Entry, Held, Store

    T = TypeVar("T")

VIEW = "client"
WHOLE = "whole"  # The view of what holds without what is supposed.
Bindings = list[tuple[str, bytes]]


class Index(Protocol):
    """What is asked about a keyring beside the questions of the engine."""

    @property
    def is_whole(self) -> bool:
        """Whether each excerpt has all of the keyring."""

    def excerpt(self, word: str, fprs: Sequence[str]) -> Iterable[bytes]:
        """Lines that make at least this part of the keyring in an engine (`service_lines.Excerpt`)."""

    def issuer(self, fpr: str, number: str) -> str | None:
        """The fingerprint that a signature on this certificate is good by; None if it is bad, or has no verdict."""

    def bindings(self) -> Bindings:
        """The fingerprint and the user ID of each binding."""

    def by_address(self, address: str) -> Bindings:
        """The bindings whose user ID has this address, in its canonical spelling."""

    def by_user_id(self, user_id: bytes) -> Bindings:
        """The bindings of this user ID."""

    def by_key_id(self, key: str) -> list[str]:
        """The fingerprints of the keys that have this key ID."""

    def waiting(self) -> Waiting | None:
        """The signatures that no verifier has looked at; None if there are none."""


def whole(engine: Connection) -> Iterator[bytes]:
    """Lines that make all of an engine's keyring."""
    return (line for line in engine.dump() if not line.startswith(b"view "))


class DumpIndex:
    """The index of an engine by its dump, as it was when it was filled."""

    is_whole = True

    def __init__(self, engine: Connection, held: Entry | Held) -> None:
        self._engine, self._held = engine, held

    def excerpt(self, word: str, fprs: Sequence[str]) -> Iterable[bytes]:
        return whole(self._engine)

    def issuer(self, fpr: str, number: str) -> str | None:
        return self._held.verdicts.issuer(number)

    def bindings(self) -> Bindings:
        return self._held.bindings

    def by_address(self, address: str) -> Bindings:
        from ..openpgp.addresses import address_of
        return [one for one in self.bindings() if address_of(one[1]) == address]

    def by_user_id(self, user_id: bytes) -> Bindings:
        return [one for one in self.bindings() if one[1] == user_id]

    def by_key_id(self, key: str) -> list[str]:
        return [one.fpr for one in self._engine.keys() if key_id(one.fpr) == key]

    def waiting(self) -> Waiting | None:
        return None  # It was filled only once all was verified.


class Keyring:
    """Certificates and verdicts in an engine, and their index. `supposed` are the numbers of signatures that nobody has
    made."""

    def __init__(self, engine: Connection, index: Index) -> None:
        self.engine = engine
        self.index = index
        self.supposed: frozenset[str] = frozenset()
        self._certificates: dict[str, Certificate | None] = {}

    @property
    def bindings(self) -> Bindings:
        """The list of (fingerprint, user ID) of all certificates, as it was when the keyring was opened."""
        return self.index.bindings()

    @classmethod
    def open(cls, paths: Iterable[str | os.PathLike[str]], store: Store | None = None,
             engine: Sequence[str] | None = None, verifier: Sequence[str] | None = None, anew: bool = False,
             say: Callable[[str], None] = lambda text: None) -> Keyring:
        """Of keyring files and certificate directories. `store` keeps what was verified; None keeps nothing. `anew`
        verifies also what is kept. `say` is called with a text for people if something was left out. `engine` and
        `verifier` are the words that start them; by default they are found."""
        from ..client.engine import Engine
        from .engine_filling import Filling
        from .verifier import Verifier
        started = Engine(engine)
        try:
            inputs = [os.fspath(path) for path in paths]
            held = Filling(started, inputs, Verifier(verifier, say), store, say).fill(anew)
        except BaseException:
            started.close()
            raise
        return cls(started, DumpIndex(started, held))

    def __enter__(self) -> Keyring:
        return self

    def __exit__(self, *_: object) -> None:
        self.close()

    def close(self) -> None:
        self.engine.close()

    def along(self, fprs: Sequence[str], program: Sequence[str] | None = None) -> Keyring:
        """A keyring of these certificates alone, in which each has only itself and the one before it as an issuer. So
        the one way through it goes along them."""
        from ..client.engine import Engine
        part = Keyring(Engine(program), self.index)
        part.supposed = self.supposed
        for before, fpr in zip([None, *fprs], fprs):
            certificate = self.certificate(fpr)
            if certificate is None:
                continue
            part.engine.import_certificates(self.engine.export(fpr))
            for signature in (*certificate.direct, *(one for own in certificate.user_ids.values() for one in own)):
                issuer = self.index.issuer(fpr, signature.number)
                if issuer is not None and issuer in (fpr, before):
                    part.engine.judge_good(signature.number, issuer)
        return part

    def certificate(self, fpr: str) -> Certificate | None:
        """The certificate of a fingerprint, or None."""
        if fpr not in self._certificates:
            try:
                self._certificates[fpr] = read_certificate(self.engine.export(fpr))
            except RefusedAbsent:
                self._certificates[fpr] = None
        return self._certificates[fpr]

    def kept(self) -> int:
        """How many certificates have been looked up, and are kept."""
        return len(self._certificates)

    def name(self, fpr: str) -> bytes | None:
        """A user ID to show for a key: its primary one by its newest self-signatures, else the first; or None."""
        certificate = self.certificate(fpr)
        if certificate is None or not certificate.user_ids:
            return None
        ranks = {uid: self._rank(certificate, signatures) for uid, signatures in certificate.user_ids.items()}
        return max(ranks, key=ranks.__getitem__)

    def _rank(self, certificate: Certificate, signatures: list[Signature]) -> tuple[bool, int]:
        """By what a user ID is chosen to be shown."""
        own = [one for one in certificate.signatures_by_itself(signatures) if one.said.kind in CERTIFICATIONS
               and self.index.issuer(certificate.fpr, one.number) == certificate.fpr]
        newest = max(own, key=Signature.newness, default=None)
        return (False, 0) if newest is None else (newest.said.primary, newest.said.made)

    def view(self, time: int, roots: Mapping[str, int], name: str = VIEW) -> View:
        """Opens a view: the time in seconds since 1970, and the amount of each root. It takes the place of an earlier
        one of its name, so use several names (the engine has 16 views) to ask from several alternately."""
        try:
            self.engine.close_view(name)
        except RefusedView:
            pass
        self.engine.open_view(name, time)
        for fpr, amount in roots.items():
            self.engine.set_root(name, fpr, amount)
        return View(self, name, time, dict(roots))


def _certifications(found: Explanation | None) -> int:
    return 0 if found is None else len(found.reasons)


class View:
    """A keyring at a time, from some roots."""

    def __init__(self, keyring: Keyring, name: str, time: int, roots: dict[str, int]) -> None:
        self.keyring = keyring
        self.name = name
        self.time = time
        self.roots = roots
        self._kept: Kept | None = None

    def keep_in(self, kept: Kept) -> None:
        """From now on what doesn't depend on the wanted amount is asked for once, unless too much is kept. For whoever
        knows when the keyring changes, and then takes another view."""
        self._kept = kept

    def once(self, question: Hashable, ask: Callable[[], T], size: Callable[[T], int] = lambda value: 0) -> T:
        """What `ask` returns, or what it returned for this question before if that is kept; `size` counts its
        certifications."""
        return ask() if self._kept is None else self._kept.of((self, question), ask, size)

    def reaches(self, fpr: str) -> bool:
        """Whether any user ID of the key is reached at all."""
        return self.once(("reaches", fpr), lambda: self._is_reached(fpr))

    def _is_reached(self, fpr: str) -> bool:
        certificate = self.keyring.certificate(fpr)
        return certificate is not None and any(self.ask(fpr, 1, uid).amount for uid in certificate.user_ids)

    def ask(self, fpr: str, wanted: int, user_id: bytes | str) -> Answer:
        """How confident one can be that the user ID belongs to the key, up to the wanted amount."""
        return self.keyring.engine.ask(self.name, fpr, wanted, user_id)

    def explain(self, fpr: str, user_id: bytes | str) -> Explanation | None:
        """What each certification of a user ID comes to; None if there is no such certificate or user ID."""
        return self.once(("explain", fpr, user_id), lambda: self._explained(fpr, user_id), _certifications)

    def _explained(self, fpr: str, user_id: bytes | str) -> Explanation | None:
        try:
            return self.keyring.engine.explain(self.name, fpr, user_id)
        except RefusedAbsent:
            return None

    def list(self, wanted: int) -> Listing[Binding]:
        """The bindings that reach the wanted amount, by fingerprint and user ID."""
        return self.keyring.engine.list(self.name, wanted)
