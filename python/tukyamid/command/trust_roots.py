"""Trust roots: those that are given, gpg's owner trust, and the trust root of a certificate directory."""

from __future__ import annotations

import os

from ..bounded_reading import read_at_most
from ..fast_imports import TYPE_CHECKING
from ..keyrings.directory_entries import TRUST_ROOT, own_directory
from ..openpgp.certificates import key_fingerprint
from ..openpgp.packets import KEY, packets
from ..records import Value
from .exit_statuses import NoAnswer, WrongWords
from .key_names import resolve
from .output import printable

if TYPE_CHECKING:
    from collections.abc import Iterator

    from .keyring_choice import Inputs
    from .parsed_words import Given

FULL = 120
MOST_OCTETS = 16 << 20
_SECRET_KEYS = {5, 7}


class Chosen(Value):
    """The amount of each root, and notes for people."""
    __slots__ = ("amounts", "notes")

    def __init__(self, amounts: dict[str, int], notes: tuple[str, ...] = ()) -> None:
        self.amounts, self.notes = amounts, notes


class Roots:
    """The roots of a question, over the keyring that it is asked about."""

    def __init__(self, given: Given, inputs: Inputs) -> None:
        self._given, self._inputs = given, inputs
        self._notes: list[str] = [given.roots_note] if given.roots_note else []

    def find(self, at: int) -> Chosen:
        """The roots at a time. WrongWords if there are none, NoAnswer if none of them is in the keyring."""
        if self._given.question == "path":
            return Chosen({})
        amounts = self._chosen(at)
        missing = [fpr for fpr in amounts if self._inputs.keyring.certificate(fpr) is None]
        if len(missing) == len(amounts):
            why = f"this root isn't in the keyring: {', '.join(missing)}"
            raise NoAnswer(f"{self._what_waits()}{why}{self._hint()}")
        self._notes += [f"this root isn't in the keyring: {fpr}" for fpr in missing]
        return Chosen(amounts, tuple(self._notes))

    def _what_waits(self) -> str:
        """Why a root may be missing: a keyring that couldn't be read or verified yet may have it."""
        waiting = self._inputs.keyring.index.waiting()
        return f"nothing can be said yet: {waiting}; " if waiting else ""

    def _hint(self) -> str:
        """What to do if the service has no keyring yet."""
        if next(iter(self._inputs.keyring.engine.keys()), None) is not None:
            return ""
        return ". The service has no certificate yet: tukyamid keyring add FILE|DIRECTORY|gpg"

    def _chosen(self, at: int) -> dict[str, int]:
        keyring = self._inputs.keyring
        amounts = {}
        if self._given.gpg:
            from . import gpg
            amounts = gpg.roots_of(gpg.owner_trust(), keyring.view(at, {}))
            if not amounts and not self._given.root:
                raise NoAnswer("gpg trusts no key ultimately, so there is no root: give --root KEY[:AMOUNT]")
        amounts |= {resolve(keyring, key): amount for key, amount in self._given.root}
        amounts = amounts or self._of_directories()
        if not amounts:
            raise WrongWords("a trust root is missing: tukyamid root add KEY keeps one; or give --root KEY[:AMOUNT], "
                             "or --gpg to take gpg's owner trust")
        return amounts

    def _of_directories(self) -> dict[str, int]:
        """The trust roots of the directories that are given, or else of the user's own directory, which is sq's."""
        found = {fpr: FULL for folder in self._given.directory for fpr in self._of_directory(folder)}
        if found:
            return found
        own = {fpr: FULL for fpr in self._of_directory(own_directory())}
        if own:
            self._notes.append(f"the root is sq's own, {printable(own_directory())}/{TRUST_ROOT}")
        return own

    def _of_directory(self, folder: str) -> list[str]:
        name = os.path.join(folder, TRUST_ROOT)
        try:
            octets = read_at_most(name, MOST_OCTETS)
        except (FileNotFoundError, NotADirectoryError):
            return []
        if octets is None:
            raise NoAnswer(f"{name} has more than {MOST_OCTETS >> 20} MiB")
        return list(self._read(name, octets))

    def _read(self, name: str, octets: bytes) -> Iterator[str]:
        """The fingerprints of a trust root, which may be armored, and may have secret parts."""
        try:
            found = list(packets(octets))
        except ValueError:
            found = []
        has_secrets = any(kind in _SECRET_KEYS for kind, _ in found) or b"BEGIN PGP PRIVATE KEY" in octets[:4096]
        if has_secrets:
            self._notes.append(f"the secret parts of {printable(name)} were left out")
        if found and not has_secrets:
            yield from (key_fingerprint(body) for kind, body in found if kind == KEY)
            return
        from ..keyrings.verifier import Verifier
        for line in Verifier(self._inputs.verifier_words).certificates([name]):
            if line.startswith(b"import "):
                yield from (key_fingerprint(body) for kind, body in packets(bytes.fromhex(line[7:].decode("ascii")))
                            if kind == KEY)
