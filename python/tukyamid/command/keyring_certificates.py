"""Which certificates only one of the service's keyrings has, so that they can be removed with it."""

from __future__ import annotations

from collections.abc import Iterator, Sequence
from tempfile import NamedTemporaryFile

from ..keyrings.verifier import Verifier, VerifierFailed
from ..openpgp.certificates import KEY, key_fingerprint, packets
from . import gpg
from .exit_statuses import NoAnswer


def fingerprints_of(name: str, others: Sequence[str]) -> set[str]:
    """The fingerprints of a keyring that none of these others has. NoAnswer if one of them can't be read: nobody knows
    then which certificates it shares."""
    own = _fingerprints(name)
    for other in others:
        own -= _fingerprints(other)
    return own


def _fingerprints(name: str) -> set[str]:
    try:
        if name.startswith("/"):
            return set(_read(name))
        with NamedTemporaryFile(prefix="tukyamid-") as file:
            file.write(gpg.export(name.partition(":")[2] or None))
            file.flush()
            return set(_read(file.name))
    except (VerifierFailed, OSError) as error:
        raise NoAnswer(f"{name} can't be read, so nobody knows which certificates it has: {error}") from None


def _read(path: str) -> Iterator[str]:
    for line in Verifier().certificates([path]):
        if line.startswith(b"import "):
            yield from (key_fingerprint(body) for kind, body in packets(bytes.fromhex(line[7:].decode("ascii")))
                        if kind == KEY)
