"""Certificates as a path can go through them: with the signatures alone that were made by some keys.

A signature by a key that isn't there counts for nothing. So whoever asks about other keys needs none of these.
"""

from __future__ import annotations

from binascii import hexlify, unhexlify
from collections.abc import Collection, Iterator

from tukyamid.openpgp.certificates import Certificate, Signature, key_id, read_certificate
from tukyamid.openpgp.packets import KEY, SIGNATURE, USER_ID, packet

from ..storage.partial_reads import Part, Parts

_MOST_KEPT = 4 * 1024 * 1024


class ThinParts:
    """Parts of a keyring, of which the certificates `among` have only signatures by one another, unless one of them is
    wanted `whole`."""

    def __init__(self, parts: Parts, among: Collection[bytes], whole: bytes) -> None:
        self._parts, self._among, self._whole = parts, among, whole
        self._kept: dict[bytes, list[bytes]] = {}
        self._size = 0

    def count_lines(self, fpr: bytes) -> int:
        """How many lines a part has; 0 if the certificate isn't kept."""
        return sum(1 for _ in self.lines(fpr)) if self._is_thin(fpr) else self._parts.count_lines(fpr)

    def lines(self, fpr: bytes) -> Iterator[bytes]:
        """The lines that make it in an engine; none if it isn't kept."""
        if fpr not in self._kept:
            part = self._parts.part(fpr)
            if part is None:
                return
            if not self._is_thin(fpr):
                yield from part.lines()
                return
            lines = list(thinned(part, self._among).lines())
            self._size += sum(map(len, lines))
            if self._size > _MOST_KEPT:
                yield from lines
                return
            self._kept[fpr] = lines
        yield from self._kept[fpr]

    def _is_thin(self, fpr: bytes) -> bool:
        return fpr in self._among and fpr != self._whole


def thinned(part: Part, issuers: Collection[bytes]) -> Part:
    """A certificate's key and user IDs, with the signatures alone that have a good verdict by one of these issuers."""
    by = {hexlify(number).decode("ascii"): issuer for number, issuer in part.verdicts if issuer in issuers}
    certificate = read_certificate(part.octets)
    found = _found(certificate, by)
    octets = [packet(KEY, certificate.key)]
    octets += [packet(SIGNATURE, one.body) for one in certificate.direct if one in found]
    for user_id, signatures in certificate.user_ids.items():
        octets.append(packet(USER_ID, user_id))
        octets += [packet(SIGNATURE, one.body) for one in signatures if one in found]
    verdicts = sorted((unhexlify(one.number), by[one.number]) for one in found)
    return Part(part.fpr, b"".join(octets), tuple(verdicts))


def _found(certificate: Certificate, by: dict[str, bytes]) -> set[Signature]:
    """The certificate's signatures with these numbers. To number a signature takes long, so those that name one of the
    issuers come first."""
    hints = [unhexlify(key_id(issuer.hex())) for issuer in set(by.values())]
    signatures = [one for own in (certificate.direct, *certificate.user_ids.values()) for one in own]
    found = {one for one in signatures if any(hint in one.body for hint in hints) and one.number in by}
    return found if len(found) == len(by) else {one for one in signatures if one.number in by}
