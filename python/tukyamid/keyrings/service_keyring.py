"""A keyring of the service, asked over its socket."""

from __future__ import annotations

from ..fast_imports import TYPE_CHECKING
from ..protocol.refusals import RefusedAbsent, RefusedLine
from ..protocol.service_lines import MOST_OF_AN_EXCERPT, Waiting
from .keyring import Bindings, Keyring, whole

if TYPE_CHECKING:
    from collections.abc import Iterator, Sequence

    from ..client import Client


class ServedIndex:
    """The index of a service's keyring: the service looks everything up."""

    def __init__(self, client: Client) -> None:
        self._client = client
        self.is_whole = False
        self._issuers: dict[str, dict[str, str]] = {}

    def issuer(self, fpr: str, number: str) -> str | None:
        if fpr not in self._issuers:
            try:
                self._issuers[fpr] = {one.number: one.issuer for one in self._client.issuers(fpr)}
            except RefusedAbsent:
                self._issuers[fpr] = {}
        return self._issuers[fpr].get(number)

    def excerpt(self, word: str, fprs: Sequence[str]) -> Iterator[bytes]:
        try:
            for start in range(0, len(fprs), MOST_OF_AN_EXCERPT):
                yield from self._client.excerpt(word, fprs[start:start + MOST_OF_AN_EXCERPT])
        except RefusedLine:  # It was started by an earlier version, which knows no excerpts.
            self.is_whole = True
            yield from whole(self._client)

    def bindings(self) -> Bindings:
        return [found for key in self._client.keys() for found in self._found("key", key.fpr)]

    def by_address(self, address: str) -> Bindings:
        return self._found("address", address)

    def by_user_id(self, user_id: bytes) -> Bindings:
        return self._found("user-id", user_id) if user_id else []

    def by_key_id(self, key: str) -> list[str]:
        return list(dict.fromkeys(fpr for fpr, _ in self._found("key", key)))

    def waiting(self) -> Waiting | None:
        try:
            return self._client.unverified()
        except RefusedLine:  # It was started by an earlier version, which doesn't know.
            return None

    def _found(self, by: str, sought: str | bytes) -> Bindings:
        return [(one.fpr, one.user_id) for one in self._client.find(by, sought)]


def served_keyring(client: Client) -> Keyring:
    return Keyring(client, ServedIndex(client))
