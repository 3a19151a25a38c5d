"""The index of a keyring in which something is supposed."""

from __future__ import annotations

from ..fast_imports import TYPE_CHECKING

if TYPE_CHECKING:
    from collections.abc import Collection, Iterable, Mapping, Sequence

    from ..keyrings.keyring import Bindings, Index
    from ..protocol.service_lines import Waiting


class SupposedIndex:
    """The index of the whole keyring, with the issuers of supposed signatures, and without some signatures."""
    is_whole = False

    def __init__(self, index: Index, supposed: Mapping[str, str], without: Collection[str]) -> None:
        self._index, self._supposed, self._without = index, supposed, without

    def issuer(self, fpr: str, number: str) -> str | None:
        if number in self._without:
            return None
        return self._supposed.get(number) or self._index.issuer(fpr, number)

    def bindings(self) -> Bindings:
        return self._index.bindings()

    def by_address(self, address: str) -> Bindings:
        return self._index.by_address(address)

    def by_user_id(self, user_id: bytes) -> Bindings:
        return self._index.by_user_id(user_id)

    def by_key_id(self, key: str) -> list[str]:
        return self._index.by_key_id(key)

    def excerpt(self, word: str, fprs: Sequence[str]) -> Iterable[bytes]:
        return self._index.excerpt(word, fprs)

    def waiting(self) -> Waiting | None:
        return self._index.waiting()
