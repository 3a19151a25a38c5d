"""Reading a database in parts, for a keyring that is larger than an engine. The statements are those that SQLite and
PostgreSQL understand alike, but for the indexes that they name for SQLite."""

from abc import ABC, abstractmethod
from collections.abc import Collection, Iterator
from typing import cast

from .partial_reads import Part, Sizes

_OWN = "(SELECT id FROM keys WHERE fingerprint = ?)"
# UNION meets no key twice, and rows come as they are found: so a limit ends the search.
_ONWARD = """
WITH RECURSIVE slice (id) AS (
    SELECT id FROM keys WHERE fingerprint = ? UNION
    SELECT verdicts.certificate FROM slice
    JOIN verdicts INDEXED BY trust_by_issuer
        ON verdicts.issuer = slice.id AND verdicts.issuer > 0 AND verdicts.depth > 0
    JOIN certificates ON certificates.id = verdicts.certificate)
SELECT fingerprint FROM keys WHERE id IN (SELECT id FROM slice LIMIT ?)"""
_BACKWARD = f"""
WITH RECURSIVE backward (id) AS (
    SELECT certificates.id FROM verdicts JOIN certificates ON certificates.id = verdicts.issuer
    WHERE verdicts.certificate = {_OWN} UNION
    SELECT certificates.id FROM backward
    JOIN verdicts INDEXED BY trust_by_target
        ON verdicts.certificate = backward.id AND verdicts.issuer > 0 AND verdicts.depth > 0
    JOIN certificates ON certificates.id = verdicts.issuer)
SELECT fingerprint FROM keys WHERE id IN (SELECT id FROM backward LIMIT ?)"""
_ISSUERS = f"""
SELECT DISTINCT fingerprint FROM verdicts JOIN certificates ON certificates.id = issuer JOIN keys ON keys.id = issuer
WHERE certificate = {_OWN} LIMIT ?"""
_CERTIFIED = f"""
SELECT DISTINCT fingerprint FROM verdicts JOIN keys ON keys.id = certificate WHERE issuer = {_OWN} AND issuer > 0"""
_INTRODUCERS = f"""
SELECT DISTINCT fingerprint FROM verdicts INDEXED BY trust_by_target JOIN keys ON keys.id = issuer
WHERE certificate = {_OWN} AND issuer > 0 AND depth > 0"""
_KEYS = """
SELECT fingerprint, (SELECT count(*) FROM user_ids WHERE user_ids.certificate = certificates.id),
    (SELECT count(*) FROM verdicts WHERE verdicts.certificate = certificates.id)
FROM certificates JOIN keys USING (id) ORDER BY fingerprint"""
_CERTIFICATE_OF = "SELECT fingerprint FROM verdicts JOIN keys ON keys.id = certificate WHERE number = ?"
_VERDICT = "SELECT fingerprint FROM verdicts JOIN keys ON keys.id = issuer WHERE number = ?"
_VERDICTS = "SELECT number, fingerprint FROM verdicts JOIN keys ON keys.id = issuer WHERE certificate = ?"
_UNVERIFIED = """
SELECT fingerprint FROM keys WHERE id IN (SELECT certificate FROM verdicts INDEXED BY unjudged_by_certificate
    WHERE issuer IS NULL AND certificate IS NOT NULL) ORDER BY fingerprint"""
_OCTETS = "SELECT id, octets FROM certificates JOIN keys USING (id) WHERE fingerprint = ?"
_COUNT_VERDICTS = "SELECT count(*) FROM verdicts JOIN keys ON keys.id = issuer WHERE certificate = ?"
_PLACE = "SELECT id FROM certificates JOIN keys USING (id) WHERE fingerprint = ?"
_HAS = "SELECT 1 FROM certificates JOIN keys USING (id) WHERE fingerprint = ?"
_USER_IDS = f"SELECT user_id FROM user_ids WHERE certificate = {_OWN} ORDER BY user_id"
_SIZES = "SELECT certificates, octets, signatures, verdicts FROM counts"


class QueriedParts(ABC):
    """Reads parts by statements."""

    @abstractmethod
    def _rows(self, query: str, *values: object) -> Iterator[tuple[object, ...]]:
        """The rows of a statement, as they are found; DatabaseFault where it can't be done."""

    def _all(self, query: str, *values: object) -> list[tuple[object, ...]]:
        """The rows of a statement, which are few."""
        return list(self._rows(query, *values))

    def _scan(self, query: str) -> Iterator[tuple[object, ...]]:
        """The rows of a statement, which may be many."""
        return self._rows(query)

    def _one(self, query: str, *values: object) -> int:
        value = next(self._rows(query, *values))[0]
        assert isinstance(value, int)
        return value

    def _fprs(self, query: str, *values: object) -> Iterator[bytes]:
        for (fpr,) in self._rows(query, *values):
            assert isinstance(fpr, bytes)
            yield fpr

    def sizes(self) -> Sizes:
        certificates, octets, signatures, verdicts = next(self._rows(_SIZES))
        assert isinstance(certificates, int) and isinstance(octets, int)
        assert isinstance(signatures, int) and isinstance(verdicts, int)
        return Sizes(certificates, octets, signatures, verdicts)

    def count(self) -> int:
        return self._one("SELECT certificates FROM counts")

    def part(self, fpr: bytes) -> Part | None:
        rows = self._all(_OCTETS, fpr)
        if not rows:
            return None
        place, octets = rows[0]
        assert isinstance(octets, bytes)
        return Part(fpr, octets, tuple(cast("list[tuple[bytes, bytes]]", self._all(_VERDICTS, place))))

    def has(self, fpr: bytes) -> bool:
        return next(self._rows(_HAS, fpr), None) is not None

    def count_lines(self, fpr: bytes) -> int:
        row = next(self._rows(_PLACE, fpr), None)
        return 0 if row is None else 1 + self._one(_COUNT_VERDICTS, row[0])

    def slice_of(self, roots: Collection[bytes], most: int) -> set[bytes]:
        found: set[bytes] = set()
        for root in roots:
            if root not in found and len(found) <= most:
                found.update((root, *self._fprs(_ONWARD, root, most + 1)))
        return found

    def introducers(self, fpr: bytes) -> frozenset[bytes]:
        return frozenset(self._fprs(_INTRODUCERS, fpr))

    def issuers(self, fpr: bytes, most: int) -> set[bytes]:
        return set(self._fprs(_ISSUERS, fpr, most + 1))

    def leading_to(self, fpr: bytes, most: int) -> set[bytes]:
        return set(self._fprs(_BACKWARD, fpr, most + 1))

    def certified_by(self, members: Collection[bytes]) -> list[bytes]:
        return sorted({fpr for member in members for fpr in self._fprs(_CERTIFIED, member)})

    def user_ids(self, fpr: bytes) -> list[bytes]:
        return list(self._fprs(_USER_IDS, fpr))

    def verdict(self, number: bytes) -> bytes | None:
        return next(self._fprs(_VERDICT, number), None)

    def certificate_of(self, number: bytes) -> bytes | None:
        return next(self._fprs(_CERTIFICATE_OF, number), None)

    def unverified(self) -> Iterator[bytes]:
        for (fpr,) in self._scan(_UNVERIFIED):
            assert isinstance(fpr, bytes)
            yield fpr

    def pending(self) -> int:
        return self._one("SELECT pending FROM counts")

    def keys(self) -> Iterator[tuple[bytes, int, int]]:
        for fpr, user_ids, signatures in self._scan(_KEYS):
            assert isinstance(fpr, bytes) and isinstance(user_ids, int) and isinstance(signatures, int)
            yield fpr, user_ids, signatures
