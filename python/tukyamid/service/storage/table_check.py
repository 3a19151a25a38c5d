"""Whether the tables of a database say what the octets of its certificates do."""

from collections.abc import Iterable, Iterator
from typing import Any

from .certificate_rows import describe
from .table_changes import COUNTED, Statements

EVERY_CERTIFICATE = "SELECT id, fingerprint, octets FROM certificates JOIN keys USING (id)"
_COUNTS = """SELECT (SELECT count(*) FROM certificates),
    (SELECT coalesce(sum(length(octets)), 0) FROM certificates),
    (SELECT count(*) FROM user_ids),
    (SELECT count(*) FROM verdicts WHERE certificate IS NOT NULL),
    (SELECT count(*) FROM verdicts WHERE issuer IS NOT NULL),
    (SELECT count(*) FROM verdicts WHERE certificate IS NOT NULL AND issuer IS NULL)"""


def compare(connection: Statements, certificates: Iterable[tuple[Any, ...]]) -> Iterator[str]:
    """Where the tables differ from the octets of these rows, which are those of `EVERY_CERTIFICATE`."""
    for place, fpr, octets in certificates:
        try:
            described = describe(octets)
        except (ValueError, IndexError) as error:
            yield f"the certificate {fpr.hex()} can't be read: {error}"
            continue
        if described.fpr != fpr:
            yield f"the certificate {fpr.hex()} is that of {described.fpr.hex()}"
        user_ids = connection.execute("SELECT user_id, address FROM user_ids WHERE certificate = ?", (place,))
        if {user_id: _text(address) for user_id, address in user_ids.fetchall()} != described.user_ids:
            yield f"the user IDs of {fpr.hex()} aren't those of its octets"
        subkeys = connection.execute("SELECT key_id FROM subkeys WHERE certificate = ?", (place,))
        if {bytes(key_id) for (key_id,) in subkeys.fetchall()} != described.subkeys:
            yield f"the subkeys of {fpr.hex()} aren't those of its octets"
        signatures = connection.execute("SELECT number, depth FROM verdicts WHERE certificate = ?", (place,))
        if dict(signatures.fetchall()) != described.signatures:
            yield f"the signatures of {fpr.hex()} aren't those of its octets"
    counted = connection.execute(f"SELECT {', '.join(COUNTED)} FROM counts").fetchall()
    if [tuple(map(int, row)) for row in counted] != [tuple(map(int, connection.execute(_COUNTS).fetchone()))]:
        yield "the counts aren't those of what is there"


def _text(address: object) -> object:
    """An address as text; PostgreSQL keeps its octets."""
    return address.decode() if isinstance(address, bytes) else address
