"""Long replies that come from the database, in pieces as the client reads them."""

from binascii import hexlify

from ..engines.program_run import pieces
from ..storage.database import Snapshot
from ..storage.partial_reads import Parts
from .outbox import Generated


def dump_of(snapshot: Snapshot, views: list[bytes]) -> Generated:
    """The reply to `dump`: the keyring, and the client's views."""
    try:
        yield b""
        yield b"dump %d\n" % (snapshot.count() + len(views))
        yield from pieces(snapshot.lines())
        yield b"".join(line + b"\n" for line in views)
    finally:
        snapshot.close()


def keys_of(parts: Parts) -> Generated:
    """The reply to `keys`."""
    try:
        yield b""
        yield b"keys %d\n" % parts.count()
        yield from pieces(b"key %s %d %d" % (hexlify(fpr), user_ids, signatures)
                          for fpr, user_ids, signatures in parts.keys())
    finally:
        parts.close()
