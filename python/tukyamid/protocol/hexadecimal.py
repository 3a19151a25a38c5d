"""Octets in hexadecimal digits, as replies have them."""

from __future__ import annotations

from .refusals import ProtocolError


def read_octets(digits: str) -> bytes:
    """The octets; ProtocolError for anything but pairs of lower-case digits. A certificate may have megabytes, and a
    regular expression would take ten times as long."""
    try:
        octets = bytes.fromhex(digits)
    except ValueError:
        octets = b""
    if 2 * len(octets) != len(digits) or digits.lower() != digits:
        raise ProtocolError(f"these aren't octets in hexadecimal digits: {digits[:200]!r}")
    return octets
