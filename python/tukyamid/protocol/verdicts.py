"""Verdicts as the lines of a dump have them: who made which signature."""

import mmap
import re
from collections.abc import Iterable, Iterator

_LINE = re.compile(rb"verdict ([0-9a-f]{64}) (?:bad|good ([0-9a-f]{40}|[0-9a-f]{64}))")


class Verdicts:
    """The lines `verdict` of a dump, from `start` on. They are in the order of their numbers, and one is found by
    halving. A line that isn't well-formed is no verdict, so its signature is verified again."""

    def __init__(self, octets: "bytes | mmap.mmap" = b"", start: int = 0) -> None:
        self._octets = octets
        self._start = start

    def issuer(self, number: str) -> str | None:
        """The fingerprint that the signature of this number is good by; None if it is bad, or has no verdict."""
        low, high, sought = self._start, len(self._octets), number.encode()
        while low < high:
            begin = self._octets.rfind(b"\n", low, (low + high) // 2) + 1 or low
            end = self._octets.find(b"\n", begin)
            end = len(self._octets) if end < 0 else end
            number_found, by = _read(self._octets[begin:end]) or (b"", None)
            if number_found == sought:
                return by.decode() if by else None
            low, high = (end + 1, high) if number_found < sought else (low, begin)
        return None

    def good(self) -> Iterator[tuple[str, str]]:
        """Each number with the fingerprint that it is good by."""
        for line in bytes(self._octets[self._start:]).split(b"\n"):
            number, by = _read(line) or (b"", None)
            if by:
                yield number.decode(), by.decode()


def _read(line: bytes) -> tuple[bytes, bytes | None] | None:
    """The number, and the fingerprint by which it is good or None if it is bad. None if it isn't such a line."""
    found = _LINE.fullmatch(line)
    return (found[1], found[2]) if found else None


def verdicts_of(lines: Iterable[bytes]) -> Verdicts:
    """The verdicts of a dump's lines, which come without line feeds."""
    return Verdicts(b"".join(line + b"\n" for line in lines if line.startswith(b"verdict ")))
