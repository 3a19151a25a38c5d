"""How far the files of a large keyring are loaded: so a load goes on where it was interrupted."""

from dataclasses import dataclass


@dataclass(frozen=True)
class Loaded:
    """Of a file of a keyring, by its path within the keyring's folder or empty: how many octets are taken in, of how
    many, and their digest; the certificates that these brought; and what was left out. `stamp` is what changes whenever
    the file does."""
    file: bytes
    stamp: str
    octets: int
    size: int
    digest: bytes
    certificates: int = 0
    fault: str = ""

    @property
    def is_whole(self) -> bool:
        return self.octets == self.size
