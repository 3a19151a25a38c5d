"""The certificate directory: entries by name, where a name is a fingerprint or TRUST_ROOT."""

from pathlib import Path

TRUST_ROOT = "trust-root"
LONGEST_ENTRY = 8388608


class ShelfFailed(Exception):
    """Reading or writing an entry failed, for another reason than that it isn't there."""


def place_of(name):
    """The path of an entry in the directory."""
    return TRUST_ROOT if name == TRUST_ROOT else f"{name.hex()[:2]}/{name.hex()[2:]}"


class MemoryShelf:
    """Entries in memory. The calls with the numbers in `fails`, counted from 1, fail. A failing replace with a number
    in `late` writes its octets all the same."""

    def __init__(self, entries=None, fails=(), late=()):
        self.entries = dict(entries or {})
        self.fails = set(fails)
        self.late = set(late)
        self.calls = 0

    def read(self, name):
        """The octets of an entry, or None; raises ShelfFailed."""
        self.calls += 1
        if self.calls in self.fails:
            raise ShelfFailed
        return self.entries.get(name)

    def replace(self, name, octets):
        """Replaces the entry by these octets; raises ShelfFailed."""
        self.calls += 1
        if self.calls not in self.fails or self.calls in self.late:
            self.entries[name] = octets
        if self.calls in self.fails:
            raise ShelfFailed


class FolderShelf:
    """Entries as files in a directory."""

    def __init__(self, folder):
        self.folder = Path(folder)

    def read(self, name):
        try:
            return (self.folder / place_of(name)).read_bytes()
        except FileNotFoundError:
            return None
        except OSError:
            raise ShelfFailed from None

    def replace(self, name, octets):
        try:
            write_folder(self.folder, {name: octets})
        except OSError:
            raise ShelfFailed from None


def read_folder(folder):
    """The octets of all files in a directory, by their path."""
    files = (path for path in Path(folder).rglob("*") if path.is_file())
    return {path.relative_to(folder).as_posix(): path.read_bytes() for path in files}


def write_folder(folder, entries):
    """Writes entries into a directory, as FolderShelf reads them."""
    for name, octets in entries.items():
        path = Path(folder) / place_of(name)
        path.parent.mkdir(parents=True, exist_ok=True)
        path.write_bytes(octets)
