"""A copy of a shared keyring as a file of SQLite's."""

import os
import tempfile
from contextlib import closing
from pathlib import Path

from ..storage.database import Actor, Snapshot
from ..storage.sqlite_database import Sqlite


def write_copy(snapshot: Snapshot, name: str, path: Path) -> None:
    """Writes certificates, verdicts and one line in the log. `name` is that of the database."""
    with tempfile.TemporaryDirectory(prefix=".tukyamid-", dir=path.parent) as folder:
        with closing(Sqlite(Path(folder) / "copy.db")) as copy:
            copy.fill(snapshot.lines(), f"backup of {name}", Actor(os.getuid(), os.getpid()))
            copy.backup(path)
