"""A database as a script of the engine, and back."""

from __future__ import annotations

import contextlib
import os
import sqlite3
from collections.abc import Iterator, Sequence
from contextlib import closing
from itertools import count
from pathlib import Path
from tempfile import TemporaryDirectory
from typing import TYPE_CHECKING, BinaryIO

from ..paths_and_locks import beside
from .database import Actor, Damaged, Database, DatabaseFault
from .sqlite_database import Sqlite
from .sqlite_files import LOG, SHARED_MEMORY

if TYPE_CHECKING:
    from tukyamid.client.engine import Engine

_COMMANDS = (b"import ", b"verdict ")
_SKIPPED = (b"view ", b"#", b"\n")
_ENDINGS = (LOG, SHARED_MEMORY, "-journal", "")


def lines_of(database: Database) -> Iterator[bytes]:
    """The script that makes the keyring of a database."""
    with closing(database.snapshot()) as snapshot:
        yield from snapshot.lines()


def import_dump(database: Database, script: BinaryIO, name: str, program: Sequence[str]) -> int:
    """Has an engine merge a script with what the database holds, and puts the union there; gives the number of the
    change. DatabaseFault where a line is refused; then nothing is changed."""
    from tukyamid.client.engine import Engine  # Not what the service itself begins with.
    with Engine(list(program)) as engine:
        _feed(engine, lines_of(database), f"the database {database.name}")
        _feed(engine, _checked(script, name), name)
        return database.fill(engine.dump(), f"import-dump {name}", Actor(os.getuid(), os.getpid()))


def _feed(engine: Engine, lines: Iterator[bytes], name: str) -> None:
    for refusal in engine.feed(lines):
        raise DatabaseFault(f"{name}: line {refusal.position}: {refusal}")


def _checked(script: BinaryIO, name: str) -> Iterator[bytes]:
    """The lines of a dump, each with its place; a line that changes nothing takes the place of one that isn't for the
    keyring."""
    for place, line in enumerate(script, 1):
        if line.startswith(_COMMANDS):
            yield line.removesuffix(b"\n")
        elif line.startswith(_SKIPPED):
            yield b"#"
        else:
            raise DatabaseFault(f"{name}: line {place} isn't a line of a dump")


def restore(path: Path, copy: Path) -> Path | None:
    """Puts a copy that `backup` made into the place of a database. A damaged one is set aside, and its new name given.
    DatabaseFault if there is anything else than a database of the service's."""
    with opened_copy(copy) as source:
        aside = _set_aside(path)
        with closing(Sqlite(path)) as database:
            source.copy_to(database)
    return aside


@contextlib.contextmanager
def opened_copy(copy: Path) -> Iterator[Sqlite]:
    """A whole copy, as a database of this version. The copy's own file is only read."""
    if not copy.is_file():  # A FIFO would be waited for.
        raise DatabaseFault(f"{copy}: there is no such file")
    with TemporaryDirectory(prefix="tukyamid-") as folder:
        own = Path(folder) / "copy.db"
        try:
            with closing(sqlite3.connect(f"{copy.absolute().as_uri()}?mode=ro", uri=True)) as read, \
                    closing(sqlite3.connect(own)) as written:
                read.backup(written)
                if not written.execute("SELECT count(*) FROM sqlite_schema").fetchone()[0]:
                    raise DatabaseFault(f"{copy}: nothing is in it")  # As in a file that a full disk has cut.
        except sqlite3.Error as error:
            raise DatabaseFault(f"{copy}: {error}") from None
        try:
            source = Sqlite(own, is_made=False)
        except DatabaseFault as fault:
            raise DatabaseFault(str(fault).replace(str(own), str(copy))) from None
        with closing(source):
            wrong = source.check()
            if wrong:
                raise DatabaseFault(f"{copy}: {wrong[0]}")
            yield source


def _set_aside(path: Path) -> Path | None:
    """Gives a damaged database another name, and its log with it, since what was committed last may be in the log
    alone. None if it isn't damaged, or isn't there: another program's database stays, and one of a later version."""
    try:
        if path.exists():
            Sqlite(path, is_made=False).close()
        return None
    except Damaged:
        aside = _free_name(path)
        for ending in _ENDINGS:
            with contextlib.suppress(FileNotFoundError):
                beside(path, ending).rename(beside(aside, ending))
        return aside


def _free_name(path: Path) -> Path:
    """A name for a damaged database, beside it: one that nothing has yet."""
    names = (beside(path, ".damaged" if number == 1 else f".damaged-{number}") for number in count(1))
    return next(name for name in names if not any(os.path.lexists(beside(name, ending)) for ending in _ENDINGS))
