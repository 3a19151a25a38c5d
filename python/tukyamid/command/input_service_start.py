"""Makes the database of a kept entry and starts a service over it, in the background, so it says nothing:
`python3 -m tukyamid.command.input_service_start ENTRY SOCKET`."""

import contextlib
import os
import subprocess
import sys
import time
from pathlib import Path

from ..client.engine import find_program
from ..client.service_client import connect
from ..own_processes import environment, words_of
from ..service.paths_and_locks import Lock, Taken, beside, is_locked
from ..service.start_on_demand import ensure
from ..service.storage.dumps import import_dump
from ..service.storage.sqlite_database import Sqlite
from .output import say

DATABASE = "keyring.db"
# A service takes some 50 MB, of which 17.5 MB are its own, and is started again in less than a second.
_IDLE_SECONDS = "60"
_MOST_SERVICES = 8
_PATIENCE = 60.0
_SECONDS_BEFORE_A_WORD = 1.0


class Begun:
    """A start that goes on if this process ends."""

    def __init__(self, process: subprocess.Popen[bytes]) -> None:
        self._process = process

    def wait(self) -> None:
        """Waits until the service answers, or can't be started; not for ever. At a terminal it says why."""
        with contextlib.suppress(subprocess.TimeoutExpired):
            try:
                self._process.wait(_SECONDS_BEFORE_A_WORD)
            except subprocess.TimeoutExpired:
                if os.isatty(2):
                    say("making the next answers about this input fast; Ctrl-C leaves that to the background")
                self._process.wait(_PATIENCE)


def begin(entry: str, socket: str) -> Begun:
    """Has this program run in the background."""
    words = [*words_of("command.input_service_start"), os.path.abspath(entry), socket]
    return Begun(subprocess.Popen(words, stdin=subprocess.DEVNULL, stdout=subprocess.DEVNULL, cwd="/",
                                  stderr=subprocess.DEVNULL, start_new_session=True, env=environment()))


def has_room(socket: str) -> bool:
    """Whether another service of an input may be started. The last one at this socket may be just ending."""
    held = set(Path(socket).parent.glob("*.socket")) - {Path(socket)}
    return sum(is_locked(beside(one, ".lock")) for one in held) < _MOST_SERVICES


def is_ready(entry: str) -> bool:
    """Whether the database of a kept entry is made."""
    return os.path.exists(os.path.join(entry, DATABASE))


def start(entry: str, socket: str) -> Path:
    """The socket of a service over a kept entry, whose database is made. It is started unless it runs."""
    database = os.path.abspath(os.path.join(entry, DATABASE))
    return ensure(Path(socket), ["--database", database, "--engines", "1", "--idle", _IDLE_SECONDS])


def main(words: list[str]) -> int:
    entry, socket = words
    with contextlib.suppress(Taken), Lock(Path(entry) / "holding.lock"):
        if not is_ready(entry):
            _make_database(Path(entry))
        _wait_until_loaded(start(entry, socket))
    return 0


def _wait_until_loaded(socket: Path) -> None:
    """A list needs all of the keyring, so it is answered once everything is loaded."""
    with connect(socket, _PATIENCE) as client:
        client.open_view("loaded", int(time.time()))
        next(iter(client.list("loaded", 1)), None)


def _make_database(entry: Path) -> None:
    """The database is written beside its place and then renamed, so that none is ever seen half made."""
    new = entry / f".new-{DATABASE}"
    for left in entry.glob(f"{new.name}*"):
        left.unlink()
    with contextlib.closing(Sqlite(new)) as database, open(entry / "dump", "rb") as dump:
        import_dump(database, dump, str(entry / "dump"), find_program())
    new.rename(entry / DATABASE)


if __name__ == "__main__":
    sys.exit(main(sys.argv[1:]))
