"""Copies of the repository's crates, so that several crates are proved at a time.

The toolchain locks the folder of each crate that a proof reads, so two proofs over a common crate can't run in one
copy. A lane takes the libraries below a crate from the checkout, proves the crate, and gives the checkout what it made.
Files are linked where the disk allows it, so that a lane takes little room.
"""

import fcntl
import os
import shutil
import tempfile
from collections.abc import Iterator
from contextlib import contextmanager
from pathlib import Path
from queue import SimpleQueue

from .listed import LIST

# What the toolchain keeps of a crate: its library, and what speeds up the next proof.
LIBRARY, KEPT = "out/rlib", "out/incremental"


@contextmanager
def locked(crate: Path) -> Iterator[None]:
    """Waits until no toolchain works in a crate's folder, and keeps others out meanwhile."""
    folder = os.open(crate, os.O_RDONLY)
    try:
        fcntl.flock(folder, fcntl.LOCK_EX)
        yield
    finally:
        os.close(folder)


def linked(source: str, target: str) -> None:
    """Gives a file a second name, or copies it to another disk."""
    try:
        os.link(source, target)
    except OSError:
        shutil.copy2(source, target)


def share(part: str, source: Path, target: Path) -> None:
    """Puts a part of a crate's folder, if it is there, in place of the other crate's."""
    if not (source / part).is_dir():
        return
    target.joinpath("out").mkdir(exist_ok=True)
    with tempfile.TemporaryDirectory(prefix="wot-share-", dir=target / "out") as room:
        shutil.copytree(source / part, Path(room) / "part", copy_function=linked)
        shutil.rmtree(target / part, ignore_errors=True)
        (Path(room) / "part").rename(target / part)


class Lane:
    """A copy of the crates, in which one is proved at a time."""

    def __init__(self, root: Path, top: Path) -> None:
        self.root, self.top = root, top
        shutil.copytree(root / "crates", top / "crates", ignore=shutil.ignore_patterns("out"))
        shutil.copy2(root / LIST, top)

    def begin(self, name: str, below: list[str]) -> Path:
        """Takes the libraries below a crate that aren't here yet, and what was kept of the crate; gives its folder."""
        for each in below:
            if not self.crate(each).joinpath(LIBRARY).is_dir():
                with locked(self.root / "crates" / each):
                    share(LIBRARY, self.root / "crates" / each, self.crate(each))
        with locked(self.root / "crates" / name):
            share(KEPT, self.root / "crates" / name, self.crate(name))
        return self.crate(name)

    def end(self, name: str) -> None:
        """Gives the checkout what the proof of a crate made."""
        with locked(self.root / "crates" / name):
            for part in (KEPT, LIBRARY):
                share(part, self.crate(name), self.root / "crates" / name)

    def crate(self, name: str) -> Path:
        return self.top / "crates" / name


@contextmanager
def room_beside(root: Path) -> Iterator[Path]:
    """A folder that goes in the end. It is in the checkout's folder for git, if it has one, and so on the same disk."""
    inside = root / ".git"
    with tempfile.TemporaryDirectory(prefix="wot-room-", dir=inside if inside.is_dir() else None) as room:
        yield Path(room)


@contextmanager
def lanes(root: Path, count: int) -> Iterator["SimpleQueue[Lane]"]:
    """As many lanes, which go in the end."""
    with room_beside(root) as room:
        free: SimpleQueue[Lane] = SimpleQueue()
        for number in range(count):
            free.put(Lane(root, room / str(number)))
        yield free
