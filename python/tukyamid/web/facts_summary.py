"""What certificates and verdicts say, made ready for an overview in a process of its own:
`python3 -m tukyamid.web.facts_summary TIME`, with a dump on standard input. Writes two lines of JSON: how many keys and
user IDs there are as soon as all of them have come, and at last the summary."""

from __future__ import annotations

import contextlib
import gc
import json
import os
import subprocess
import sys
from collections.abc import Iterator
from queue import Queue
from threading import Thread
from typing import Any, NamedTuple, Self

from ..own_processes import environment, words_of
from ..protocol.refusals import TukyamidError
from . import overview_tables
from .dump_facts import Facts
from .overview_tables import Table

PIECE = 1 << 20
MOST_PIECES = 512  # As many of a dump wait to be read.


class Counts(NamedTuple):
    """How many keys there are, and how many user IDs they have together."""
    keys: int
    bindings: int


class Summary(NamedTuple):
    """The keys with their user ID for people and when they were created, in groups that certify one another, and the
    tables that need nothing else."""
    names: dict[str, str]
    created: dict[str, int]
    groups: list[list[str]]
    tables: list[Table]


class FactsEnded(TukyamidError):
    """The process has ended before it had written all."""


class FactsProcess:
    """The process, seen from the one that started it. In a `with`, it is ended at the end. A thread writes to it, so
    that the dump doesn't wait for what is read of it."""

    def __init__(self, time: int) -> None:
        self._process = subprocess.Popen([*words_of("web.facts_summary"), str(time)], stdin=subprocess.PIPE,
                                         stdout=subprocess.PIPE, env=environment())
        assert self._process.stdin is not None and self._process.stdout is not None
        self._stdin, self._stdout = self._process.stdin, self._process.stdout
        self._unwritten: Queue[bytes] = Queue(MOST_PIECES)
        self._writing = Thread(target=self._write)
        self._writing.start()

    def __enter__(self) -> Self:
        return self

    def __exit__(self, *_: object) -> None:
        self.end_at_once()
        self.write(b"")
        self._writing.join()
        self._stdout.close()
        self._process.wait()

    @property
    def status(self) -> int | None:
        """None as long as it runs."""
        return self._process.poll()

    def end_at_once(self) -> None:
        self._process.kill()

    def write(self, octets: bytes) -> None:
        """Takes more of the dump; no octets mean its end."""
        self._unwritten.put(octets)

    def _write(self) -> None:
        with contextlib.suppress(BrokenPipeError), self._stdin:
            while octets := self._unwritten.get():
                self._stdin.write(octets)
            return
        while self._unwritten.get():  # The process has ended: who reads its output meets that.
            pass

    def counts(self) -> Counts:
        """To be called first, once all of the dump was written."""
        return Counts(**self._line())

    def summary(self) -> Summary:
        """To be called after `counts`."""
        return Summary(**self._line())

    def _line(self) -> dict[str, Any]:
        line = self._stdout.readline()
        if not line.endswith(b"\n"):
            raise self._ended()
        made: dict[str, Any] = json.loads(line)
        return made

    def _ended(self) -> FactsEnded:
        return FactsEnded(f"what the keys say wasn't gathered: status {self._process.wait()}")


def _read_pieces() -> Iterator[bytes]:
    while piece := sys.stdin.buffer.read(PIECE):
        yield piece


def _write(made: dict[str, Any]) -> None:
    sys.stdout.write(json.dumps(made) + "\n")
    sys.stdout.flush()


def main(words: list[str]) -> int:
    gc.disable()  # What is gathered stays to the end and has no cycles; to look for them takes half of the time.
    facts, counts = Facts(), None
    try:
        for has_certificates in facts.gather(_read_pieces()):
            if not has_certificates and counts is None:
                counts = Counts(len(facts.created), facts.bindings)
                _write(counts._asdict())
        if counts is None:
            _write(Counts(len(facts.created), facts.bindings)._asdict())
        tables = [overview_tables.ending(facts, int(words[0])), overview_tables.hashes(facts)]
        _write(Summary(facts.names, facts.created, overview_tables.groups(facts), tables)._asdict())
    except BrokenPipeError:
        os.dup2(os.open(os.devnull, os.O_WRONLY), 1)  # Nobody wants it any more.
    return 0


if __name__ == "__main__":
    sys.exit(main(sys.argv[1:]))
