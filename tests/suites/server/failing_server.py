#!/usr/bin/env python3
"""The service with faults that nobody expects: each line of the file FAULTS, while that exists, names one.

    change TEXT     the database can't make a change whose words in the log have this text
    snapshot        what was kept can't be read
    room            there is no room for a temporary file
    slow            reading which keyrings are watched takes longer than the time between two looks for clients
"""

import errno
import os
import sys
import tempfile
import time
from pathlib import Path

sys.path.insert(0, str(Path(__file__).resolve().parents[3] / "python"))

from tukyamid.service.server_command import main  # noqa: E402
from tukyamid.service.storage import sqlite_reads, table_changes  # noqa: E402


def faults(word):
    """What stands behind this word in the file's lines."""
    try:
        lines = Path(os.environ["FAULTS"]).read_text().splitlines()
    except FileNotFoundError:
        return []
    return [line.partition(" ")[2] for line in lines if line.split(" ")[0] == word]


def failing(call, is_meant):
    def instead(self, *words):
        if is_meant(*words):
            raise RuntimeError("a planted fault")
        return call(self, *words)
    return instead


table_changes.Writing.make = failing(table_changes.Writing.make,
                                     lambda change, now: any(text in change.what for text in faults("change")))
sqlite_reads.SqliteSnapshot.certificates = failing(sqlite_reads.SqliteSnapshot.certificates,
                                                   lambda: bool(faults("snapshot")))


def slow(call):
    def instead(self):
        if faults("slow"):
            time.sleep(1.5)
        return call(self)
    return instead


sqlite_reads.SqliteFinder.sources = slow(sqlite_reads.SqliteFinder.sources)


def in_a_room(make):
    def instead(*words, **named):
        if faults("room"):
            raise OSError(errno.ENOSPC, os.strerror(errno.ENOSPC))
        return make(*words, **named)
    return instead


tempfile.NamedTemporaryFile = in_a_room(tempfile.NamedTemporaryFile)
sys.exit(main())
