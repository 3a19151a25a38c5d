#!/usr/bin/env python3
"""The program, whose first run in the folder SLOW_FOLDER answers one line and then waits for the file `go` there, or
until the folder is gone."""

import os
import subprocess
import sys
import time
from pathlib import Path

program = os.environ.get("WOT_PROGRAM") or sys.exit(2)
folder = Path(os.environ["SLOW_FOLDER"])


def is_first():
    try:
        os.close(os.open(folder / "begun", os.O_CREAT | os.O_EXCL))
    except FileExistsError:
        return False
    return True


def main():
    child = subprocess.Popen([program, *sys.argv[1:]], stdin=subprocess.PIPE)
    held, waits = b"", is_first()
    while octets := held or os.read(0, 65536):
        held = b""
        if waits:
            first, feed, held = octets.partition(b"\n")
            octets = first + feed
        child.stdin.write(octets)
        child.stdin.flush()
        while waits and feed and folder.exists() and not (folder / "go").exists():
            time.sleep(0.01)
        waits = waits and not feed
    child.stdin.close()
    return child.wait()


sys.exit(main())
