#!/usr/bin/env python3
"""The program. As long as the file `wait` is in the folder HELD_FOLDER, a run waits before a line `load` or `store`,
and the file `waits` says so."""

import os
import subprocess
import sys
import time
from pathlib import Path

program = os.environ.get("WOT_PROGRAM") or sys.exit(2)
folder = Path(os.environ["HELD_FOLDER"])
child = subprocess.Popen([program, *sys.argv[1:]], stdin=subprocess.PIPE)
for line in sys.stdin.buffer:
    while line.startswith((b"load ", b"store ")) and (folder / "wait").exists():
        (folder / "waits").touch()
        time.sleep(0.01)
    child.stdin.write(line)
    child.stdin.flush()
child.stdin.close()
sys.exit(child.wait())
