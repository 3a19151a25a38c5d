#!/usr/bin/env python3
"""The program. As long as the file DEATHS has a number above 0, a run takes one off, reads something and ends with
status 6, as the program does that finds too much; so it dies while it is brought to where another one stood. With
DYING=stopped it stops instead of ending."""

import os
import signal
import sys
from pathlib import Path

deaths = Path(os.environ["DEATHS"])
left = int(deaths.read_text())
if left > 0:
    deaths.write_text(str(left - 1))
    os.read(0, 65536)
    if os.environ.get("DYING") == "stopped":
        os.kill(os.getpid(), signal.SIGSTOP)
    sys.exit(6)
program = os.environ.get("WOT_PROGRAM") or sys.exit(2)
os.execv(program, [program, *sys.argv[1:]])
