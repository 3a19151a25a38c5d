#!/usr/bin/env python3
"""The program, which ends with status 6 once it is handed several questions at once."""

import os
import subprocess
import sys

program = os.environ.get("WOT_PROGRAM") or sys.exit(2)
with subprocess.Popen([program, *sys.argv[1:]], stdin=subprocess.PIPE) as started:
    while octets := os.read(0, 1 << 20):
        if octets.count(b"\nask ") + octets.startswith(b"ask ") > 1:
            started.kill()
            sys.exit(6)
        started.stdin.write(octets)
        started.stdin.flush()
    started.stdin.close()
