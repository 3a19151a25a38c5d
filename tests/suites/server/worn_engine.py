#!/usr/bin/env python3
"""The program, for a while: ends with status 6 after WORN_OCTETS octets of whole lines, as the program itself does
after 2^30, and with status 5 at each line that has the word WORN_WORD, as the program does where it finds no memory."""

import os
import subprocess
import sys

most = int(os.environ.get("WORN_OCTETS", 2**30))
word = os.environ.get("WORN_WORD", "\n").encode()
program = os.environ.get("WOT_PROGRAM") or sys.exit(2)


def main():
    child = subprocess.Popen([program, *sys.argv[1:]], stdin=subprocess.PIPE)
    status, taken, held = 0, 0, b""
    while not status and (octets := os.read(0, 65536)):
        *lines, held = (held + octets).split(b"\n")
        for line in lines:
            taken += len(line) + 1
            status = 6 if taken > most else 5 if word in line else 0
            if status:
                break
            child.stdin.write(line + b"\n")
        child.stdin.flush()
    child.stdin.close()
    return child.wait() or status


sys.exit(main())
