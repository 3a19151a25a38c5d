#!/usr/bin/env python3
"""Stands for the verifier. The first that is to verify something waits until another one is, and fails if none comes.
MEETING is a folder, and PATIENCE says for how many seconds it waits."""

import os
import sys
import time
from pathlib import Path

TRUSTING = Path(__file__).resolve().parents[1] / "server" / "trusting_verifier.py"


def meet(folder):
    """Waits until two have come; in vain, if the time is up."""
    (folder / str(os.getpid())).touch()
    end = time.monotonic() + float(os.environ["PATIENCE"])
    while len(list(folder.iterdir())) < 2:
        if time.monotonic() > end:
            sys.exit("no other one has come")
        time.sleep(0.01)


if "--pending" in sys.argv:
    meet(Path(os.environ["MEETING"]))
os.execv(sys.executable, [sys.executable, TRUSTING, *sys.argv[1:]])
