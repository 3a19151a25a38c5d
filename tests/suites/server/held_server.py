#!/usr/bin/env python3
"""The service, whose loop is held for ever from the moment on that the file HELD is there, by what HOLDING names.

    call     a call of the system
    python   a loop in Python
"""

import asyncio.events
import os
import sys
import time
from pathlib import Path

sys.path.insert(0, str(Path(__file__).resolve().parents[3] / "python"))

from tukyamid.service.server_command import main  # noqa: E402

run = asyncio.events.Handle._run


def hold():
    while True:
        if os.environ["HOLDING"] == "call":
            time.sleep(1000)


def held(self):
    run(self)
    if os.path.exists(os.environ["HELD"]):
        Path(os.environ["HELD"] + ".begun").touch()
        hold()


asyncio.events.Handle._run = held
sys.modules["uvloop"] = None  # Its loop can't be held so.
sys.exit(main())
