#!/usr/bin/env python3
"""The service, which writes into the file WATCHED what held its event loop for longest: the processor's milliseconds of
one callback, and the callback; the longest last. The time of other processes and threads isn't counted."""

import asyncio.events
import os
import sys
import time
from pathlib import Path

sys.path.insert(0, str(Path(__file__).resolve().parents[3] / "python"))

from tukyamid.service.server_command import main  # noqa: E402

run = asyncio.events.Handle._run
longest = 0.0


def watched(self):
    global longest
    name, begun = repr(self), time.thread_time()
    run(self)
    took = time.thread_time() - begun
    if took > longest:
        longest = took
        with open(os.environ["WATCHED"], "a", encoding="utf-8") as file:
            file.write(f"{1000 * took:.1f} {name[:300]}\n")


asyncio.events.Handle._run = watched
sys.modules["uvloop"] = None  # Its loop can't be watched.
sys.exit(main())
