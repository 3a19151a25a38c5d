"""How many engines a service may run: one for each processor, if it may have that many tasks."""

from __future__ import annotations

import os
from pathlib import Path

_GROUPS = Path("/sys/fs/cgroup")
# Besides engines: threads for the database, and engines for imports, long lists and the certificate directory.
_OTHER_TASKS = 16
_MOST_THREADS = 32  # Of the pool that asyncio keeps for everything else.


def most_engines() -> int:
    """As many as processors, or fewer if the limit on tasks (`TasksMax=` of systemd) leaves no room for them: the
    verifier has a thread for each processor, and so has Python's pool."""
    processors = len(os.sched_getaffinity(0))
    limit = _most_tasks()
    if limit is None:
        return processors
    return max(1, min(processors, limit - _OTHER_TASKS - min(_MOST_THREADS, processors + 4) - processors))


def _most_tasks() -> int | None:
    """The least limit on tasks of this process's control groups, of either version; None if there is none."""
    limits = []
    try:
        for line in Path("/proc/self/cgroup").read_text().splitlines():
            _, controllers, path = line.split(":", 2)
            if controllers in ("", "pids"):
                group = _GROUPS / controllers / path.lstrip("/")
                limits += [_limit_of(one) for one in (group, *group.parents) if one.is_relative_to(_GROUPS)]
    except (OSError, ValueError):
        pass
    return min((limit for limit in limits if limit is not None), default=None)


def _limit_of(group: Path) -> int | None:
    try:
        text = (group / "pids.max").read_text().strip()
    except OSError:
        return None
    return int(text) if text.isdecimal() else None
