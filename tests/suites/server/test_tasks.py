"""A service that may have few tasks, by a control group as systemd makes one for `TasksMax=`."""

import contextlib
import os
import threading
import unittest
from pathlib import Path

from outside import Client, Server, alone, needs_engine
from world import World

GROUPS = (Path("/sys/fs/cgroup/pids"), Path("/sys/fs/cgroup"))
PROCESSORS = len(os.sched_getaffinity(0))
# Room for the service, its helpers, a thread of the verifier and one of Python for each processor, and one engine.
MOST_TASKS = 16 + min(32, PROCESSORS + 4) + PROCESSORS + 1


def made_group():
    """A new control group that can limit tasks; None if there can't be one here."""
    for folder in GROUPS:
        group = folder / f"tukyamid-{os.getpid()}"
        with contextlib.suppress(OSError):
            group.mkdir()
            if (group / "pids.max").exists():
                return group
            group.rmdir()
    return None


@needs_engine
class Tasks(unittest.TestCase):
    def setUp(self):
        self.group = made_group()
        if self.group is None:
            self.skipTest("control groups that limit tasks need root")
        self.addCleanup(self.group.rmdir)
        (self.group / "pids.max").write_text(str(MOST_TASKS))
        self.world = World(count=12)

    def enter(self, group):
        (group / "cgroup.procs").write_text(str(os.getpid()))

    def test_many_clients_and_few_tasks(self):
        """One engine instead of one for each processor, and each client gets its replies."""
        self.enter(self.group)
        try:
            server = Server()
        finally:
            self.enter(self.group.parent)
        lines = self.world.lines()
        with server:
            with Client(server.path) as client:
                client.send(*lines)
                client.end()
            heard, questions = {}, [b"keys"] * 2000

            def talk(name):
                with Client(server.path) as client:
                    client.send(*questions)
                    heard[name] = client.end()

            talkers = [threading.Thread(target=talk, args=(name,)) for name in range(8)]
            for talker in talkers:
                talker.start()
            engines = 0
            while any(talker.is_alive() for talker in talkers):
                engines = max(engines, len(server.engines()))
            for talker in talkers:
                talker.join()
            self.assertEqual(engines, 1)
            expected = b"".join(alone([*lines, *questions])[-len(questions):])
            self.assertEqual(list(heard.values()), [expected] * 8)
