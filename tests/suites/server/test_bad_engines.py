"""Engines that stop, that die while they are fed, or that can't be started: lines are answered late, and no client is
blamed for what it didn't do."""

import os
import shutil
import signal
import tempfile
import time
import unittest
from pathlib import Path

from outside import HERE, PROGRAM, WORN_ENGINE, Client, Server, alone, needs_engine
from world import World

BOUND = 60  # Seconds; a machine may be slow.
CLIENTS = 5


class Bad(unittest.TestCase):
    def setUp(self):
        self.folder = Path(tempfile.mkdtemp(prefix="tukyamid-bad-engines-"))
        self.addCleanup(shutil.rmtree, self.folder)
        self.world = World(count=12, depths=(0,))  # Nobody is an introducer, so slices are small.

    def begin(self, *options, **named):
        self.server = self.enterContext(Server(*options, folder=self.folder, **named))
        self.client = self.enterContext(Client(self.server.path))
        self.client.send(*self.world.lines(), b"view p time 5000", b"view p root %s 120" % self.world.fprs[0])
        for _ in range(len(self.world.lines()) + 2):
            self.assertTrue(self.client.read_line().startswith(b"ok"))

    def ask(self, place=1):
        return b"ask p %s 120 %s" % (self.world.fprs[place], self.world.user_ids[place])

    def told(self, line):
        return alone([*self.world.lines(), b"view p time 5000", b"view p root %s 120" % self.world.fprs[0],
                      line])[-1].splitlines()

    def answers(self, client, line, *expected):
        """A line is answered in time, as expected."""
        client.socket.settimeout(BOUND)
        client.send(line)
        for one in expected:
            self.assertEqual(client.read_line(), one)


@needs_engine
class Stopped(Bad):
    """Another engine takes the place of one that was stopped, as of one that died."""

    def stop_all(self):
        pids = self.server.engines()
        for pid in pids:
            os.kill(pid, signal.SIGSTOP)
        self.addCleanup(lambda: [os.kill(pid, signal.SIGKILL) for pid in pids if Path(f"/proc/{pid}").exists()])
        return pids

    def test_engines_that_hold_everything(self):
        self.begin("--engines", "2")
        with Client(self.server.path) as other:  # Its cursors are more than one engine has.
            self.answers(other, b"view q time 5000", b"ok")
            for place in range(16):
                self.answers(other, b"cursor c%d over q 120" % place, b"ok")
            self.answers(self.client, b"cursor d over p 120", b"ok")
            self.assertEqual(len(self.server.engines()), 2)
            for line, expected in ((b"verdict %064x bad" % 1, [b"ok"]), (self.ask(), self.told(self.ask())),
                                   (b"drop " + self.world.fprs[5], [b"ok"])):
                stopped = self.stop_all()
                self.answers(self.client, line, *expected)
                self.server.wait_for(lambda: not set(stopped) & set(self.server.engines()))
        self.assertEqual(self.server.stop(), 0)
        self.assertIn("stopped", self.server.said())

    def test_while_it_is_fed(self):
        deaths = self.folder / "deaths"
        deaths.write_text("0")
        self.begin("--engines", "1", engine=HERE / "dying_engine.py",
                   environment={"DEATHS": str(deaths), "DYING": "stopped"})
        deaths.write_text("1")
        os.kill(self.server.engines()[0], signal.SIGKILL)
        self.answers(self.client, self.ask(), *self.told(self.ask()))
        self.assertEqual(deaths.read_text(), "0")

    def test_engines_of_slices(self):
        self.begin("--budget", "5")
        for line, expected in ((self.ask(), self.told(self.ask())), (self.world.imports[7], None)):
            self.stop_all()
            self.answers(self.client, line, *expected or [b"ok taken 1 skipped 0 new 0"])

    def test_the_engine_of_the_directory(self):
        self.begin()
        self.assertTrue(self.client.tell(b"store " + self.world.fprs[0]).startswith(b"ok stored "))
        self.stop_all()
        self.answers(self.client, b"load " + self.world.fprs[0], b"ok taken 1 skipped 0 new 0")


@needs_engine
class Innocent(Bad):
    def wait_together(self, begin, end):
        """Clients send a question each while there is no engine, which `begin` sees to until `end`: all are
        answered."""
        clients = [self.enterContext(Client(self.server.path)) for _ in range(CLIENTS)]
        for client in clients:
            client.send(b"view p time 5000", b"view p root %s 120" % self.world.fprs[0])
        begin()
        for pid in self.server.engines():
            os.kill(pid, signal.SIGKILL)
        for client in clients:
            client.send(self.ask())
        time.sleep(2)
        end()
        for client in clients:
            client.socket.settimeout(BOUND)
            self.assertEqual([client.read_line() for _ in range(2)], [b"ok"] * 2)
            for line in self.told(self.ask()):
                self.assertEqual(client.read_line(), line)

    def check_deaths(self, *options):
        deaths = self.folder / "deaths"
        deaths.write_text("0")
        self.begin(*options, engine=HERE / "dying_engine.py", environment={"DEATHS": str(deaths)})
        self.wait_together(lambda: deaths.write_text("7"), lambda: None)
        self.server.wait_for(lambda: deaths.read_text() == "0")

    def check_missing(self, *options):
        """The program is taken away, as while a package is unpacked."""
        program = self.folder / "engine"
        program.symlink_to(PROGRAM)
        self.begin(*options, engine=program)
        self.wait_together(lambda: program.rename(self.folder / "away"),
                           lambda: (self.folder / "away").rename(program))

    def test_engines_die_while_they_are_fed(self):
        self.check_deaths("--engines", "1")

    def test_engines_of_slices_die(self):
        self.check_deaths("--budget", "5")

    def test_the_program_is_missing(self):
        self.check_missing("--engines", "1")

    def test_the_program_of_slices_is_missing(self):
        self.check_missing("--budget", "5")

    def check_beside_a_fatal_line(self, fatal, *options):
        """Lines of others are in the engine, and in its pipe, when it dies of one."""
        self.begin("--engines", "1", engine=WORN_ENGINE, environment={"WORN_WORD": "fa7a1fa7a1"})
        clients = [self.enterContext(Client(self.server.path)) for _ in range(CLIENTS)]
        view = b"view p time 5000", b"view p root %s 120" % self.world.fprs[0]
        for place, client in enumerate(clients):
            lines = [self.ask(), fatal] if place == CLIENTS // 2 else [self.ask()] * 20
            client.send(*view, *lines, b"verdict %064x bad" % place, self.ask())
        for place, client in enumerate(clients):
            client.socket.settimeout(BOUND)
            if place == CLIENTS // 2:
                with self.assertRaises(ConnectionError):
                    while True:
                        client.read_line()
                continue
            expected = [b"ok"] * 2 + self.told(self.ask()) * 20 + [b"ok"] + self.told(self.ask())
            self.assertEqual([client.read_line() for _ in expected], expected)

    def test_beside_a_question_that_kills(self):
        self.check_beside_a_fatal_line(b"ask p %s 120 fa7a1fa7a1" % self.world.fprs[0])

    def test_beside_a_change_that_kills(self):
        self.check_beside_a_fatal_line(b"import fa7a1fa7a1")

    def test_the_program_stays_away(self):
        """Everything that waits is answered after half a minute, and all goes on when the program is back."""
        program = self.folder / "engine"
        program.symlink_to(PROGRAM)
        self.begin("--engines", "1", engine=program)
        program.rename(self.folder / "away")
        os.kill(self.server.engines()[0], signal.SIGKILL)
        self.client.socket.settimeout(90)
        fault = b"fault engine"
        self.client.send(self.ask(), b"verdict %064x bad" % 1, b"keys", b"verdict %064x bad" % 2)
        self.assertEqual([self.client.read_line() for _ in range(4)], [fault] * 4)
        (self.folder / "away").rename(program)
        self.answers(self.client, b"verdict %064x bad" % 3, b"ok")
        self.answers(self.client, self.ask(), *self.told(self.ask()))
        self.client.send(b"dump")
        self.assertEqual(self.client.end().count(b"00000000 bad"), 0)
