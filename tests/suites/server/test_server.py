"""The service's sockets, its words, its end and its documents."""

import os
import re
import shutil
import signal
import socket
import subprocess
import tempfile
import time
import unittest
from contextlib import closing
from pathlib import Path

from outside import PATIENCE, PROGRAM, PYTHON, ROOT, SERVER, Client, Server, alone, needs_engine, script_of
from tukyamid.service.engines.framing import LineCutter, ReplyCutter
from tukyamid.service.server_command import COMMANDS
from tukyamid.service.sessions.views import ViewBudget, Views
from tukyamid.service.storage.sqlite_database import Sqlite
from world import World

UNITS = ROOT / "packaging" / "systemd"
HEX = b"00" * 20


class Cutting(unittest.TestCase):
    def test_lines_in_pieces_of_any_size(self):
        octets = b"one\n\n#two\r\nthree and more\nfour"
        for size in range(1, len(octets) + 1):
            cutter = LineCutter(9)
            lines = [line for at in range(0, len(octets), size) for line in cutter.cut(octets[at:at + size])]
            self.assertEqual(lines, [b"one", b"", b"#two\r", None])

    def test_replies_in_pieces_of_any_size(self):
        step = b"step %s %s 0 120 paths 7 keys 9\n" % (HEX, HEX)
        path = b"path 60 steps %d root " + HEX + b"\n"
        replies = [b"ok\n", b"ok taken 1 skipped 0 new 2\n", b"amount 0 paths 0\n", b"refused kind 9 18\n", b"keys 0\n",
                   b"amount 120 paths 2\n" + path % 1 + step + path % 3 + 3 * step, b"export \n",
                   b"keys 2\n" + 2 * (b"key %s 1 2\n" % HEX), b"dump 1\nimport \n", b"list 1\nbind 120 %s \n" % HEX,
                   b"pending 1\nsig %s %s -\n" % (HEX, HEX), b"explain ok 1\ncert %s edge %s 0 120\n" % (HEX, HEX),
                   b"absence missed 60\nclaim 60/%s.0 %s=1\n" % (HEX, HEX), b"absence reached 60\n",
                   b"checked yes 60\n"]
        octets = b"".join(replies)
        for size in (1, 2, 3, 7, 50, len(octets)):
            cutter = ReplyCutter()
            told = [reply for at in range(0, len(octets), size) for reply in cutter.cut(octets[at:at + size])]
            self.assertEqual(told, replies)

    def test_views_that_share_room(self):
        """Each view and each root takes the place of one, until it is closed or the client goes."""
        budget = ViewBudget(4)
        one, other = Views(), Views()
        one.budget = other.budget = budget
        a, b = (b"%040x" % number for number in (1, 2))
        told = [views.take(line) for views, line in (
            (one, b"view x time 5"), (one, b"view x root " + a + b" 9"), (one, b"view x root " + a + b" 8"),
            (other, b"view x time 5"), (other, b"view x root " + a + b" 9"), (other, b"view x root " + b + b" 9"),
            (other, b"view y time 5"), (other, b"view x time 6"), (one, b"view x root " + a + b" 0"),
            (other, b"view y time 5"), (one, b"view x close"), (one, b"view x close"), (other, b"view z time 5"))]
        self.assertEqual(told, [b"ok\n"] * 5 + [b"refused full roots\n", b"refused full views\n"] + [b"ok\n"] * 4
                         + [b"refused view\n", b"ok\n"])
        other.close()
        self.assertEqual((budget.left, list(other.lines())), (4, []))

    def test_views(self):
        views = Views()
        a, b = b"a" * 40, b"b" * 64
        told = [views.take(line) for line in (
            b"view b time 7", b"view b root " + b.upper() + b" 120", b"view b root " + a + b" 60", b"view a time 5",
            b"view a root " + b + b" 1", b"view a time 6", b"view c time 1", b"view c close",
            b"view b root " + b + b" 0", b"view b root " + b + b" 119")]
        self.assertEqual(told, [b"ok\n"] * 10)
        self.assertEqual(list(views.lines()), [b"view a time 6", b"view a root " + b + b" 1", b"view b time 7",
                                               b"view b root " + a + b" 60", b"view b root " + b + b" 119"])


@needs_engine
class TheEnd(unittest.TestCase):
    def setUp(self):
        self.world = World()
        self.folder = Path(tempfile.mkdtemp(prefix="tukyamid-server-"))
        self.addCleanup(shutil.rmtree, self.folder)

    def test_lines_that_were_taken_are_answered_and_kept(self):
        with Server(folder=self.folder) as server, Client(server.path) as client:
            self.assertEqual(client.tell(b"keys"), b"keys 0")
            client.send(*self.world.lines())
            client.read_line()
            server.process.send_signal(signal.SIGTERM)
            replies = client.rest().count(b"\n") + 1
            self.assertEqual(server.process.wait(PATIENCE), 0)
            taken = [line for _, line in server.order()][1:]
            self.assertEqual(len(taken), replies)
            with closing(Sqlite(server.database)) as database:
                self.assertEqual(script_of(database), alone([*taken, b"dump"])[-1].partition(b"\n")[2])
        self.assertEqual(server.database.stat().st_mode & 0o777, 0o600)

    def test_nobody_comes(self):
        """The service ends by itself; whoever comes in time keeps it."""
        with Server("--idle", "1", folder=self.folder) as server:
            with Client(server.path) as client:
                time.sleep(2)
                self.assertEqual(client.tell(b"keys"), b"keys 0")
            self.assertEqual(server.process.wait(PATIENCE), 0)
            self.assertFalse(server.path.exists())


@needs_engine
class Words(unittest.TestCase):
    def setUp(self):
        self.folder = Path(tempfile.mkdtemp(prefix="tukyamid-server-"))
        self.addCleanup(shutil.rmtree, self.folder)

    def run_server(self, *words, **options):
        done = subprocess.run([PYTHON, SERVER, *words], capture_output=True, text=True, timeout=PATIENCE,
                              check=False, cwd=self.folder, **options)
        return done.returncode, done.stderr

    def test_statuses(self):
        for words in ([], ["--engines", "0", "--socket", "s"], ["--patience", "-1", "--socket", "s"], ["more"],
                      ["--mode", "10000", "--socket", "s"], ["--mode", "-1", "--socket", "s"], ["backup"]):
            self.assertEqual(self.run_server(*words)[0], 2, words)
        (self.folder / "text").write_bytes(b"no database" * 100)
        for words in (["--engine", "./missing"], ["--engine", "/bin/false"],
                      ["--engine", PROGRAM, "--database", "text"], ["--engine", PROGRAM, "--database", "."]):
            status, said = self.run_server("--database", "k.db", "--socket", "s", *words)
            self.assertEqual(status, 1, words)
            self.assertTrue(said.startswith("tukyamid-server: "), said)
            self.assertNotIn("Traceback", said)
            self.assertFalse((self.folder / "s").exists())
        self.assertEqual((self.folder / "text").read_bytes(), b"no database" * 100)

    def test_words_that_steer_a_terminal(self):
        for words in (["--x\x1b[2J\n\u202e"], ["check", "x\x1b[2J\n\u202e"], ["serve", "--idle", "x\x1b[2J\n\u202e"],
                      ["check", "--database", "x\x1b[2J\n\u202e"]):
            _, said = self.run_server(*words)
            self.assertIn("x\\x1b[2J", said)
            self.assertNotRegex(said, "[\x1b\u202e]")

    def test_a_socket_or_a_database_that_is_served_already(self):
        with Server() as server:
            self.assertEqual(server.path.stat().st_mode & 0o777, 0o600)
            for place, words in (("socket", ["--socket", server.path, "--database", "other.db"]),
                                 ("keyring.db", ["--socket", "s", "--database", server.database])):
                status, said = self.run_server(*words, "--engine", PROGRAM)
                self.assertEqual((status, place in said), (1, True), said)
                with Client(server.path) as client:
                    self.assertEqual(client.tell(b"keys"), b"keys 0")

    def test_a_socket_that_is_left_over(self):
        with socket.socket(socket.AF_UNIX) as left:
            left.bind(str(self.folder / "socket"))
        with Server("--mode", "660", folder=self.folder) as server, Client(server.path) as client:
            self.assertEqual(client.tell(b"keys"), b"keys 0")
            self.assertEqual(server.path.stat().st_mode & 0o777, 0o660)

    def test_a_socket_that_has_taken_the_place(self):
        """It is another's, and stays."""
        with Server(folder=self.folder) as server:
            server.path.unlink()
            with socket.socket(socket.AF_UNIX) as other:
                other.bind(str(server.path))
            self.assertEqual(server.stop(), 0)
            self.assertTrue(server.path.exists())


class Documents(unittest.TestCase):
    @unittest.skipUnless(shutil.which("groff"), "groff isn't installed")
    def test_the_man_page_has_every_option_and_command(self):
        page = ROOT / "python" / "tukyamid-server.1"
        done = subprocess.run(["groff", "-man", "-Tutf8", "-ww", page], capture_output=True, text=True, check=True)
        self.assertEqual(done.stderr, "")
        source = page.read_text().replace("\\-", "-")
        words = set(COMMANDS)
        for command in COMMANDS:
            told = subprocess.run([PYTHON, SERVER, command, "--help"], capture_output=True, text=True, check=True)
            words |= set(re.findall("--[a-z-]+", told.stdout))
        self.assertGreater(len(words), 15)
        for word in words:
            self.assertIn(word, source)

    @unittest.skipUnless(shutil.which("systemd-analyze"), "systemd-analyze isn't installed")
    def test_the_units(self):
        for user, folder_of_units in (("--user", UNITS / "user"), ("--system", UNITS / "system")):
            with self.subTest(user), tempfile.TemporaryDirectory() as folder:
                units = []
                for unit in sorted(folder_of_units.iterdir()):
                    units.append(Path(folder) / unit.name)
                    text = unit.read_text().replace("/usr/bin/tukyamid-server", str(SERVER))
                    units[-1].write_text(text.replace("/usr/bin/tukyamid ", f"{SERVER.with_name('tukyamid')} "))
                self.assertGreater(len(units), 1)
                done = subprocess.run(["systemd-analyze", "verify", user, "--man=no", *units], capture_output=True,
                                      text=True, check=False, env={**os.environ, "XDG_RUNTIME_DIR": folder})
                told = [line for line in done.stderr.splitlines() if "tukyamid" in line]
                self.assertEqual(told, [])
