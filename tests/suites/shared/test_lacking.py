"""A database that lacks what a service has acknowledged: the service doesn't follow it, and says what is missing."""

import contextlib
import os
import subprocess
import tempfile
import unittest
from pathlib import Path

from clusters import Cluster, needs_postgres, wait_for
from outside import PATIENCE, PROGRAM, PYTHON, SERVER, Client, needs_engine
from talking import change, dump_of, serve, status_of, told, wait_until_same
from world import World


def verdict(digit):
    return b"verdict %s bad" % (digit * 64)


def command(*words):
    done = subprocess.run([PYTHON, SERVER, *map(str, words)], capture_output=True, text=True, timeout=PATIENCE,
                          check=False, env={**os.environ, "TUKYAMID_ENGINE": PROGRAM})
    return done.returncode, done.stderr.strip()


@needs_engine
@needs_postgres
class Lacking(unittest.TestCase):
    """A primary and a copy of it that lacks the last changes, which becomes the primary: as after a failover to a
    machine that was behind, or where a former primary took the leadership back."""
    options = ()
    world = World(1, 5, depths=(0,))
    lost = [verdict(b"a"), b"drop " + world.fprs[0], verdict(b"b")]

    def setUp(self):
        self.primary = Cluster(self.addCleanup)
        self.copy = Cluster(self.addCleanup, of=self.primary, name="other")
        self.stack = contextlib.ExitStack()
        self.addCleanup(self.stack.close)
        self.state = Path(self.stack.enter_context(tempfile.TemporaryDirectory()))
        self.server = self.serve()
        change(self.server, self.world.lines())
        wait_for(lambda: self.copy.query("SELECT count(*) FROM changes") == self.primary.query(
            "SELECT count(*) FROM changes"))

    def serve(self, *clusters, state=None):
        first, *others = clusters or (self.primary, self.copy)
        return self.stack.enter_context(serve(
            first.url(*others), *self.options, environment={"XDG_STATE_HOME": str(state or self.state)}))

    def lose(self):
        """Has the copy be the primary, after changes that it doesn't have."""
        self.copy.stop()
        change(self.server, self.lost)
        self.read_behind_changes()
        self.primary.stop("immediate")
        self.copy.start()
        self.copy.promote()

    def read_behind_changes(self):
        """Waits until the service has read what it committed. A change has its reply before that, and once the database
        is gone a service in slices has only what it read after its last change."""
        with Client(self.server.path) as client:
            self.ask(client)

    def is_refusing(self):
        return b"acknowledged" in status_of(self.server)[b"state"]

    def missing(self, folder=None):
        return sorted((folder or self.state).glob("tukyamid/missing-*.wot"))

    def ask(self, client, place=2):
        """Whether a user ID belongs to its key, from a root that has certified it or not."""
        for line in (b"view p time 5000", b"view p root %s 120" % self.world.fprs[1]):
            client.tell(line)
        return client.tell(self.question(place))

    def question(self, place):
        return b"ask p %s 120 %s" % (self.world.fprs[place], self.world.user_ids[place])

    def test_changes_are_refused_and_questions_answered(self):
        with Client(self.server.path) as client:
            before = self.ask(client)
            self.lose()
            wait_for(self.is_refusing)
            self.assertEqual(client.tell(verdict(b"c")), b"fault database")
            self.assertEqual(self.ask(client), before)
        state = status_of(self.server)[b"state"].decode()
        path, = self.missing()
        self.assertIn(f"lacks {len(self.lost)} changes", state)
        self.assertIn(str(path), state)
        self.assertIn(str(path), self.server.said())
        self.assertEqual([line for line in path.read_bytes().splitlines() if not line.startswith(b"#")], self.lost)
        self.assertEqual(self.copy.query("SELECT max(number) FROM changes"), [(len(self.world.lines()),)])

    def test_numbers_that_are_used_again(self):
        """Another service has made as many changes there: only the marks differ."""
        self.lose()
        wait_for(self.is_refusing)
        other = self.serve(self.copy, state=self.state / "other")
        change(other, [verdict(digit) for digit in (b"d", b"e", b"f", b"1")])
        with Client(self.server.path) as client:
            self.assertEqual(client.tell(verdict(b"c")), b"fault database")
        self.assertTrue(self.is_refusing())

    def test_what_is_missing_is_handed_in(self):
        self.lose()
        wait_for(self.is_refusing)
        other = self.serve(self.copy, state=self.state / "other")
        change(other, [verdict(b"d")])
        words = "hand-in", "--database", self.copy.url(), *self.missing()
        self.assertEqual(command(*words), (0, "tukyamid-server: 3 changes made again; 0 there already"))
        self.assertEqual(command(*words), (0, "tukyamid-server: 0 changes made again; 3 there already"))
        wait_until_same([self.server, other])
        change(self.server, [verdict(b"e")])
        wait_until_same([self.server, other])
        expected = told([*self.world.lines(), verdict(b"d"), *self.lost, verdict(b"e")])
        self.assertEqual([dump_of(server) for server in (self.server, other)], [expected, expected])
        self.assertIn("changes are accepted again", self.server.said())

    def test_what_is_missing_is_given_up(self):
        self.lose()
        wait_for(self.is_refusing)
        self.assertEqual(command("hand-in", "--discard", "--database", self.copy.url(), *self.missing())[0], 0)
        wait_until_same([self.server])
        self.assertEqual(dump_of(self.server), told(self.world.lines()))

    def test_the_service_was_killed_meanwhile(self):
        """It doesn't begin over such a database, and begins once its changes were handed in."""
        self.lose()
        self.server.process.kill()
        self.server.process.wait()
        with self.assertRaisesRegex(AssertionError, "lacks 3 changes that this service has acknowledged"):
            self.serve()
        self.assertEqual(command("hand-in", "--database", self.copy.url(), *self.missing())[0], 0)
        self.assertEqual(dump_of(self.serve()), told([*self.world.lines(), *self.lost]))

    def test_the_other_primary_is_found(self):
        """Two servers take changes, and the one that is named first lacks some."""
        self.lose()
        self.primary.start()
        self.server.process.kill()
        self.server.process.wait()
        server = self.serve(self.copy, self.primary)
        self.assertEqual(dump_of(server), told([*self.world.lines(), *self.lost]))
        change(server, [verdict(b"c")])
        self.assertEqual(self.primary.query("SELECT max(number) FROM changes"),
                         [(len(self.world.lines()) + len(self.lost) + 1,)])

    def test_an_empty_database(self):
        """The same name, on a server that was set up again."""
        self.primary.stop()
        self.copy.stop()
        anew = Cluster(self.addCleanup)
        for one in (self.primary, self.copy):
            one.kill()
        anew.stop()
        anew.set(f"port = {self.primary.port}")
        anew.start()
        wait_for(self.is_refusing)
        self.assertEqual(len(self.missing()), 1)


class SlicedLacking(Lacking):
    """The same where no engine may hold the keyring whole."""
    options = ("--budget", "3")
    test_an_empty_database = test_the_other_primary_is_found = test_what_is_missing_is_given_up = None
