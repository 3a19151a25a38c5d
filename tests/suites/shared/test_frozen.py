"""A service that is stopped, in its turn or not, holds the others up for two seconds at most."""

import contextlib
import os
import signal
import time
from concurrent.futures import ThreadPoolExecutor

from alone_cluster import OneServer
from outside import Client
from relay import Relay
from talking import Writer, check_kept, status_of, wait_until_same
from tukyamid.service.storage.database import Actor, Change, DatabaseFault, PutCertificate, SetVerdict

LONGEST = 2.0 + 1.0  # Seconds: a turn's bound, and some for a busy machine.
LONGEST_WAIT = 15.0  # For three changes of others, however busy the machine is.
LONGEST_HELD = 8.0  # For eight turns at once, however busy it is. After 10 a lock that nobody gives back is given up.


class Frozen(OneServer):
    @classmethod
    def setUpClass(cls):
        super().setUpClass()
        cls.cluster.set("log_line_prefix = '%n '")  # The time in seconds.
        cls.cluster.reload()

    def ends_of_turns(self):
        """When the database ended turns, by its own log."""
        lines = (self.cluster.folder / "log").read_text().splitlines()
        return [float(line.split(" ")[0]) for line in lines if "idle-in-transaction timeout" in line]

    def test_one_is_stopped_under_load(self):
        """At moments of its own choosing: in some of them it has its turn. The database itself says when it ended that:
        how long others wait depends on the machine too."""
        frozen, other = self.serve(), self.serve()
        busy = [Writer(frozen, f"busy {place}", ahead=8) for place in range(2)]
        steady = Writer(other, "steady")
        for writer in (*busy, steady):
            self.addCleanup(writer.end)
            writer.start()
        waits, turns = [], []
        for attempt in range(6):
            steady.wait_for(5)
            time.sleep(0.05 * attempt)
            os.kill(frozen.process.pid, signal.SIGSTOP)
            begun, count, before = time.time(), len(steady.kept), len(self.ends_of_turns())
            try:
                while len(steady.kept) < count + 3 and time.time() < begun + LONGEST_WAIT:
                    time.sleep(0.01)
                waits.append(time.time() - begun)
                turns += [end - begun for end in self.ends_of_turns()[before:]]
            finally:
                os.kill(frozen.process.pid, signal.SIGCONT)
        print(f"the others waited for up to {max(waits):.2f} seconds, and turns were ended after "
              f"{', '.join(f'{turn:.2f}' for turn in turns) or 'none'} ... ", end="", flush=True)
        self.assertLess(max(turns, default=0), LONGEST)
        self.assertLess(max(waits), LONGEST_WAIT)
        for writer in (*busy, steady):
            writer.wait_for(1)
            writer.end()
        check_kept(self, (*busy, steady), [frozen, other])

    def test_one_is_stopped_in_its_turn(self):
        """Its engine is stopped first, so that the turn has certainly begun."""
        frozen, other = self.serve(), self.serve()
        engine, = frozen.engines()
        wait_until_same([frozen, other])
        with Client(frozen.path) as client, Client(other.path) as steady:
            os.kill(engine, signal.SIGSTOP)
            client.send(b"verdict %s bad" % (b"a" * 64))
            time.sleep(1)
            os.kill(frozen.process.pid, signal.SIGSTOP)
            begun = time.monotonic()
            try:
                self.assertEqual(steady.tell(b"verdict %s bad" % (b"b" * 64)), b"ok")
                self.assertLess(time.monotonic() - begun, LONGEST)
            finally:
                with contextlib.suppress(ProcessLookupError):
                    os.kill(engine, signal.SIGCONT)
                os.kill(frozen.process.pid, signal.SIGCONT)
            self.assertEqual(client.read_line(), b"fault database")
        wait_until_same([frozen, other])
        self.assertEqual(status_of(frozen)[b"verdicts"], b"1")

    def test_a_slow_turn_is_no_frozen_one(self):
        """A turn in which an engine does nothing for four seconds is made, by that engine or by the one after it."""
        server, other = self.serve(), self.serve()
        engine, = server.engines()
        with Client(server.path) as client:
            os.kill(engine, signal.SIGSTOP)
            client.send(b"verdict %s bad" % (b"a" * 64))
            time.sleep(4)
            with contextlib.suppress(ProcessLookupError):  # Another one may have taken its place.
                os.kill(engine, signal.SIGCONT)
            self.assertEqual(client.read_line(), b"ok")
        wait_until_same([server, other])


class Moment:
    """Counts what is said in a turn. It is true of the message with this number, which is said once nobody else may
    change anything; of none if that is 0."""

    def __init__(self, number=0):
        self.count = 0
        self._number = number
        self._has_begun = False

    def __call__(self, message):
        self.count += self._has_begun
        self._has_begun |= b"FOR UPDATE" in message
        return self._number and self.count == self._number


class Moments(OneServer):
    """Connections without a service, of which one is stopped in the middle of each of its messages in turn."""
    AT_ONCE = 8

    def database(self, name, port=None):
        from tukyamid.service.postgres import Postgres
        url = self.url.replace(self.name, name).replace(f":{self.cluster.port}/", f":{port or self.cluster.port}/")
        return self.stack.enter_context(contextlib.closing(Postgres(url)))

    def make_change(self, database):
        """A turn with changes of two kinds, whose lines are longer than what is sent at once."""
        octets = bytes.fromhex(self.world.imports[0][7:].decode())
        effects = PutCertificate(bytes.fromhex(self.world.fprs[0].decode()), octets), SetVerdict(b"n" * 32, b"")
        database.lock_for_news()
        database.apply([Change("a change", Actor(1, 2), (effect,), b"l" * 20_000) for effect in effects])

    def wait_at(self, number):
        """For how long another one waits for its turn if one is stopped in the middle of this message."""
        name = f"{self.name}_{number}"
        self.cluster.query(f"CREATE DATABASE {name}", "postgres")
        other, relay = self.database(name), Relay(self.addCleanup, self.cluster.port)
        stopped = self.database(name, relay.port)
        relay.watch = Moment(number)
        with ThreadPoolExecutor(1) as making:
            made = making.submit(self.make_change, stopped)
            self.assertTrue(relay.held.wait(60))
            begun = time.monotonic()
            try:
                other.lock_for_news()
            finally:
                stopped.cut()
            other.unlock()
            waited = time.monotonic() - begun
            self.assertIsInstance(made.exception(), DatabaseFault)
        return waited

    def test_one_is_stopped_in_the_middle_of_any_message(self):
        relay = Relay(self.addCleanup, self.cluster.port)
        relay.watch = moment = Moment()
        self.make_change(self.database(self.name, relay.port))
        self.assertGreater(moment.count, 10)
        with ThreadPoolExecutor(self.AT_ONCE) as pool:
            waits = list(pool.map(self.wait_at, range(1, moment.count + 1)))
        self.assertLess(max(waits), LONGEST_HELD, waits)
