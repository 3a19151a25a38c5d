"""Three machines with PostgreSQL under Patroni, a service on each and clients of all of them, which meet one fault
after another. A ledger has each change that was acknowledged, and whatever isn't in the database afterwards is lost."""

import contextlib
import os
import random
import signal
import threading
import time
from dataclasses import asdict, dataclass, field
from functools import partial

from clusters import wait_for
from electing import Member
from network import Network
from talking import Writer, serve

_ATTEMPTS = 60
_BEFORE = 3.0  # Seconds in which all write before a fault.
_QUIET = 1.0  # Seconds after a cut in which replies that were on their way still arrive.
_ADD = "INSERT INTO plain VALUES (%s)"


class Ledger(Writer):
    """A client of one service. It notes when each change was acknowledged."""

    def __init__(self, server, place, pause):
        super().__init__(server, f"s{place}", pause=pause)
        self.place, self.times = place, []

    def _note(self, line, reply):
        super()._note(line, reply)
        if reply == b"ok":
            self.times.append(time.monotonic())

    def missing_in(self, primary):
        kept = list(zip(self.times, self.kept))  # More come while the server is asked.
        there = {line for line, in primary.rows("SELECT 'verdict ' || encode(number, 'hex') || ' bad' FROM verdicts")}
        return [(when, line.decode()) for when, line in kept if line.decode() not in there]


class Inserter(threading.Thread):
    """A client of PostgreSQL alone: it inserts numbers into a plain table on whichever server takes writes."""

    def __init__(self, members, place, pause):
        super().__init__(daemon=True)
        self.place, self.kept, self.times = place, [], []
        self._members, self._pause, self._count = members, pause, 0
        self._end = threading.Event()

    def run(self):
        import psycopg
        while not self._end.is_set():
            with contextlib.suppress(psycopg.Error), self._connected() as connection:
                while not self._end.wait(self._pause):
                    self._insert(connection)
            time.sleep(0.2)

    def _connected(self):
        import psycopg
        hosts, ports = (",".join(str(getattr(one, what)) for one in self._members) for what in ("at", "port"))
        with self._members[self.place].inside():
            return psycopg.connect(
                host=hosts, port=ports, user="tukyamid", dbname="keyring", target_session_attrs="read-write",
                connect_timeout=2, tcp_user_timeout=5000, autocommit=True)

    def _insert(self, connection):
        self._count += 1
        row, warned = f"{self.place} {self._count}", []
        connection.add_notice_handler(warned.append)
        connection.execute(_ADD, (row,))
        connection.remove_notice_handler(warned.append)
        if not warned:  # Else the server says that no standby has it.
            self.kept.append(row)
            self.times.append(time.monotonic())

    def end(self):
        self._end.set()
        self.join()

    def missing_in(self, primary):
        kept = list(zip(self.times, self.kept))
        there = {row for row, in primary.rows("SELECT name FROM plain")}
        return [(when, row) for when, row in kept if row not in there]


@dataclass
class Outcome:
    """What came of a fault. `lost` is how many acknowledged changes were missing afterwards."""
    fault: str
    seconds: float
    leaders: list[str] = field(default_factory=list)  # Before the fault, during it, and after it.
    stolen: bool = False  # Whether the machine that was cut off took the leadership back from another.
    again: float | None = None  # Seconds until a change was acknowledged again.
    stalled: float = 0.0  # The longest time, during the fault, in which no other machine had a change acknowledged.
    whole: float | None = None  # Seconds from its end until all three servers were in order; None if they weren't.
    roles: list[str] = field(default_factory=list)
    kept: int = 0
    lost: int = 0
    rows: list[str] = field(default_factory=list)  # The first lost ones: when each was acknowledged, from the fault on.

    def values(self):
        return asdict(self)


class Trial:
    """A cluster with its clients. `pause` is how long each of them waits between its changes."""

    def __init__(self, add_cleanup, client="etcd", seed=0, pause=0.05, services=True):
        self.draw = random.Random(seed)
        self._network = Network(add_cleanup, 3)
        self.members = Member.start_three(add_cleanup, [
            (self._network.at(place), partial(self._network.inside, place)) for place in range(3)], client)
        Member.primary_of(self.members).rows("CREATE TABLE plain (name TEXT PRIMARY KEY)")
        self._stack = contextlib.ExitStack()
        add_cleanup(self._stack.close)
        self.servers = []
        self.clients = [Inserter(self.members, place, pause) for place, _ in enumerate(self.members)]
        for member in self.members if services else ():
            with member.inside():
                self.servers.append(self._stack.enter_context(serve(Member.url(self.members))))
        self.clients += [Ledger(server, place, pause) for place, server in enumerate(self.servers)]
        for client in self.clients:
            add_cleanup(client.end)
            client.start()

    def kept(self):
        return sum(len(client.kept) for client in self.clients)

    def lost(self):
        """The acknowledged changes that the primary doesn't have, once it answers, with when they were acknowledged.
        One that was replaced may still take itself for the primary, so what is missing is looked for again."""
        end = time.monotonic() + 120
        while True:
            try:
                primary = Member.primary_of(self.members)
                missing = [pair for client in self.clients for pair in client.missing_in(primary)]
                if not missing or time.monotonic() > end:
                    return missing
            except Exception:
                if time.monotonic() > end:
                    raise
            time.sleep(1)

    def wait_until_all_write(self, patience=120):
        """Waits until each client has a change acknowledged from now on; whether that came."""
        counts = [len(client.kept) for client in self.clients]
        end = time.monotonic() + patience
        while time.monotonic() < end:
            if all(len(client.kept) > count for client, count in zip(self.clients, counts)):
                return True
            time.sleep(0.05)
        return False

    def place_of(self, role):
        """Which machine has this role, once all are in order."""
        roles = []

        def is_there():
            roles[:] = [one.role() for one in self.members]
            return role in roles

        self._wait_until_whole()
        wait_for(is_there)
        return roles.index(role)

    def cut(self, place, seconds):
        """Cuts a machine off, and heals the network."""
        return self._meet("cut", place, seconds, partial(self._network.cut, place), partial(self._network.heal, place))

    def kill(self, place, seconds):
        """Kills the server on a machine. Patroni starts it again."""
        return self._meet("kill", place, seconds, self.members[place].kill, lambda: None)

    def stop(self, place, seconds):
        """Stops a service, and has it go on."""
        pid = self.servers[place].process.pid
        return self._meet("stop", place, seconds, partial(os.kill, pid, signal.SIGSTOP),
                          partial(os.kill, pid, signal.SIGCONT))

    def end_service(self, place, seconds):
        """Kills a service, which is started again a while later."""
        server = self.servers[place]

        def begin():
            server.process.kill()
            server.process.wait()

        return self._meet("end", place, seconds, begin, partial(self._restart, place))

    def _restart(self, place):
        """Starts a service again, as often as systemd does: without a server that it can use it ends."""
        for attempt in range(_ATTEMPTS):
            try:
                with self.members[place].inside():
                    self.servers[place].start()
                return
            except AssertionError:
                if attempt == _ATTEMPTS - 1:
                    raise
                time.sleep(1)

    def _meet(self, fault, place, seconds, begin, end):
        self._wait_until_whole()
        time.sleep(_BEFORE)
        before = Member.primary_of(self.members)
        outcome = Outcome(f"{fault} {'primary' if self.members[place] is before else self.members[place].role()}",
                          round(seconds, 1), [before.name])
        begin()
        begun = time.monotonic()
        time.sleep(seconds)
        others = [one.name for one in self.members if one is not self.members[place] and one.role() == "master"]
        outcome.leaders += others[:1] or [""]
        end()
        self._see(outcome, begun, place)
        return outcome

    def _wait_until_whole(self):
        """How long it takes until all servers are in order; None if they aren't within minutes."""
        begun = time.monotonic()
        while time.monotonic() < begun + 300:
            if Member.is_whole(self.members):
                return round(time.monotonic() - begun, 1)
            time.sleep(0.5)
        return None

    def _longest_gap(self, place, begun, end):
        """The longest time between two changes that clients on other machines had acknowledged."""
        times = sorted(when for client in self.clients if client.place != place for when in client.times
                       if begun < when < end)
        return round(max(after - before for before, after in zip([begun, *times], [*times, end])), 1)

    def _see(self, outcome, begun, place):
        """What there is once the fault is over."""
        healed = time.monotonic()
        outcome.whole = self._wait_until_whole()
        self.wait_until_all_write()
        outcome.roles = [one.role() for one in self.members]
        outcome.leaders.append(Member.primary_of(self.members).name)
        elected = outcome.leaders[1]
        outcome.stolen = bool(elected) and elected != outcome.leaders[2] == self.members[place].name
        later = [when for client in self.clients for when in client.times if when > begun + _QUIET]
        outcome.stalled = self._longest_gap(place, begun, healed)
        outcome.again = round(min(later) - begun, 1) if later else None
        outcome.kept = self.kept()
        lost = self.lost()
        outcome.lost = len(lost)
        outcome.rows = [f"{when - begun:.2f} {row}" for when, row in lost[:20]]
