"""Several engines behind one service: all hold the same, whatever ends them."""

import asyncio
import gc
import os
import random
import tempfile
import unittest
import weakref
from contextlib import closing
from pathlib import Path

from outside import PROGRAM, WORN_ENGINE, Client, Server, alone, is_change, needs_engine, script_of
from tukyamid.service.storage import journal
from tukyamid.service.storage.database import Actor
from tukyamid.service.storage.sqlite_database import Sqlite
from tukyamid.service.whole.engine_pool import Hub
from world import Chatter, World

ENGINES = 3


@needs_engine
class SameState(unittest.TestCase):
    def change_all(self, lines, disturb=lambda hub, place: None):
        """Has a hub of several engines take these changes: their replies, the dump of each engine, that of the
        database, and the hub."""
        async def run(database):
            hub = Hub([PROGRAM, "run"], ENGINES, database)
            await hub.start()
            replies, whole = [None] * len(lines), asyncio.Event()

            def done(place, reply):
                replies[place] = reply
                if None not in replies:
                    whole.set()

            for place, line in enumerate(lines):
                hub.change(line, Actor(0, 0), lambda reply, _, place=place: done(place, reply))
                if place in (len(lines) // 3, len(lines) // 2):
                    hub._start_engine()
                disturb(hub, place)
                if place % 10 == 0:
                    await asyncio.sleep(0.002)
            await asyncio.wait_for(whole.wait(), 60)
            dumps = await asyncio.gather(*(self.dump_of(engine) for engine in hub.engines))
            await hub.close()
            return replies, [*dumps, script_of(database)], hub

        with tempfile.TemporaryDirectory(prefix="tukyamid-") as folder:
            with closing(Sqlite(Path(folder) / "keyring.db")) as database:
                result = asyncio.run(run(database))
                self.assertEqual(database.check(), [])
        return result

    @staticmethod
    async def dump_of(engine):
        answered = asyncio.get_running_loop().create_future()
        engine.send(b"dump", lambda reply, _: answered.set_result(reply))
        return (await answered).partition(b"\n")[2]

    def changes(self, seed, count):
        world = World()
        lines = world.lines() + [line for line in Chatter(world, seed).lines(5 * count) if is_change(line)][:count]
        lines = [line for line in lines if not line.startswith((b"load", b"store"))]
        random.Random(seed).shuffle(lines)
        return lines

    def check(self, lines, replies, dumps):
        *told, dump = alone([*lines, b"dump"])
        self.assertEqual(replies, told)
        self.assertEqual(len(dumps), ENGINES + 1)
        for one in dumps:
            self.assertEqual(one, dump.partition(b"\n")[2])

    def test_all_engines_and_the_database_hold_the_same(self):
        lines = self.changes(11, 150)
        replies, dumps, _ = self.change_all(lines)
        self.check(lines, replies, dumps)

    def test_an_answered_change_holds_no_client(self):
        """The journal keeps changes for long after they were answered, and their clients are gone by then."""
        heard = []

        class Hearing:
            def hear(self, reply, count):
                heard.append(reply)

        def disturb(hub, place):
            hearing = Hearing()
            held.append(weakref.ref(hearing))
            hub.change(b"verdict %064x bad" % place, Actor(0, 0), hearing.hear)

        held = []
        lines = self.changes(13, 40)
        _, _, hub = self.change_all(lines, disturb)
        self.assertEqual(heard, [b"ok\n"] * len(lines))
        self.assertGreater(len(hub._journal._changes), len(lines))
        gc.collect()
        self.assertEqual([one() for one in held if one() is not None], [])

    def test_the_log_of_the_database_begins_anew(self):
        """However many changes there were, the write-ahead log has no more of them than the journal."""
        sizes = []

        async def run(database):
            hub = Hub([PROGRAM, "run"], 1, database)
            await hub.start()
            for number in range(600):
                answered = asyncio.get_running_loop().create_future()
                hub.change(b"verdict %064x bad" % number, Actor(0, 0), lambda reply, _: answered.set_result(reply))
                self.assertEqual(await answered, b"ok\n")
                sizes.append(Path(f"{database.path}-wal").stat().st_size)
            await hub.close()

        before, journal.MOST_CHANGES = journal.MOST_CHANGES, 20
        try:
            with tempfile.TemporaryDirectory(prefix="tukyamid-") as folder:
                with closing(Sqlite(Path(folder) / "keyring.db")) as database:
                    asyncio.run(run(database))
        finally:
            journal.MOST_CHANGES = before
        self.assertLess(max(sizes), 2 * max(sizes[:100]))

    def test_and_so_where_they_are_killed_and_the_journal_is_renewed(self):
        draw, killed = random.Random(12), set()

        def disturb(hub, place):
            """Kills an engine, of those that have answered since one of theirs ended: a line at which three programs
            end one after another is given up."""
            alive = [one for one in hub.engines if one.pid not in killed | {None} and not one._failures]
            if place % 60 == 30 and alive:
                victim = draw.choice(alive).pid
                killed.add(victim)
                os.kill(victim, 9)

        before, journal.MOST_OCTETS = journal.MOST_OCTETS, 1000
        try:
            lines = self.changes(12, 200)
            replies, dumps, hub = self.change_all(lines, disturb)
        finally:
            journal.MOST_OCTETS = before
        self.check(lines, replies, dumps)
        self.assertTrue(killed)
        # However fast the engines are: the journal holds no more than its last snapshot's changes.
        self.assertGreater(hub._journal.first.place, 50)


@needs_engine
class ManyViews(unittest.TestCase):
    def setUp(self):
        self.world = World()

    def start(self, *options):
        server = Server(*options)
        self.addCleanup(server.__exit__)
        client = Client(server.path)
        self.addCleanup(client.socket.close)
        client.send(*self.world.lines())
        for _ in self.world.lines():
            client.read_line()
        return server, client

    def test_forty_views_of_one_client(self):
        """An engine has sixteen views: the others make room, and are made again."""
        _, client = self.start("--engines", "1")
        opening = [(b"view v%d time %d" % (place, 5000 + place),
                    b"view v%d root %s 120" % (place, self.world.fprs[place % 12])) for place in range(40)]
        for line in (line for pair in opening for line in pair):
            self.assertEqual(client.tell(line), b"ok")
        for group in (range(0, 14), range(14, 28), range(28, 40)):
            asks = [b"ask v%d %s 240 %s" % (place, self.world.fprs[to], self.world.user_ids[to])
                    for place in group for to in (0, place % 11 + 1)]
            opened = [line for place in group for line in opening[place]]
            told = alone([*self.world.lines(), *opened, *asks])[-len(asks):]
            self.assertEqual([client.tell(ask) for ask in asks], [reply.partition(b"\n")[0] for reply in told])
        client.send(b"dump")
        dump = client.end()
        self.assertEqual([line for line in dump.split(b"\n") if line.startswith(b"view ")],
                         [line for pair in sorted(opening) for line in pair])
        self.assertEqual(int(dump.split(b"\n")[0].split()[1]), dump.count(b"\n") - 1)

    def test_no_more_views_of_one_client_than_it_may_have(self):
        _, client = self.start("--views", "3")
        told = [client.tell(b"view v%d time 5" % place) for place in range(4)]
        self.assertEqual(told, [b"ok"] * 3 + [b"refused full views"])
        self.assertEqual(client.tell(b"view v0 time 6"), b"ok")
        self.assertEqual(client.tell(b"view v1 close"), b"ok")
        self.assertEqual(client.tell(b"view v4 time 6"), b"ok")


@needs_engine
class ManyCursors(unittest.TestCase):
    def test_another_engine_is_started_for_them(self):
        """An engine has sixteen cursors, and so has a client: two clients fill two engines, though nobody is busy. The
        last four are kept for another user."""
        with Server("--engines", "2") as server, Client(server.path) as one, Client(server.path) as two, \
                Client(server.path) as three:
            over = [b"cursor c%d over p 120" % place for place in range(16)]
            for client in (one, two, three):
                self.assertEqual(client.tell(b"view p time 5000"), b"ok")
            for client, count in ((one, 16), (two, 12)):
                self.assertEqual([client.tell(line) for line in over[:count]], [b"ok"] * count)
                self.assertEqual(client.tell(b"cursor more over p 120"), b"refused full cursors")
                self.assertEqual(client.tell(over[3]), b"ok")
            self.assertEqual(len(server.engines()), 2)
            self.assertEqual(three.tell(over[0]), b"refused full cursors")
            self.assertEqual(two.tell(b"cursor c7 close"), b"ok")
            self.assertEqual(three.tell(over[0]), b"ok")
            one.end()
            self.assertEqual([three.tell(line) for line in over[1:]], [b"ok"] * 15)


@needs_engine
class LinesThatEndAnEngine(unittest.TestCase):
    """A line at which each program ends is given up, and its sender dropped; nothing else is changed by it."""

    def check(self, fatal):
        world = World(count=5)
        with Server("--engines", "2", engine=WORN_ENGINE, environment={"WORN_WORD": "fa7a1fa7a1"}) as server:
            with Client(server.path) as client, Client(server.path) as unlucky:
                for line in world.lines():
                    client.tell(line)
                for name in (b"p", b"q"):
                    client.tell(b"view %s time 5000" % name)
                    client.tell(b"view %s root %s 120" % (name, world.fprs[0]))
                ask = b"ask q %s 120 %s" % (world.fprs[1], world.user_ids[1])
                before = client.tell(ask)
                unlucky.send(b"view p time 7", b"keys", fatal, b"view q time 7")
                self.assertEqual(unlucky.read_line(), b"ok")
                client.send(*[b"verdict %s bad" % number for number, _ in world.verdicts[:9]])
                self.assertEqual([client.read_line() for _ in range(9)], [b"ok"] * 9)
                client.send(*[b"verdict %s good %s" % verdict for verdict in world.verdicts[:9]])
                self.assertEqual([client.read_line() for _ in range(9)], [b"ok"] * 9)
                self.assertEqual(client.tell(ask), before)
                self.assertNotIn(b"refused", unlucky.rest())
            self.assertEqual(server.stop(), 0)
            self.assertIn("killed the engine several times", server.said())

    def test_a_question(self):
        self.check(b"ask p %s 120 fa7a1fa7a1" % World(count=5).fprs[0])

    def test_a_change(self):
        self.check(b"import fa7a1fa7a1")
