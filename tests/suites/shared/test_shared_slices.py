"""A shared keyring that is larger than an engine: random lines of clients of several services, each of which hears what
one engine says that holds everything; and services that a keyring outgrows."""

import contextlib
import tempfile
from concurrent.futures import ThreadPoolExecutor
from pathlib import Path

import test_slices_scripts
from alone_cluster import OneServer
from bursts import talk
from outside import Client
from talking import dump_of, log_of, status_of, told, wait_until_same
from test_slices_scripts import BUDGET, Asking
from tukyamid.service.storage.database import Actor
from tukyamid.service.storage.sqlite_database import Sqlite
from world import World


class OneService(OneServer, test_slices_scripts.Scripts):
    """All scripts of the suite `slices`, over one service."""


class Services(OneServer, test_slices_scripts.Scripts):
    test_several_clients_at_once = test_engines_that_are_killed = test_a_budget_with_room_for_all_refuses_nothing = None

    def talk_both(self, seed, *budgets):
        """Two clients of each service talk at once. The first service is filled; both are turned meanwhile."""
        world, servers = self.new_world(seed), [self.serve("--budget", str(budget)) for budget in budgets]
        for server in servers:
            world.make_directory(server.directory)
        with Client(servers[0].path) as client:
            client.send(*world.lines())
            client.end()
        spoken = [{b"keys client-%d" % (2 * at + place): Asking(world, 100 * seed + 2 * at + place).lines(60)
                   for place in range(2)} for at, _ in enumerate(servers)]
        with ThreadPoolExecutor(4) as pool:
            talks = [{name: pool.submit(talk, server.path, name, lines, seed) for name, lines in own.items()}
                     for server, own in zip(servers, spoken)]
            heard = [{name: one.result() for name, one in own.items()} for own in talks]
        wait_until_same(servers)
        dumps = [dump_of(server) for server in servers]
        self.assertEqual(dumps[0], dumps[1])
        self.assertEqual(self.command("check", "--database", self.url), (0, ""))
        return [self.check(server, world, *both) for server, both in zip(servers, zip(spoken, heard))], servers

    def test_two_services(self):
        (one, other), servers = self.talk_both(5, BUDGET, BUDGET)
        for server in servers:
            self.assertIn("held in slices", server.said())
        for refused, asked in (one, other):
            self.assertGreater(asked, 20)
            self.assertLess(refused, asked)

    def test_two_services_with_room_for_all(self):
        found, _ = self.talk_both(6, 39, 39)
        self.assertEqual([refused for refused, _ in found], [0, 0])

    def test_only_one_holds_it_in_slices(self):
        found, servers = self.talk_both(7, BUDGET, 1000)
        self.assertEqual(found[1][0], 0)
        self.assertNotIn("held in slices", servers[1].said())


class Copies(OneServer):
    def test_a_copy_larger_than_an_engine(self):
        """It is restored beside a service that holds everything, and that goes on in slices."""
        world, server = World(count=12), self.serve("--budget", "10")
        with Client(server.path) as client:
            for line in self.world.lines()[:4]:
                client.tell(line)
        self.assertEqual(status_of(server)[b"loaded"], b"all")
        with tempfile.TemporaryDirectory() as name:
            copy = Path(name) / "copy.db"
            with contextlib.closing(Sqlite(copy)) as database:
                database.fill(told(world.lines()), "test", Actor(0, 0))
            self.assertEqual(self.command("restore", "--database", self.url, copy), (0, ""))
        wait_until_same([server])
        self.assertEqual(dump_of(server), told(world.lines()))
        self.assertNotEqual(status_of(server)[b"loaded"], b"all")
        with Client(server.path) as client:
            self.assertEqual(client.tell(b"drop " + world.fprs[3]), b"ok")
        self.assertEqual(log_of(server)[0].split(b" on ")[0], b"drop " + world.fprs[3])
        self.assertEqual(self.command("check", "--database", self.url), (0, ""))
