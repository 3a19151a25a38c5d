"""Letting in connections and lines: of each user in turn, whoever came first."""

import asyncio
import errno
import os
import socket
import tempfile
import unittest
from pathlib import Path
from unittest import mock

from tukyamid.service import accepting
from tukyamid.service.sessions.command_kinds import FREE
from tukyamid.service.sessions.user_shares import Bounds, Share, Shares

FULL = b"refused full clients\n"
TURN = 256  # Lines, as docs/SERVICE.md says.


class Told(asyncio.Protocol):
    """Notes whose connection it is, once that stands."""

    def __init__(self, order):
        self.order = order

    def connection_made(self, transport):
        self.order.append(transport.get_extra_info("socket").fileno())
        self.transport = transport
        transport.write(b"here\n")


class Accepting(unittest.IsolatedAsyncioTestCase):
    async def asyncSetUp(self):
        asyncio.get_running_loop().set_debug(False)  # It names each callback that a busy machine makes slow.
        folder = tempfile.TemporaryDirectory(prefix="tukyamid-accepting-")
        self.addCleanup(folder.cleanup)
        self.path = str(Path(folder.name, "socket"))
        self.listening = socket.socket(socket.AF_UNIX)
        self.listening.bind(self.path)
        self.listening.listen(1024)
        self.said, self.order, self.users, self.clients = [], [], {}, []
        self.addCleanup(lambda: [one.close() for one in self.clients])
        self.taken = []
        self.enterContext(mock.patch.object(accepting, "_user_of", self.user_of))

    def user_of(self, connected):
        """The first 300 connections are one user's, and what comes later is another's."""
        self.taken.append(connected)
        user = 1 if len(self.taken) <= 300 else 2
        self.users[connected.fileno()] = user
        return user

    async def serve(self, connected):
        await asyncio.get_running_loop().connect_accepted_socket(lambda: Told(self.order), connected)

    def accept(self, has_room=lambda user, waiting, of_all: True):
        acceptor = accepting.Acceptor(has_room, self.said.append)
        self.addCleanup(acceptor.close)
        acceptor.listen(self.listening, self.serve)
        return acceptor

    def connect(self):
        client = socket.socket(socket.AF_UNIX)
        client.connect(self.path)
        self.clients.append(client)
        return client

    async def until(self, is_so):
        async with asyncio.timeout(60):
            while not is_so():
                await asyncio.sleep(0.005)

    async def test_one_of_each_user_in_turn(self):
        """300 connections wait when another user comes, and most of them wait on when that one is served."""
        for _ in range(301):
            self.connect()
        self.accept()
        await self.until(lambda: len(self.order) == 301)
        place = [self.users[one] for one in self.order].index(2)
        self.assertLess(place, 100)

    async def test_who_has_gone_is_not_served(self):
        for _ in range(200):
            self.connect().close()
        client = self.connect()
        client.setblocking(False)
        self.accept()
        loop = asyncio.get_running_loop()
        self.assertEqual(await loop.sock_recv(client, 100), b"here\n")
        self.assertEqual(len(self.order), 1)

    async def test_who_leaves_a_line_is_served(self):
        client = self.connect()
        client.send(b"ask\n")
        client.close()
        self.accept()
        await self.until(lambda: len(self.order) == 1)

    async def test_no_room(self):
        client = self.connect()
        client.setblocking(False)
        self.accept(lambda user, waiting, of_all: False)
        self.assertEqual(await asyncio.get_running_loop().sock_recv(client, 100), FULL)
        self.assertEqual(self.order, [])

    async def test_those_that_wait_count(self):
        """With room for ten, the eleventh that waits is refused, and one of another user isn't."""
        self.users_asked = []
        for _ in range(301):
            self.connect()
        self.accept(lambda user, waiting, of_all: self.users_asked.append((user, waiting)) or waiting < 10)
        await self.until(lambda: 2 in [self.users[one] for one in self.order])
        self.assertEqual(max(waiting for _, waiting in self.users_asked), 10)

    async def test_those_of_all_users_count(self):
        """However many users connect at once, no more are let in than there may be clients: descriptors are left."""
        serving = asyncio.Event()

        async def serve(connected):
            await serving.wait()
            await self.serve(connected)

        shares = Shares(Bounds(clients=20, of_a_user=10), lambda: 0.0)
        with mock.patch.object(accepting, "_user_of", lambda connected: connected.fileno()):
            acceptor = accepting.Acceptor(shares.has_room, self.said.append)
            self.addCleanup(acceptor.close)
            clients = [self.connect() for _ in range(200)]
            acceptor.listen(self.listening, serve)
            loop = asyncio.get_running_loop()
            for client in clients:
                client.setblocking(False)
            refused = [await loop.sock_recv(client, 100) for client in clients[20:]]
            self.assertEqual(refused, [FULL] * 180)
            serving.set()
            self.assertEqual([await loop.sock_recv(client, 100) for client in clients[:20]], [b"here\n"] * 20)
        self.assertEqual(len(self.order), 20)

    async def test_too_many_open_files(self):
        """It says so, and goes on later."""
        accepted = mock.Mock(side_effect=[OSError(errno.EMFILE, os.strerror(errno.EMFILE))])
        listening = mock.Mock(wraps=self.listening, accept=accepted)
        client = self.connect()
        client.setblocking(False)
        acceptor = accepting.Acceptor(lambda user, waiting, of_all: True, self.said.append)
        self.addCleanup(acceptor.close)
        with mock.patch.object(accepting, "_PAUSE", 0.01):
            acceptor.listen(listening, self.serve)
            await self.until(lambda: self.said)
            listening.accept = self.listening.accept
        self.assertEqual(await asyncio.get_running_loop().sock_recv(client, 100), b"here\n")
        self.assertEqual(self.said, ["no connection can be taken: [Errno 24] Too many open files"])

    async def test_the_end(self):
        """Nobody is let in any more, and those who waited are disconnected."""
        acceptor = self.accept()
        acceptor.close()
        with self.assertRaises(ConnectionRefusedError):
            self.connect()


class Lines:
    """A client with lines that cost nothing, which begin as far as its user's share lets them."""

    def __init__(self, share, count):
        self.share, self.left, self.begun = share, count, 0

    def resume(self):
        while self.left and self.share.has_room(FREE, self):
            self.share.begin(FREE)
            self.left -= 1
            self.begun += 1
            self.share.end(FREE)


class Turns(unittest.IsolatedAsyncioTestCase):
    """However many lines a user sends at once, and by however many connections: the loop goes round between them."""

    async def test_lines_of_one_user(self):
        share, other = Share(lambda: 0.0, False), Share(lambda: 0.0, False)
        clients = [Lines(share, 600), Lines(share, 100), Lines(share, 600)]
        for client in clients:
            client.resume()
        self.assertEqual([client.begun for client in clients], [TURN, 0, 0])
        another = Lines(other, 10)
        another.resume()
        self.assertEqual(another.left, 0)
        seen = []
        while any(client.left for client in clients):
            before = sum(client.begun for client in clients)
            await asyncio.sleep(0)
            seen.append(sum(client.begun for client in clients) - before)
            self.assertLess(len(seen), 20)
        self.assertEqual(seen, [TURN] * 4 + [1300 - 5 * TURN])

    async def test_nobody_is_left_behind(self):
        """Those who wait for a turn get it in the order in which they came."""
        share = Share(lambda: 0.0, False)
        clients = [Lines(share, TURN) for _ in range(5)]
        for client in clients:
            client.resume()
        for place in range(5):
            self.assertEqual([client.begun for client in clients], [TURN] * (place + 1) + [0] * (4 - place))
            await asyncio.sleep(0)
