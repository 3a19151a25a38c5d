"""The client of a service, plain and asynchronous, and the engine's asynchronous client: the tests of `test_engine`
over each, the calls that each has, and how their connections end."""

import asyncio
import inspect
import signal
import socket
import tempfile
import unittest
from pathlib import Path

import test_engine
from outside import FAKE_ENGINE, HERE
from stand_ins import FakeService, Waiting
from tukyamid import Engine, EngineMissing, Gone, ProtocolError, ServiceEnded, ServiceMissing, Watched, connect
from tukyamid.client import Client, aio
from tukyamid.protocol import refusals
from tukyamid.protocol.service_lines import Certified, Change, Found, Issued, KeyringAdded, KeyringLine

A, B, N = "aa" * 20, "bb" * 20, "11" * 32


class OverASocket(test_engine.Framing):
    ended = ServiceEnded

    def open(self):
        service = FakeService()
        self.addCleanup(service.close)
        return connect(service.path)


class AsynchronousOverAProgram(test_engine.Framing):
    def open(self):
        return Waiting(lambda: aio.start(FAKE_ENGINE))

    def test_watches_are_told(self):
        engine = self.engine
        self.assertEqual(engine.told(), [])
        for watch in "uwx":
            self.assertEqual(engine.watch(watch, "v", A, 120, "Alice"), 120)
        engine.unwatch("w")
        self.assertEqual([key.fpr[:2] for key in engine.keys()], ["aa", "bb", "aa"])
        self.assertEqual(engine.told(), [Watched("u", 2**32 - 1), Gone("x")])
        self.assertEqual(engine.told(), [])
        self.assertRaises(ProtocolError, engine.watch, "z", "v", A, 1, "")

    def test_no_watch_begins_among_many_lines(self):
        with self.open() as engine:
            self.assertEqual(engine.feed([b"keys", b"watch u on v %s 120 Alice" % A.encode(), b"watch w off"]), [])
            self.assertEqual(engine.told(), [Watched("u", 2**32 - 1), Gone("x")])


class AsynchronousOverASocket(AsynchronousOverAProgram):
    ended = ServiceEnded

    def open(self):
        service = FakeService()
        self.addCleanup(service.close)
        return Waiting(lambda: aio.connect(service.path))


class OnlyAService(unittest.TestCase):
    """The lines that only a service answers, over both clients."""

    def setUp(self):
        service = FakeService()
        self.addCleanup(service.close)
        self.clients = [connect(service.path), Waiting(lambda: aio.connect(service.path))]
        for client in self.clients:
            self.addCleanup(client.close)

    def test_each_reply_is_its_type(self):
        for client in self.clients:
            self.assertEqual(client.status(), {"certificates": "3", "verdicts": "5", "database": "/tmp/a\\b c"})
            self.assertEqual(list(client.find("address", "a@b")), [Found(A, b"Alice"), Found(B, b"B\\ob \n")])
            self.assertEqual(list(client.find("user-id", b"Alice")), [])
            self.assertEqual(client.find("part", "\\\u00eb").count, 0)
            self.assertEqual(list(client.find("key", A)), [Found(A, b"Alice")])
            self.assertEqual(list(client.issuers(A)), [Issued(N, B)])
            self.assertRaises(refusals.RefusedAbsent, client.issuers, B)
            self.assertEqual(list(client.certified(A)), [Certified(1, B)])
            self.assertEqual(list(client.excerpt("from", [A, B])), [b"import c6", f"verdict {N} bad".encode()])
            for word, fprs in ("all", [A]), ("from", []), ("from", ["aa"]), ("from", [A] * 257):
                self.assertRaises(ValueError, client.excerpt, word, fprs)
            self.assertEqual(list(client.certified(B)), [])
            self.assertEqual(list(client.log(2)), [
                Change(7, 1764547200, 1000, 4711, "keyring add /tmp/\udcff")])
            self.assertEqual(client.keyrings(), [KeyringLine("/tmp/a", 3, ""), KeyringLine("gpg", 0, "no such file")])

    def test_keyrings(self):
        for client in self.clients:
            said = []
            self.assertEqual(client.add_keyring(Path("/tmp/a"), said.append), KeyringAdded(3, 9))
            self.assertEqual(said, ["certificates 1 of 3", "verdicts 9"])
            self.assertEqual(client.told(), [Watched("w", 40)])
            with self.assertRaises(refusals.KeyringFault) as caught:
                client.add_keyring(b"/tmp/\xff".decode(errors="surrogateescape"))
            self.assertEqual(str(caught.exception), "fault keyring /tmp/\\xff: no such file")
            self.assertIsNone(client.remove_keyring("/tmp/a"))
            self.assertRaises(refusals.RefusedReadOnly, client.remove_keyring, "gpg")
            self.assertRaises(refusals.DatabaseFault, client.export, B[:-2] + "01")

    def test_what_has_no_spelling_is_a_value_error(self):
        for client in self.clients:
            for by, sought in ("name", "x"), ("key", ""):
                self.assertRaises(ValueError, client.find, by, sought)
            self.assertRaises(ValueError, client.log, 0)


class Names(unittest.TestCase):
    def test_the_asynchronous_client_has_the_calls_of_the_plain_one(self):
        for plain, other in (Engine, aio.Engine), (Client, aio.Client):
            names = {name for name in dir(plain) if not name.startswith("_")}
            self.assertEqual(names, {name for name in dir(other) if not name.startswith("_")})
            for name in names:
                with self.subTest(name):
                    self.assertEqual(list(inspect.signature(getattr(plain, name)).parameters),
                                     list(inspect.signature(getattr(other, name)).parameters))

    def test_every_call_says_what_it_does(self):
        for kind in Engine, Client, aio.Engine, aio.Client:
            for name in dir(kind):
                if not name.startswith("_"):
                    self.assertTrue(inspect.getdoc(getattr(kind, name)), f"{kind.__name__}.{name}")


class Ends(unittest.TestCase):
    def test_ended_while_a_call_waits(self):
        async def wait(path):
            server = await asyncio.start_unix_server(lambda reader, writer: None, path)
            client = await aio.connect(path)
            waiting = asyncio.create_task(client.keys())
            await asyncio.sleep(0.05)
            client.end_at_once()
            with self.assertRaises(ServiceEnded):
                await asyncio.wait_for(waiting, 60)
            server.close()

        with tempfile.TemporaryDirectory() as folder:
            asyncio.run(wait(f"{folder}/silent"))

    def test_nobody_listens(self):
        with tempfile.TemporaryDirectory() as folder:
            nowhere = Path(folder) / "nowhere"
            self.assertRaises(ServiceMissing, connect, nowhere)
            self.assertRaises(ServiceMissing, asyncio.run, aio.connect(nowhere))
            self.assertRaises(ServiceMissing, connect, "x" * 300)

    def test_the_service_ends(self):
        service = FakeService()
        client = connect(service.path)
        keys = client.keys()
        self.assertRaises(ServiceEnded, client.close_view, "end")
        self.assertRaises(ServiceEnded, client.keys)
        self.assertEqual(len(list(keys)), 3)
        self.assertIsNone(client.close())
        self.assertIsNone(client.close())
        service.close()

    def test_a_silent_service_and_patience(self):
        with tempfile.TemporaryDirectory() as folder, socket.socket(socket.AF_UNIX) as listening:
            listening.bind(f"{folder}/socket")
            listening.listen()
            with connect(f"{folder}/socket", timeout=0.2) as client:
                self.assertRaisesRegex(ServiceEnded, "in time", client.keys)
                self.assertRaises(ProtocolError, client.keys)

    def test_a_program_that_cannot_be_started(self):
        self.assertRaises(EngineMissing, Engine, "/nowhere/at/all")
        self.assertRaises(EngineMissing, asyncio.run, aio.start("/nowhere/at/all"))
        self.assertRaises(EngineMissing, Engine, HERE)

    def test_an_interrupted_exchange_does_not_hang_at_the_close(self):
        class Interrupt(BaseException):
            pass

        def lines():
            yield from [b"import 05"] * 200_000
        engine = Engine(FAKE_ENGINE)
        taken = iter(range(1000))

        def receive():
            if next(taken, None) is None:
                raise Interrupt
            return original()
        original, engine._receive_and_drop = engine._receive_and_drop, receive
        self.assertRaises(Interrupt, engine.feed, lines())
        self.assertEqual(engine.close(), -signal.SIGKILL)
